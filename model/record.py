"""A long recorded stream for the program `venue`, with the bytes that the model answers.

    python3 model/record.py FOLDER SEED COUNT

writes FOLDER/stdin and FOLDER/stdout: first the directed streams that can follow one another on one book, then COUNT random
messages that the generator makes on the same book, and at the end bytes that the reader refuses.
"""

import os
import sys

import directed
import generate
import messages
import venue
from book import Book, Refused, Settings


def replay(stream, book):
    """Gives the book the calls of a stream; the bytes of those that can be read."""
    start = 0
    while start < len(stream):
        try:
            message, taken = messages.read(stream[start:])
        except Refused:
            break
        venue.answer(book, message)
        start += taken
    return stream[:start]


def main(arguments):
    if len(arguments) != 3:
        sys.exit(__doc__)
    folder, seed, count = arguments[0], int(arguments[1]), int(arguments[2])
    book = Book(Settings(*venue.SETTINGS), venue.ROOMS)
    sent = bytearray(replay(directed.all_in_one(), book))
    for message, _ in generate.calls(seed, count, book):
        sent += messages.write(message)
    sent += bytes.fromhex(generate.BROKEN_ENDS[4])
    with open(os.path.join(folder, "stdin"), "wb") as out:
        out.write(sent)
    with open(os.path.join(folder, "stdout"), "wb") as out:
        out.write(venue.run(bytes(sent)))


if __name__ == "__main__":
    main(sys.argv[1:])
