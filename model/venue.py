"""The model of the program `venue`: calls as bytes on standard input, answers on standard output.

    python3 model/venue.py [TENOR T R F [BID_ROOM OFFER_ROOM END_ROOM]] <calls >answers

Without arguments it has the settings of the program.
"""

import sys

import messages
from book import Book, Refused, Settings

SETTINGS = (10, 10_000, 10_000, 8_000)
ROOMS = (128, 128, 128)


def answer(book, message):
    """What the book answers to one call, as a message."""
    fields = {name: value for name, value in message.items() if name not in ("kind", "reference")}
    if "order" in fields:
        fields["number"] = fields.pop("order")
    try:
        result = getattr(book, message["kind"])(**fields)
    except Refused as refusal:
        return messages.reply(refusal.number)
    if message["kind"] == "draw":
        return messages.record(result)
    return messages.reply(0, result or 0)


def run(data, book=None):
    """The bytes that the program writes for the bytes of its whole input."""
    book = book or Book(Settings(*SETTINGS), ROOMS)
    out, start = bytearray(), 0
    while start < len(data):
        try:
            message, taken = messages.read(data[start:start + 2 + 0xFFFF])
        except Refused as refusal:
            out += messages.write(messages.reply(refusal.number))
            break
        out += messages.write(answer(book, message))
        start += taken
    return bytes(out)


def main(arguments):
    numbers = [int(word) for word in arguments]
    if len(numbers) not in (0, 4, 7):
        sys.exit(__doc__)
    settings = Settings(*(numbers[:4] or SETTINGS))
    book = Book(settings, numbers[4:] or ROOMS)
    sys.stdout.buffer.write(run(sys.stdin.buffer.read(), book))


if __name__ == "__main__":
    main(sys.argv[1:])
