"""Checks docs/ against the model.

    python3 model/check_docs.py

Every example of docs/MESSAGES.md must have the bytes that messages.py gives it, and the whole run
at its end must be what venue.py answers. Every stream named in docs/DECISIONS.md must be one of
directed.py, and the other way round.
"""

import pathlib
import re
import sys

import messages
import venue
from book import Refused

DOCS = pathlib.Path(__file__).resolve().parent.parent / "docs"


def blocks(text):
    """The fenced blocks of a page, each as a list of its lines that are not empty."""
    found = re.findall(r"^```\n(.*?)^```$", text, re.M | re.S)
    return [[line for line in block.split("\n") if line] for block in found]


def example(line, data):
    """What is wrong with one example, or None."""
    if line.startswith("refused "):
        number, byte = map(int, re.fullmatch(r"refused number=(\d+) byte=(\d+)", line).groups())
        try:
            messages.read(data)
        except Refused as refusal:
            return None if (refusal.number, refusal.byte) == (number, byte) else str(refusal)
        return "is read"
    if messages.write(messages.parse(line)) != data:
        return "should be " + messages.write(messages.parse(line)).hex(" ").upper()
    reader = messages.read if line.split(" ")[0] in messages.CALLS else messages.read_answer
    message, taken = reader(data)
    if messages.text(message) != line or taken != len(data):
        return "is read as " + messages.text(message)
    return None


def check_messages(page):
    """The number of examples, and what is wrong with them."""
    count, wrong = 0, []
    for block in blocks(page):
        sent, answered, to = bytearray(), bytearray(), None
        while block:
            line = block.pop(0)
            if line in ("in", "out"):
                to = sent if line == "in" else answered
                continue
            data = bytes.fromhex(block.pop(0))
            fault = example(line, data)
            count += 1
            if fault:
                wrong.append(f"{line}: {fault}")
            if to is not None:
                to += data
        if to is not None and venue.run(bytes(sent)) != answered:
            wrong.append("the run is not what the model of the program answers")
    return count, wrong


def check_decisions(page):
    """The number of streams named, and what is wrong with the names."""
    import directed
    named = re.findall(r"`\[([a-z0-9-]+)\]`", page.replace("`[owner-early]`, is a stream", ""))
    known = [name for name, _ in directed.streams()]
    wrong = [f"{name}: no such stream" for name in named if name not in known]
    wrong += [f"{name}: named {named.count(name)} times" for name in known if named.count(name) != 1]
    return len(named), wrong


def main():
    examples, wrong = check_messages((DOCS / "MESSAGES.md").read_text(encoding="utf-8"))
    streams, misnamed = check_decisions((DOCS / "DECISIONS.md").read_text(encoding="utf-8"))
    for fault in wrong + misnamed:
        print(fault)
    print(f"{examples} examples and {streams} streams named, {len(wrong + misnamed)} wrong")
    return 1 if wrong or misnamed else 0


if __name__ == "__main__":
    sys.exit(main())
