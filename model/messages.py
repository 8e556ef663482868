"""The messages as bytes and as one line of text, written from docs/MESSAGES.md alone.

A message is a plain dict with its name under "kind" and its fields in the order of the layout.
"""

import struct

import book
from book import Cause, OrderType, Refused, Side

VERSION = 1
HEAD = struct.Struct(">HBB")        # length, version, kind
MAX_REFERENCE = 16

# name: (kind, fields in order, layout of the fields)
CALLS = {
    "entry": (1, ("trader", "side", "type", "price", "displayed", "reserve", "end"), ">BBBiIIQ"),
    "change": (2, ("trader", "order", "price", "displayed", "reserve"), ">BIiII"),
    "cancel": (3, ("trader", "order"), ">BI"),
    "tick": (4, ("time",), ">Q"),
    "draw": (5, (), ">"),
}
ANSWERS = {
    "quiet": (16, ("time",), ">Q"),
    "fill": (17, ("time", "price", "size", "bid", "bid_displayed", "offer", "offer_displayed"),
             ">QiIIIII"),
    "session": (18, ("time", "price", "passive"), ">QiI"),
    "rolling": (19, ("time",), ">Q"),
    "fbs": (20, ("time",), ">Q"),
    "open": (21, ("time",), ">Q"),
    "removal": (22, ("time", "order", "displayed", "cause"), ">QIIB"),
    "reply": (32, ("refusal", "order"), ">BI"),
}
LAYOUTS = {**CALLS, **ANSWERS}

RECORDS = {
    book.QuietRecord: "quiet",
    book.FillRecord: "fill",
    book.SessionRecord: "session",
    book.RollingRecord: "rolling",
    book.FbsRecord: "fbs",
    book.OpenRecord: "open",
    book.RemovalRecord: "removal",
}

# How the text form spells fields that are not plain numbers.
WORDS = {
    "side": {Side.BID: "bid", Side.OFFER: "offer"},
    "type": {OrderType.FAS: "FaS", OrderType.FAK: "FaK", OrderType.FAKI: "FaKI"},
}


def write(message):
    """Any message as bytes."""
    kind, fields, layout = LAYOUTS[message["kind"]]
    rest = struct.pack(layout, *(message[name] for name in fields)) + message.get("reference", b"")
    return HEAD.pack(len(rest) + 2, VERSION, kind) + rest


def write_into(message, buffer):
    """Puts the message at the start of a bytearray, and answers how many bytes it has."""
    data = write(message)
    if len(buffer) < len(data):
        raise Refused(19)
    buffer[:len(data)] = data
    return len(data)


def record(answer):
    """A record of the book as a message."""
    return {"kind": RECORDS[type(answer)], **vars(answer)}


def reply(refusal=0, order=0):
    return {"kind": "reply", "refusal": refusal, "order": order}


def read(data):
    """The call at the start of `data` and how many bytes it took; or Refused 2 to 6."""
    if len(data) < 4:
        raise Refused(2, len(data))
    length, version, number = HEAD.unpack_from(data)
    if length < 2 or len(data) < length + 2:
        raise Refused(2, len(data))
    if version != VERSION:
        raise Refused(3, 2)
    names = [name for name, (kind, _, _) in CALLS.items() if kind == number]
    if not names:
        raise Refused(4, 3)
    return decode(names[0], data[:length + 2]), length + 2


def read_answer(data):
    """The record or reply at the start of `data` and how many bytes it took."""
    length, version, number = HEAD.unpack_from(data)
    name, = [name for name, (kind, _, _) in ANSWERS.items() if kind == number]
    assert version == VERSION and len(data) >= length + 2
    return decode(name, data[:length + 2]), length + 2


def decode(name, data):
    """The fields of a message of known kind; Refused 5 or 6."""
    _, fields, layout = LAYOUTS[name]
    reference = len(data) - 4 - struct.calcsize(layout)
    if not 0 <= reference <= (MAX_REFERENCE if name == "entry" else 0):
        raise Refused(5, 0)
    message = {"kind": name, **dict(zip(fields, struct.unpack_from(layout, data, 4)))}
    if name == "entry":
        if message["side"] not in (0, 1):
            raise Refused(6, 5)
        if message["type"] not in (0, 1, 2):
            raise Refused(6, 6)
        message["side"], message["type"] = Side(message["side"]), OrderType(message["type"])
        message["reference"] = data[len(data) - reference:]
    if name == "removal":
        message["cause"] = Cause(message["cause"])
    return message


# ---- text ---------------------------------------------------------------------------------


def text(message):
    """One line: the name, then field=value."""
    words = [message["kind"]]
    for name, value in message.items():
        if name == "reference":
            words.append('reference="%s"' % value.decode("latin-1"))
        elif name != "kind":
            words.append("%s=%s" % (name, WORDS[name][value] if name in WORDS else int(value)))
    return " ".join(words)


def parse(line):
    """The message that `text` gives as this line."""
    name, *words = line.split(" ")
    message = {"kind": name}
    for word in words:
        field, value = word.split("=", 1)
        if field == "reference":
            message[field] = value.strip('"').encode("latin-1")
        elif field in WORDS:
            message[field], = [key for key, spelt in WORDS[field].items() if spelt == value]
        else:
            message[field] = int(value)
    return message
