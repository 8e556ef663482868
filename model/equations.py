"""Random runs of the model as equations about the rules, which the prover checks by computation.

    python3 model/equations.py FOLDER FIRST_SEED RUNS CALLS

writes FOLDER/specs/Runs.antt and FOLDER/proofs/Computed.antt: for each run its opening, its calls, and what
the model answers, with both summaries after each call. In the folder of the crate `recorded` it makes the
recorded set anew. tools/compare_rules does the same in a copy, with fresh seeds.
"""

import sys

import generate
import venue
from book import Book, OrderType, Settings, Side

TYPES = {OrderType.FAS: "FaS", OrderType.FAK: "FaK", OrderType.FAKI: "FaKI"}
SIDES = {Side.BID: "Bid", Side.OFFER: "Offer"}

# Settings and rooms of the runs, in turn; the first are the venue's.
OPENINGS = (
    ((10, 10_000, 10_000, 8_000), (128, 128, 128)),
    ((1, 500, 1, 60_000), (128, 128, 128)),
    ((40, 1, 60_000, 1), (4, 3, 2)),
    ((3, 7, 5, 3), (6, 128, 1)),
)

HEAD = """-- Runs that the model in another language answered, recorded by its script. Assumes nothing.
use Rattle.std.specs.Prelude.{◌≡◌, List, [], ◌∷◌, pos, negsuc, Some, None, refl}
use Rattle.market.specs.declared.order.Side.TheVariants.{Bid, Offer}
use Rattle.market.specs.declared.order.OrderType.TheVariants.{FaS, FaK, FaKI}
use Rattle.market.specs.declared.call.Call.{Call}
use Rattle.market.specs.declared.call.Call.TheVariants.{Tick, Draw}
use Rattle.rules.specs.Board.{Opening}
use Rattle.rules.specs.Calls.{opened}
use Rattle.recorded.specs.Shorthand.{enter, change, cancel, Heard, heard, h}
"""

PROOF = """-- The recorded runs, by computation. Assumes nothing.
use Rattle.std.proofs.Common.{refl}
use Rattle.rules.specs.Opened.{rules}
use Rattle.recorded.specs.Shorthand.{heard}
use Rattle.recorded.specs.Runs.{Recorded}

pub recorded : Recorded
unfolding rules heard
recorded = record { %s }
"""


def signed(number):
    return "pos %d" % number if number >= 0 else "negsuc %d" % (-number - 1)


def listed(numbers):
    return " ∷ ".join([signed(number) for number in numbers] + ["[]"])


def call_term(call):
    kind = call["kind"]
    if kind == "entry":
        end = "(Some %d)" % call["end"] if call["end"] else "None"
        return "enter %d %s %s (%s) %d %d %s" % (
            call["trader"], SIDES[call["side"]], TYPES[call["type"]], signed(call["price"]),
            call["displayed"], call["reserve"], end)
    if kind == "change":
        return "change %d %d (%s) %d %d" % (
            call["trader"], call["order"], signed(call["price"]), call["displayed"], call["reserve"])
    if kind == "cancel":
        return "cancel %d %d" % (call["trader"], call["order"])
    return "Tick %d" % call["time"] if kind == "tick" else "Draw"


KINDS = {"quiet": 16, "fill": 17, "session": 18, "rolling": 19, "fbs": 20, "open": 21, "removal": 22, "reply": 32}


def heard_term(answer, book):
    fields = [int(value) for name, value in answer.items() if name != "kind"]
    sides = [book.summary(side) for side in (Side.BID, Side.OFFER)]
    parts = [[KINDS[answer["kind"]]] + fields] + [list(side) if side else [] for side in sides]
    return "h " + " ".join("(%s)" % listed(part) for part in parts)


def run_terms(seed, count, index):
    """The opening, the calls and what is heard of them, as terms."""
    settings, rooms = OPENINGS[index % len(OPENINGS)]
    book = Book(Settings(*settings), rooms)
    calls, told = [], []
    for call, answer in generate.calls(seed, count, book):
        calls.append(call_term(call))
        told.append(heard_term(answer, book))
    opening = ("record { settings = record { tenor = %d; timed = %d; rolling = %d; fbs = %d; made = refl }; "
               "bids = %d; offers = %d; ends = %d }" % (settings + rooms))
    return opening, calls, told


def definitions(name, type, terms):
    body = " ∷\n    ".join(terms + ["[]"])
    return "\nabbrev pub %s : List %s\n%s =\n    %s\n" % (name, type, name, body)


def main(arguments):
    if len(arguments) != 4:
        sys.exit(__doc__)
    folder, (first, runs, count) = arguments[0], map(int, arguments[1:])
    text, fields = HEAD, []
    for index in range(runs):
        opening, calls, told = run_terms(first + index, count, index)
        text += "\nabbrev pub opening%d : Opening\nopening%d = %s\n" % (index, index, opening)
        text += definitions("calls%d" % index, "Call", calls)
        text += definitions("told%d" % index, "Heard", told)
        fields.append("run%d" % index)
    text += "\npub record Recorded : Type 0 where\n"
    for index, field in enumerate(fields):
        text += "  pub %s : heard opening%d opened calls%d ≡ told%d\n" % (field, index, index, index)
    with open(folder + "/specs/Runs.antt", "w", encoding="utf-8") as out:
        out.write(text)
    with open(folder + "/proofs/Computed.antt", "w", encoding="utf-8") as out:
        out.write(PROOF % "; ".join(field + " = refl" for field in fields))


if __name__ == "__main__":
    main(sys.argv[1:])
