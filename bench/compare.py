"""Compares a program that should behave as `venue` does with the model, byte for byte.

    python3 bench/compare.py [--program PATH] [--fixed] [FIRST_SEED STREAMS COUNT]

Without --program it builds and runs the baseline in bench/baseline. It runs all directed streams
and then STREAMS random streams of COUNT messages (by default 200 of 600). Most of these have the
settings of `venue`; with every fourth seed other settings and rooms are tried, given to the program
as arguments, unless --fixed says that the program takes none. Streams that differ are kept in
bench/target/differing. The exit status is 1 if any did.
"""

import argparse
import pathlib
import random
import subprocess
import sys

ROOT = pathlib.Path(__file__).resolve().parent.parent
sys.path.insert(0, str(ROOT / "model"))

import directed  # noqa: E402
import generate  # noqa: E402
import venue     # noqa: E402
from book import Book, Settings  # noqa: E402

TENORS = list(range(1, 31)) + [40]


def baseline():
    folder = ROOT / "bench" / "baseline"
    subprocess.run(["cargo", "build", "--release", "--quiet", "--offline"], cwd=folder, check=True)
    return folder / "target" / "release" / "baseline"


def other_settings(seed):
    """Tenor, periods and rooms, small ones more often than large."""
    chance = random.Random(seed)
    periods = [chance.choice((1, 2, 5, 700, 10_000, 60_000)) for _ in range(3)]
    rooms = [chance.choice((0, 1, 4, 12, 128, 300)) or chance.randint(0, 3) for _ in range(3)]
    return [chance.choice(TENORS), *periods, *rooms]


def cases(first, streams, count, fixed):
    """(name, arguments, calls): all directed streams, then the random ones."""
    for name, sent in directed.streams() + [("all", directed.all_in_one())]:
        yield name, [], sent
    for seed in range(first, first + streams):
        arguments = other_settings(seed) if seed % 4 == 1 and not fixed else []
        yield f"random-{seed}", arguments, generate.stream(seed, count, book_of(arguments))


def book_of(arguments):
    numbers = arguments or [*venue.SETTINGS, *venue.ROOMS]
    return Book(Settings(*numbers[:4]), numbers[4:])


def main():
    parser = argparse.ArgumentParser(usage=__doc__)
    parser.add_argument("--program", type=pathlib.Path)
    parser.add_argument("--fixed", action="store_true")
    parser.add_argument("numbers", type=int, nargs="*", default=[0, 200, 600])
    options = parser.parse_args()
    first, streams, count = options.numbers
    program = (options.program or baseline()).resolve()
    differing = ROOT / "bench" / "target" / "differing"
    compared = different = octets = 0
    for name, arguments, sent in cases(first, streams, count, options.fixed):
        expected = venue.run(sent, book_of(arguments))
        answered = subprocess.run([program, *map(str, arguments)], input=sent,
                                  stdout=subprocess.PIPE).stdout
        compared += 1
        octets += len(expected)
        if answered != expected:
            different += 1
            differing.mkdir(parents=True, exist_ok=True)
            (differing / f"{name}.in").write_bytes(sent)
            (differing / f"{name}.out").write_bytes(expected)
            print(f"{name} differs, arguments {arguments}")
    print(f"{compared} streams compared, {octets} bytes of answers, {different} differ")
    return 1 if different else 0


if __name__ == "__main__":
    sys.exit(main())
