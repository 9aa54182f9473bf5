#!/usr/bin/env python3
"""Measures requests to the hall where many answers of others are stored: hand-ins, reads of a round, listings.

    python3 bench/desk.py [PROGRAM] [--stored N ..]

PROGRAM is built from the sources in bench/desk; without it, bench/desk_program.py builds it and leaves it as
bench/desk/out/desk_bench.

Each measure is made where N answers of others are stored, by default 10, 1,000 and 100,000: 50 by each of them, over 20
rounds, the one of the hand-ins among them. The time is the processor time of the requests alone, which are made before:
the least of ten runs. The script checks that all replies are as wanted.
"""
import argparse

from desk_program import build
from lent import run_desk

RUNS = 10
# What is measured, the word for it, the rows of a listing, and how many requests.
MEASURES = [
    ("hand-ins", "submit", 0, 10000),
    ("rounds read", "read", 0, 10000),
    ("listings of 50 own rows", "own", 50, 1000),
    ("listings of 50 rows", "list", 50, 1000),
    ("listings of 1,000 rows", "list", 1000, 1000),
]


def measure_all(program, numbers):
    """Prints the least times. The runs of a measure stand apart, so that a busy moment doesn't spoil all of them."""
    cells = [(measure, stored) for measure in MEASURES for stored in numbers]
    least = {}
    for _ in range(RUNS):
        for measure, stored in cells:
            _, word, rows, count = measure
            spent = run_desk(program, word, stored, rows, count) / 1000 / count
            least[measure, stored] = min(spent, least.get((measure, stored), spent))
    print(" " * 25 + "".join(f"{stored:>14,}" for stored in numbers) + "  answers of others")
    for measure in MEASURES:
        print(f"{measure[0]:25}" + "".join(f"{least[measure, stored]:11.2f} us" for stored in numbers))


def main():
    parser = argparse.ArgumentParser(description=__doc__, formatter_class=argparse.RawDescriptionHelpFormatter)
    parser.add_argument("program", nargs="?")
    parser.add_argument("--stored", type=int, nargs="+", default=[10, 1000, 100000], metavar="N")
    args = parser.parse_args()
    measure_all(args.program or build(), args.stored)


if __name__ == "__main__":
    main()
