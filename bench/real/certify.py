#!/usr/bin/env python3
"""Measures the search and a SAT solver (Debian's `picosat`) on the boards of bench/real, in one run.

    python3 bench/real/certify.py [--program PROGRAM] [--instructions] [--alone] [NAME ..]

PROGRAM is built from the sources in bench/real/program; without it, it is built and left in bench/real/program/out.
With `--alone` the SAT solver isn't asked.

For each file NAME.txt of bench/real it prints how many boards the search certifies within the default budget of `hall
solve`, the mean and greatest time of the search and of the SAT solver, the mean and greatest count of visits, the
time of the longest visit, and how many times the SAT solver's time the search takes on the board on which that is
most. The search's time is the processor time of the search alone, the least of three runs; a visit's is that from its
beginning to that of the next. The SAT solver's is what its library took to find the solution and that there is no
other, with and without the adding of clauses, which is called from Python, one literal at a time; what Python takes
to find the clauses isn't counted. With `--instructions` it also counts what the program executes for the first three
boards of each file (`valgrind --tool=callgrind`), the reading of the puzzle among it: the same on every machine.

The boards of slither_tail.txt are those of some twenty made as `make.py` makes them, of 50 by 20, 40 by 25 and 25 by
25 with 35 and 40 % of the clues, on which the search made most visits before it counted failures (up to 32,869): a
choice that has nothing to do with a failure shows there. Those of sudoku9_none.txt have no solution, and 15 to 25
clues. One is Norvig's. The others were random; then clues were changed as long as a search without failures, or for
20 of them one that counts failures from its first visit on, made ever more visits. A board without an answer, as
those of nurikabe_large.txt, may have any number of solutions: it counts where the search doesn't give up. It is
searched once, and the SAT solver isn't asked.
"""
import argparse
import os
import subprocess
import sys
from typing import NamedTuple

HERE = os.path.dirname(os.path.abspath(__file__))
sys.path.insert(0, os.path.dirname(HERE))
import built
from real.read import read
from real.sat import Solver, search

RUNS = 3
# in the place of an answer: there is no solution
NONE = "none"
STANDS_ON = ["hall_grid", "hall_solve", "hall_sudoku", "hall_slither", "hall_nurikabe"]


def sat_times(text, answer):
    """The milliseconds that the SAT solver takes to find the solution and that there is no other: all, and for solving
    alone."""
    kind, clues = read(text)
    solver = Solver()
    kind.encode(solver)
    for place, clue in enumerate(clues):
        for literal in kind.literals(solver, place, clue):
            solver.add([literal])
    solution = search(kind, solver, [])
    if (NONE if solution is None else kind.answer(solution)) != answer:
        raise SystemExit(f"the SAT solver finds another solution: {text}")
    if solution is not None and search(kind, solver, [solution]) is not None:
        raise SystemExit(f"the SAT solver finds another solution: {text}")
    solver.close()
    return 1000 * (solver.adding + solver.solving), 1000 * solver.solving


class Row(NamedTuple):
    """What the search finds, the values of the one solution, the visits, the milliseconds of all and of the longest."""

    found: str
    values: list
    visits: int
    spent: float
    longest: float


def search_all(program, texts):
    """A row for each puzzle text."""
    given = "".join(f"{text}\n" for text in texts)
    done = subprocess.run([program], input=given, capture_output=True, text=True, check=True)
    rows = [line.split() for line in done.stdout.splitlines()]
    return [
        Row(found, values.strip(",").split(","), int(visits), int(spent) / 1e6, int(longest) / 1e6)
        for found, values, visits, spent, longest in rows
    ]


def instructions(program, texts):
    """How many millions of instructions the program executes for each of the puzzle texts, the mean."""
    words = ["valgrind", "--tool=callgrind", "--callgrind-out-file=/dev/null", program]

    def count(lines):
        given = "".join(f"{text}\n" for text in lines)
        done = subprocess.run(words, input=given, capture_output=True, text=True, check=True)
        return next(int(line.split()[-1]) for line in done.stderr.splitlines() if "Collected" in line)

    return (count(texts) - count([])) / len(texts) / 1e6


def is_right(text, answer, row):
    """Whether the search gave up or found the answer; where none is known, anything is."""
    if row.found == "gave-up" or answer is None:
        return True
    if answer == NONE:
        return row.found == NONE
    return row.found == "one" and read(text)[0].answer([int(value) for value in row.values]) == answer


def mean(values):
    return sum(values) / len(values) if values else float("nan")


def of_sat(boards, times):
    """What is printed of the SAT solver."""
    sat, solving = zip(*(sat_times(text, answer) for text, answer in boards))
    most = max(mine / theirs for mine, theirs in zip(times, sat))
    return (
        f"  SAT {mean(sat):8.1f} {max(sat):8.1f} ms, solving {mean(solving):7.1f} {max(solving):7.1f} ms"
        f"  {most:5.2f} times SAT's on the worst board"
    )


def measure(program, name, counts, alone):
    with open(os.path.join(HERE, name + ".txt"), encoding="utf-8") as file:
        boards = [(text, *answer, None)[:2] for text, *answer in map(str.split, file)]
    known = all(answer for _, answer in boards)
    runs = [search_all(program, [text for text, _ in boards]) for _ in range(RUNS if known else 1)]
    for (text, answer), row in zip(boards, runs[0]):
        if not is_right(text, answer, row):
            raise SystemExit(f"WRONG {text} {row.found}")
    ended = sum(row.found != "gave-up" for row in runs[0])
    visits = [row.visits for row in runs[0]]
    times = [min(row.spent for row in rows) for rows in zip(*runs)]
    longest = max(min(row.longest for row in rows) for rows in zip(*runs))
    print(
        f"{name:15} {ended:3} of {len(boards):3}  {mean(times):9.2f} {max(times):9.2f} ms"
        f"  visits {mean(visits):8.1f} {max(visits):7}, longest {longest:7.2f} ms"
        + ("" if alone or not known else of_sat(boards, times)),
        flush=True,
    )
    if counts:
        count = instructions(program, [text for text, _ in boards[:3]])
        print(f"{'':15} {count:9.1f} million instructions a board", flush=True)


def main():
    parser = argparse.ArgumentParser(description="Measures the search and a SAT solver on the boards of bench/real.")
    parser.add_argument("--program")
    parser.add_argument("--instructions", action="store_true")
    parser.add_argument("--alone", action="store_true")
    parser.add_argument("names", nargs="*")
    words = parser.parse_args()
    program = words.program or built.build("real_bench", os.path.join(HERE, "program"), STANDS_ON)
    names = words.names or sorted(name[:-4] for name in os.listdir(HERE) if name.endswith(".txt"))
    print("(each time and count: the mean, and the greatest; of visits also the time of the longest)")
    for name in names:
        measure(program, name, words.instructions, words.alone)


main()
