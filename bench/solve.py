#!/usr/bin/env python3
"""Measures `hall solve` over a file of puzzles with one solution each.

    python3 bench/solve.py bench/sudoku.txt [PROGRAM]

Each line of the file is a puzzle text, a space and its answer. PROGRAM is the built `hall`, by
default the one in crates/hall/out. For each puzzle the script checks that the program answers
`one ANSWER`, and prints the visits and the milliseconds, the slowest first.

The time is the best of five runs, less the best of five runs with budget 0, which only start the
program and read the puzzle. The visits are the least budget with which the search doesn't give up.
"""
import subprocess
import sys
import time

from lent import PROGRAM

RUNS = 5
DEFAULT_BUDGET = 200000


def solve(program, text, budget):
    """The line that the program writes, and the seconds that it took."""
    began = time.perf_counter()
    words = [program, "solve", "--budget", str(budget)]
    done = subprocess.run(words, input=text + "\n", capture_output=True, text=True)
    return done.stdout.rstrip("\n"), time.perf_counter() - began


def best_time(program, text, budget):
    return min(solve(program, text, budget)[1] for _ in range(RUNS))


def visits_of(program, text):
    """The least budget with which the search doesn't give up."""
    high = 1
    while high < DEFAULT_BUDGET and solve(program, text, high)[0] == "gave up":
        high = min(2 * high, DEFAULT_BUDGET)
    low = high // 2
    while low + 1 < high:
        middle = (low + high) // 2
        if solve(program, text, middle)[0] == "gave up":
            low = middle
        else:
            high = middle
    return high


def main():
    if len(sys.argv) not in (2, 3):
        sys.exit(__doc__)
    program = sys.argv[2] if len(sys.argv) == 3 else PROGRAM
    rows, wrong = [], 0
    for line in open(sys.argv[1]):
        text, answer = line.split()
        said, _ = solve(program, text, DEFAULT_BUDGET)
        if said != "one " + answer:
            print("WRONG", text, said)
            wrong += 1
            continue
        spent = best_time(program, text, DEFAULT_BUDGET) - best_time(program, text, 0)
        rows.append((1000 * max(spent, 0), visits_of(program, text), text))
    rows.sort(reverse=True)
    for spent, visits, text in rows:
        print(f"{spent:8.1f} ms {visits:7} visits  {text}")
    print(f"{len(rows)} solved, {wrong} wrong; slowest {rows[0][0]:.1f} ms, all {sum(r[0] for r in rows):.1f} ms")
    sys.exit(1 if wrong else 0)


main()
