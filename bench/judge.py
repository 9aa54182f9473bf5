#!/usr/bin/env python3
"""Time of `hall judge` against the number of cells, for boards of 50 columns and 1 to 20 rows and Sudoku of each side.

    python3 bench/judge.py [RUNS]

The program is the one that `./hall --prove` has left in crates/hall/out.

Each board is judged RUNS times (100 by default) by a process of its own; the least time of a run is printed, and beside
it what is left when the time for the smallest board, which is nearly all the start of a process, is taken off.
"""
import random
import subprocess
import sys
import time

from lent import PROGRAM

RUNS = int(sys.argv[1]) if len(sys.argv) > 1 else 100


def runs(letters):
    """Empty cells as runs of at most 20."""
    text = ""
    while letters > 0:
        part = min(letters, 20)
        text += chr(ord("f") + part)
        letters -= part
    return text


def nurikabe(cols, rows):
    """Random walls, a number 3 in every fifth cell."""
    chance = random.Random(cols * 100 + rows)
    body = "3" + "3".join(runs(4) for _ in range(cols * rows // 5))
    answer = "".join("#" if chance.random() < 0.5 else "." for _ in range(cols * rows))
    return "nurikabe/%d/%d/%s\n%s\n" % (cols, rows, body[: cols * rows * 2 // 5], answer)


def slither(cols, rows):
    """A line round the board, and a number in each cell."""
    flat = ["1" * cols] + ["0" * cols] * (rows - 1) + ["1" * cols]
    upright = ["1" + "0" * (cols - 1) + "1"] * rows
    return "slither/%d/%d/%s\n%s/%s\n" % (cols, rows, "2" * (cols * rows - 1) + "c", "".join(flat), "".join(upright))


def sudoku(side):
    """An empty board, filled by shifted rows."""
    signs = "123456789abcdefghijklmnop"
    rows = [signs[i % side: side] + signs[: i % side] for i in range(side)]
    return "sudoku/%d/%d/%s\n%s\n" % (side, side, runs(side * side), "".join(rows))


def least(text):
    best = None
    data = text.encode()
    for _ in range(RUNS):
        begin = time.perf_counter()
        subprocess.run([PROGRAM, "judge"], input=data, stdout=subprocess.DEVNULL, check=False)
        took = time.perf_counter() - begin
        best = took if best is None else min(best, took)
    return best * 1e6


def main():
    kinds = [
        ("nurikabe", [(50 * r, nurikabe(50, r)) for r in (1, 2, 5, 10, 20)]),
        ("slither", [(50 * r, slither(50, r)) for r in (1, 2, 5, 10, 20)]),
        ("sudoku", [(s * s, sudoku(s)) for s in (4, 6, 9, 16, 25)]),
    ]
    for kind, boards in kinds:
        first = None
        for cells, text in boards:
            took = least(text)
            first = took if first is None else first
            print("%-9s %5d cells  %8.0f us a run  %8.0f us above the smallest" % (kind, cells, took, took - first))


if __name__ == "__main__":
    main()
