#!/usr/bin/env python3
"""Makes bench/slither.txt: Slitherlink texts with one solution each, and their answers.

A loop is the rim of a region that grows from a random cell; it is the answer. Its numbers are then
taken away one after another, in random order, as long as the program still finds one solution and
until the wanted share is left. So the answers come from the loops, while "no other solution" is the
word of the program that is measured: it is proved to say `one` only where that is so.

    python3 bench/make_slither.py [PROGRAM] > bench/slither.txt

PROGRAM is the built `hall`, by default the one in crates/hall/out. A trial that takes over half a
second keeps its number, so another machine may keep others.
"""
import random
import subprocess
import sys

from lent import PROGRAM
from real.slither import STEPS, keeps_a_loop

# the side, how many boards, and the least share of cells with a number
BOARDS = [
    (7, 12, 0.0), (8, 6, 0.5), (10, 12, 0.0), (10, 6, 0.5), (12, 6, 0.0), (13, 4, 0.5), (15, 4, 0.0), (15, 4, 0.5),
    (20, 2, 0.2),
]


def region_of(side, rng):
    region = {(rng.randrange(side), rng.randrange(side))}
    share = rng.uniform(0.45, 0.6)
    for _ in range(4000):
        if len(region) >= share * side * side:
            break
        (row, col), (down, right) = rng.choice(sorted(region)), rng.choice(STEPS)
        cell = (row + down, col + right)
        if cell in region or not (0 <= cell[0] < side and 0 <= cell[1] < side):
            continue
        touching = sum((cell[0] + a, cell[1] + b) in region for a, b in STEPS)
        if (touching == 1 or rng.random() < 0.4) and keeps_a_loop(region, cell):
            region.add(cell)
    return region


def answer_of(side, region):
    def differ(a, b):
        return "1" if (a in region) != (b in region) else "0"

    flat = "".join(differ((r - 1, c), (r, c)) for r in range(side + 1) for c in range(side))
    upright = "".join(differ((r, c - 1), (r, c)) for r in range(side) for c in range(side + 1))
    return flat + "/" + upright


def numbers_of(side, region):
    cells = [(r, c) for r in range(side) for c in range(side)]
    return [sum((cell in region) != ((cell[0] + a, cell[1] + b) in region) for a, b in STEPS) for cell in cells]


def text_of(side, numbers):
    body, place = "", 0
    while place < len(numbers):
        if numbers[place] is None:
            run = 1
            while run < 20 and place + run < len(numbers) and numbers[place + run] is None:
                run += 1
            body += chr(102 + run)
            place += run
            continue
        empty = 0
        while empty < 2 and (place + empty + 1 >= len(numbers) or numbers[place + empty + 1] is None):
            empty += 1
        body += "0123456789abcde"[5 * empty + numbers[place]]
        place += empty + 1
    return f"slither/{side}/{side}/{body}"


def has_one(program, text):
    try:
        done = subprocess.run([program, "solve"], input=text + "\n", capture_output=True, text=True, timeout=0.5)
    except subprocess.TimeoutExpired:
        return False
    return done.stdout.startswith("one ")


def main():
    program = sys.argv[1] if len(sys.argv) == 2 else PROGRAM
    rng = random.Random(7)
    for side, count, share in BOARDS:
        made = 0
        while made < count:
            region = region_of(side, rng)
            numbers = numbers_of(side, region)
            if not has_one(program, text_of(side, numbers)):
                continue
            for place in rng.sample(range(side * side), side * side):
                if sum(number is not None for number in numbers) <= share * side * side:
                    break
                kept, numbers[place] = numbers[place], None
                if not has_one(program, text_of(side, numbers)):
                    numbers[place] = kept
            print(text_of(side, numbers), answer_of(side, region), flush=True)
            made += 1


if __name__ == "__main__":
    main()
