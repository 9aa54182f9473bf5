#!/usr/bin/env python3
"""Makes bench/real/NAME.txt: boards in the sizes that federations print, with one solution each, and their answers.

    python3 bench/real/make.py NAME [SEED]

A random solution is made first; then clues are taken away one after another, in random order, while a SAT solver
(Debian's `picosat`) finds no second solution. Our own solver is not asked. What comes is kept, hard or easy. A large
Nurikabe keeps its numbers; where it has a second solution, its numbers and islands are mended until it has none.

Some sets are boards of another whose clues are thinned further. That takes many minutes a board. So there is one of
slither40_30, none of slither31_30 and slither45_30, and the two of sudoku25_few are as far as it came. `sudoku25_solo`
are boards that `sgt-solo` (Debian's `sgt-puzzles`) makes, at three of its levels. `nurikabe_large` has large islands,
few numbers and unknown ones: its boards have a solution, and perhaps others, and no answer stands beside them.
"""
import os
import random
import re
import subprocess
import sys
from itertools import islice

HERE = os.path.dirname(os.path.abspath(__file__))
sys.path.insert(0, os.path.dirname(HERE))
from real.nurikabe import LARGE, UNKNOWN, LargeNurikabe, Nurikabe, random_board
from real.read import read
from real.sat import Solver, search
from real.slither import Slither
from real.sudoku import Sudoku

# the kind, the columns and rows, how many boards, and the least share of the clues that is kept
SETS = {
    "sudoku9": ("sudoku", (9, 9), 40, 0),
    "sudoku16": ("sudoku", (16, 16), 20, 0),
    "sudoku25": ("sudoku", (25, 25), 19, 0.48),
    "sudoku25_few": ("sudoku", (25, 25), 2, 0.44, "sudoku25"),
    "slither15": ("slither", (15, 15), 12, 0.4),
    "slither20": ("slither", (20, 20), 12, 0.4),
    "slither25": ("slither", (25, 25), 12, 0.4),
    "slither30": ("slither", (30, 30), 12, 0.4),
    "slither31": ("slither", (31, 31), 33, 0.4),
    "slither40": ("slither", (40, 25), 34, 0.4),
    "slither50": ("slither", (50, 20), 33, 0.4),
    "slither31_few": ("slither", (31, 31), 33, 0.35),
    "slither40_few": ("slither", (40, 25), 34, 0.35),
    "slither50_few": ("slither", (50, 20), 33, 0.35),
    "slither31_30": ("slither", (31, 31), 8, 0.3, "slither31_few"),
    "slither40_30": ("slither", (40, 25), 8, 0.3, "slither40_few"),
    "slither45_30": ("slither", (45, 22), 4, 0.3),
    "nurikabe10": ("nurikabe", (10, 10), 20, 0),
    "nurikabe15": ("nurikabe", (15, 15), 12, 0),
    "nurikabe20": ("nurikabe", (20, 20), 12, 0),
    "nurikabe31": ("nurikabe", (31, 31), 20, 1),
    "nurikabe50": ("nurikabe", (50, 20), 20, 1),
}
LARGEST_ISLAND = 12
MOVES = 40
# hundredths of the walls that are tried to be taken away again: the more, the larger the islands
WALLS_TAKEN = (0, 10, 20, 30)
# the same for large boards, and how often their numbers and islands are mended before they are left
WALLS_TAKEN_LARGE = (0, 5, 10)
MENDINGS = 40
# sizes of boards with large islands, the sizes of their largest islands, and the shares of their numbers that are told
SIZES_OF_LARGE = ((20, 20), (25, 25), (31, 31), (50, 20))
LARGE_ISLANDS = (20, 60, 120, 200)
NUMBERS_TOLD = (1, 0.5)
# the levels of `sgt-solo`, and how many boards of each
SOLO = "/usr/games/sgt-solo"
LEVELS = {"t": 2, "b": 2, "i": 2}


def begin(name, size, rng):
    """A kind, its clauses, a random solution and its clues."""
    solver = Solver(rng.randrange(1 << 30))
    if name == "nurikabe" and size[0] * size[1] > LARGE:
        solution, clues = mended_board(size, rng)
        kind = LargeNurikabe(*size, clues)
        kind.encode(solver)
        return kind, solver, solution, list(clues)
    if name == "nurikabe":
        solution, clues = random_board(*size, LARGEST_ISLAND, rng.choice(WALLS_TAKEN), rng)
        move_numbers(size, solution, clues, rng)
        kind = Nurikabe(*size, clues)
        kind.encode(solver)
        return kind, solver, solution, list(clues)
    if name == "slither":
        kind = Slither(*size)
        kind.encode(solver)
        solution = kind.random_solution(rng)
    else:
        kind = Sudoku(size[0])
        kind.encode(solver)
        first = rng.sample(range(size[0]), size[0])
        solution = search(kind, solver, [], [kind.at[c][v] for c, v in enumerate(first)])
    return kind, solver, solution, kind.clues_of(solution)


def move_numbers(size, solution, clues, rng):
    """Moves a number to a cell that is a wall in a second solution, as long as there is one, and for a while at
    most."""
    for _ in range(MOVES):
        kind = Nurikabe(*size, clues)
        solver = Solver(rng.randrange(1 << 30))
        kind.encode(solver)
        second = search(kind, solver, [solution], assumed(kind, solver, clues))
        solver.close()
        if second is None:
            return
        cell = rng.choice([c for c, on in enumerate(solution) if second[c] and not on])
        island = next(g for g in kind.groups([c for c, on in enumerate(solution) if not on]) if cell in g)
        root = next(c for c in island if clues[c] is not None)
        clues[root], clues[cell] = None, clues[root]


def mended_board(size, rng):
    """A random solution and its numbers, changed where there are other solutions, as long as there are, and for a while
    at most."""
    solution, clues = random_board(*size, LARGEST_ISLAND, rng.choice(WALLS_TAKEN_LARGE), rng)
    moved = set()
    for _ in range(MENDINGS):
        kind = LargeNurikabe(*size, clues)
        solver = Solver()
        kind.encode(solver)
        others = list(kind.differing(solver, solution))
        solver.close()
        if not others:
            break
        for second in others:
            kind.mend(solution, second, LARGEST_ISLAND, moved, rng)
    return solution, clues


def assumed(kind, solver, clues):
    return [it for place, clue in enumerate(clues) for it in kind.literals(solver, place, clue)]


def thinned(kind, solver, solution, clues, share, rng):
    """A puzzle text with one solution, and its answer; None where even all clues leave a second one."""
    kind.block(solver, solution)
    is_one = lambda: search(kind, solver, [], assumed(kind, solver, clues)) is None
    if not is_one():
        return None
    for place in rng.sample(range(len(clues)), len(clues)):
        if sum(clue is not None for clue in clues) <= share * len(clues):
            break
        for clue in kind.weaker(clues[place]):
            kept, clues[place] = clues[place], clue
            if not is_one():
                clues[place] = kept
    return kind.text(clues), kind.answer(solution)


def made(name, size, share, rng):
    kind, solver, solution, clues = begin(name, size, rng)
    found = thinned(kind, solver, solution, clues, share, rng)
    solver.close()
    return found


def made_of(text, share, rng):
    """The same, of a board that has one solution."""
    kind, clues = read(text)
    solver = Solver(rng.randrange(1 << 30))
    kind.encode(solver)
    solution = search(kind, solver, [], assumed(kind, solver, clues))
    found = thinned(kind, solver, solution, clues, share, rng)
    solver.close()
    return found


def boards(name, seed):
    """The boards of a set, with their answers."""
    kind, size, _, share, *source = SETS[name]
    rng = random.Random(f"{name} {seed}")
    if source:
        with open(os.path.join(HERE, source[0] + ".txt"), encoding="utf-8") as file:
            for line in file:
                yield made_of(line.split()[0], share, rng)
    while True:
        yield made(kind, size, share, rng)


def solo_boards(seed):
    """Boards that `sgt-solo` makes, and their answers."""
    for level, count in LEVELS.items():
        words = [SOLO, "--generate", str(count), f"5x5d{level}#{seed}"]
        done = subprocess.run(words, capture_output=True, text=True, check=True)
        for line in done.stdout.split():
            yield made_of(solo_text(line.split(":", 1)[1]), 1, random.Random(seed))


def solo_text(body):
    """The puzzle text of a board of side 25 in the words of `sgt-solo`."""
    clues = []
    for sign in re.findall(r"[a-z]|[0-9]+", body):
        clues += [None] * (ord(sign) - 96) if sign.isalpha() else [int(sign) - 1]
    return Sudoku(25).text(clues)


def large_boards(seed):
    """Nurikabe boards with large islands."""
    rng = random.Random(f"nurikabe_large {seed}")
    for size in SIZES_OF_LARGE:
        for most in LARGE_ISLANDS:
            for told in NUMBERS_TOLD:
                _, clues = random_board(*size, most, 100, rng)
                clues = [clue if clue is None or rng.random() < told else UNKNOWN for clue in clues]
                yield (Nurikabe(*size, clues).text(clues),)


def main():
    name, seed = sys.argv[1], int(sys.argv[2]) if len(sys.argv) > 2 else 1
    found = WHOLE_SETS[name](seed) if name in WHOLE_SETS else islice(filter(None, boards(name, seed)), SETS[name][2])
    with open(os.path.join(HERE, name + ".txt"), "w") as out:
        for count, board in enumerate(found, 1):
            print(*board, file=out, flush=True)
            print(name, count, file=sys.stderr)


WHOLE_SETS = {"sudoku25_solo": solo_boards, "nurikabe_large": large_boards}

main()
