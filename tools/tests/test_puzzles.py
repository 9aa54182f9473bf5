"""`hall solve` and `hall judge` about small boards of Slitherlink and Nurikabe with random clues, beside a trial of all
their fillings by the rules as they are written here."""
import itertools
import random
import subprocess

import pytest
from harness.checks import check

STATUSES = {"none": 1, "one": 0, "more": 1}

def told_by(program, words, lines):
    """The line that the program writes of the lines, and its status."""
    text = "".join(f"{line}\n" for line in lines)
    ran = subprocess.run([program, *words], input=text.encode("latin-1"), capture_output=True, timeout=120)
    return ran.stdout.decode(), ran.returncode


def told(line):
    """The line as it is written, and the status that goes with it."""
    return f"{line}\n", STATUSES[line.split()[0]]


def reached(start, beside):
    """What can be reached from one of a set."""
    found, waiting = {start}, [start]
    while waiting:
        for more in beside(waiting.pop()):
            if more not in found:
                found.add(more)
                waiting.append(more)
    return found


def is_loop(cols, rows, clues, lines):
    """Slitherlink: the lines make one loop, and each number has so many of its cell's sides. A cell's clue is None
    where it has no number."""
    flat = cols * (rows + 1)
    ends = [(at, at + 1) for y in range(rows + 1) for at in range(y * (cols + 1), y * (cols + 1) + cols)]
    ends += [(at, at + cols + 1) for at in range(rows * (cols + 1))]
    drawn = [pair for pair, line in zip(ends, lines, strict=True) if line]
    degrees = {}
    for dot in itertools.chain(*drawn):
        degrees[dot] = degrees.get(dot, 0) + 1
    if not drawn or set(degrees.values()) != {2}:
        return False
    if len(reached(drawn[0][0], lambda dot: [a + b - dot for a, b in drawn if dot in (a, b)])) != len(degrees):
        return False
    for at, clue in enumerate(clues):
        x, y = at % cols, at // cols
        left = flat + y * (cols + 1) + x
        if clue is not None and lines[at] + lines[at + cols] + lines[left] + lines[left + 1] != clue:
            return False
    return True


def is_nurikabe(cols, rows, clues, walls):
    """Nurikabe: no pool, walls that hang together, and islands of one number each and so many cells. A clue is 0 where
    its number is unknown."""
    cells = range(cols * rows)

    def beside(at, value):
        near = [at - cols, at + cols] + [at - 1] * (at % cols > 0) + [at + 1] * (at % cols < cols - 1)
        return [it for it in near if 0 <= it < len(cells) and walls[it] == value]

    squares = [at for at in cells if at % cols < cols - 1 and at + cols < len(cells)]
    if any(walls[at] and walls[at + 1] and walls[at + cols] and walls[at + cols + 1] for at in squares):
        return False
    of_wall = [at for at in cells if walls[at]]
    if of_wall and len(reached(of_wall[0], lambda at: beside(at, 1))) != len(of_wall):
        return False
    if any(walls[at] and clues[at] is not None for at in cells):
        return False
    for at in cells:
        if not walls[at]:
            island = reached(at, lambda it: beside(it, 0))
            numbers = [clues[it] for it in island if clues[it] is not None]
            if len(numbers) != 1 or numbers[0] not in (0, len(island)):
                return False
    return True


# Kinds, columns, rows and how many boards.
BOARDS = [
    ("slither", 1, 1, 8), ("slither", 1, 2, 8), ("slither", 2, 1, 8), ("slither", 2, 2, 8), ("slither", 1, 3, 4),
    ("slither", 3, 1, 4), ("nurikabe", 1, 1, 4), ("nurikabe", 2, 1, 4), ("nurikabe", 1, 3, 4), ("nurikabe", 2, 2, 10),
    ("nurikabe", 3, 2, 10), ("nurikabe", 2, 3, 10), ("nurikabe", 3, 3, 20),
]
LETTERS = {"slither": "00112233gggggggg", "nurikabe": ".1234ggggggggggg"}


def fillings(kind, cols, rows):
    """Each filling, and its text."""
    places = cols * (rows + 1) + rows * (cols + 1) if kind == "slither" else cols * rows
    for values in itertools.product((0, 1), repeat=places):
        text = "".join(("01" if kind == "slither" else ".#")[it] for it in values)
        flat = cols * (rows + 1)
        yield values, f"{text[:flat]}/{text[flat:]}" if kind == "slither" else text


def solved_by_trial(kind, cols, rows, letters):
    """What a trial of all fillings finds, as it is written, and the texts of all that are right."""
    clues = [None if it == "g" else 0 if it == "." else int(it) for it in letters]
    is_right = is_loop if kind == "slither" else is_nurikabe
    right = [text for values, text in fillings(kind, cols, rows) if is_right(cols, rows, clues, values)]
    return "none" if not right else f"one {right[0]}" if len(right) == 1 else "more", right


def random_boards():
    """The kind, columns, rows and clues of each board."""
    chance = random.Random(1)
    return [
        (kind, cols, rows, "".join(chance.choice(LETTERS[kind]) for _ in range(cols * rows)))
        for kind, cols, rows, count in BOARDS for _ in range(count)
    ]


@pytest.mark.parametrize("kind", LETTERS)
def test_random_boards(program, kind):
    """A search, whose budget is every node of the plain tree, finds what the trial finds; of boards with at most 16
    fillings each is judged."""
    seen = set()
    for cols, rows, letters in [board for of, *board in random_boards() if of == kind]:
        puzzle = f"{kind}/{cols}/{rows}/{letters}"
        texts = [text for _, text in fillings(kind, cols, rows)]
        want, right = solved_by_trial(kind, cols, rows, letters)
        seen.add(want.split()[0])
        got = told_by(program, ["solve", "--budget", str(2 * len(texts) - 1)], [puzzle])
        check(f"solve {puzzle}", got, told(want))
        for text in texts if len(texts) <= 16 else []:
            line, _ = told_by(program, ["judge"], [puzzle, text])
            check(f"judge {puzzle} {text}", line == "right\n", text in right)
    check("what random boards have", seen, {"none", "one", "more"})
