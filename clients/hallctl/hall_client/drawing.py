"""A board drawn by plain signs, of a text as the hall keeps it. Nothing leaves this machine for it."""
BOXES = {4: (2, 2), 6: (3, 2), 9: (3, 3), 16: (4, 4), 25: (5, 5)}
# The signs before numbers of so many hexadecimal digits.
WIDTHS = {"-": 2, "+": 3}


def clues_at(kind, body, at):
    """The clues at a place of a body, None for an empty cell, and the place behind them."""
    byte = body[at]
    if "g" <= byte <= "z":
        return [None] * (int(byte, 36) - 15), at + 1
    if byte == ".":
        return ["?"], at + 1
    if kind == "slither":
        value = int(byte, 16)
        return [value % 5] + [None] * (value // 5), at + 1
    begin = at + (byte in WIDTHS)
    end = begin + WIDTHS.get(byte, 1)
    return [int(body[begin:end], 16)], end


def clues_of(text):
    """The kind, and the clues of each row."""
    kind, cols, rows, *rest = text.split("/")
    cols, rows, body, at = int(cols), int(rows), "".join(rest), 0
    clues = []
    while at < len(body):
        more, at = clues_at(kind, body, at)
        clues += more
    clues = (clues + [None] * (cols * rows))[:cols * rows]
    return kind, [clues[row * cols:(row + 1) * cols] for row in range(rows)]


def sudoku(rows, cells):
    wide, high = BOXES[len(rows)]
    between = "+".join(["-" * (wide * (len(cells[0][0]) + 1) + 1)] * (len(rows) // wide))
    for number, row in enumerate(cells):
        if number % high == 0:
            yield f"+{between}+"
        boxes = [" ".join(row[at:at + wide]) for at in range(0, len(row), wide)]
        yield f"| {' | '.join(boxes)} |"
    yield f"+{between}+"


def nurikabe(_, cells):
    line = f"+{'-' * (len(cells[0]) * (len(cells[0][0]) + 1) + 1)}+"
    return [line, *[f"| {' '.join(row)} |" for row in cells], line]


def slither(rows, cells):
    # A board of many columns is to fit in a terminal.
    gap = " " * (3 if len(rows[0]) < 20 else 1)
    dots = gap.join("+" * (len(rows[0]) + 1))
    for row in cells:
        yield dots
        yield (" " * (len(gap) // 2 + 1) + gap.join(row)).rstrip()
    yield dots


KINDS = {"sudoku": (sudoku, "."), "nurikabe": (nurikabe, "."), "slither": (slither, " ")}


def drawn(text):
    """The lines of the board."""
    kind, rows = clues_of(text)
    draw, empty = KINDS[kind]
    width = max((len(str(it)) for row in rows for it in row if it is not None), default=1)
    return list(draw(rows, [[str(empty if it is None else it).rjust(width) for it in row] for row in rows]))
