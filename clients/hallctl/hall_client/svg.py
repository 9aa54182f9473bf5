"""A board as SVG with the look of the entrants' page, and with a solution in it where one is given. The colours are the
stylesheet's (site.css), by the names of the classes."""
from .drawing import BOXES, clues_of
from .markup import tag

# The side of a cell, and free space round the board, in the units of the SVG.
UNIT, EDGE = 40, 14


def at(column, row):
    """The middle of a cell."""
    return {"x": int((column + 0.5) * UNIT), "y": int((row + 0.5) * UNIT)}


def clues(rows):
    """The numbers that are printed."""
    for y, row in enumerate(rows):
        for x, clue in enumerate(row):
            if clue is not None:
                yield tag("text", clue, class_="clue long" if len(str(clue)) > 2 else "clue", **at(x, y))


def lines(places, way):
    """Lines over the whole board: upright ones by `v`, those across by `h`."""
    return "".join(f"M{x * UNIT} {y * UNIT}{way}" for x, y in places)


def sudoku(rows, solution):
    side = len(rows)
    wide, high = BOXES[side]
    thin, thick = ("".join(lines([(i, 0)], f"v{side * UNIT}") for i in range(1, side) if (i % wide == 0) == is_thick)
                   + "".join(lines([(0, i)], f"h{side * UNIT}") for i in range(1, side) if (i % high == 0) == is_thick)
                   for is_thick in (False, True))
    yield [tag("path", class_="grid", d=thin), tag("path", class_="grid thick", d=thick),
           tag("rect", class_="frame", width=side * UNIT, height=side * UNIT)]
    yield from clues(rows)
    for cell, sign in enumerate(solution or ""):
        x, y = cell % side, cell // side
        if rows[y][x] is None:
            yield tag("text", int(sign, 36), class_="number", **at(x, y))


def nurikabe(rows, solution):
    cols = len(rows[0])
    inner = lines([(x, 0) for x in range(1, cols)], f"v{len(rows) * UNIT}")
    inner += lines([(0, y) for y in range(1, len(rows))], f"h{cols * UNIT}")
    # Its frame lies round the cells, so that walls don't cover it.
    yield tag("rect", class_="frame", x=-1.3, y=-1.3, width=cols * UNIT + 2.6, height=len(rows) * UNIT + 2.6)
    for cell, sign in enumerate(solution or ""):
        if sign == "#":
            x, y = cell % cols * UNIT, cell // cols * UNIT
            yield tag("rect", class_="wall", x=x, y=y, width=UNIT, height=UNIT)
    yield tag("path", class_="grid", d=inner)
    yield from clues(rows)


def slither(rows, solution):
    cols = len(rows[0])
    dots = lines([(x, y) for y in range(len(rows) + 1) for x in range(cols + 1)], "h0")
    across, _, upright = (solution or "").partition("/")
    loop = lines([(i % cols, i // cols) for i, sign in enumerate(across) if sign == "1"], f"h{UNIT}")
    wide = cols + 1
    loop += lines([(i % wide, i // wide) for i, sign in enumerate(upright) if sign == "1"], f"v{UNIT}")
    yield tag("path", class_="line", d=loop) if loop else None
    yield tag("path", class_="dots", d=dots)
    yield from clues(rows)


KINDS = {"sudoku": sudoku, "nurikabe": nurikabe, "slither": slither}


def board(text, words, solution=None):
    """The picture of a puzzle; `words` tell what it is to whoever doesn't see it."""
    kind, rows = clues_of(text)
    wide, high = (count * UNIT + 2 * EDGE for count in (len(rows[0]), len(rows)))
    size = " large" if len(rows[0]) > 20 else ""
    return tag("svg", list(KINDS[kind](rows, solution)), viewBox=f"{-EDGE} {-EDGE} {wide} {high}",
               class_=f"sheet {kind}{size}", role="img", aria_label=words, xmlns="http://www.w3.org/2000/svg")
