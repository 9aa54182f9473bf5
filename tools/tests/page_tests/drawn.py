"""Where a solution is drawn: the places of a board, in cells, that a hand goes to."""


def size(text):
    cols, rows = text.split("/")[1:3]
    return int(cols), int(rows)


def sides(text, answer):
    """The middles of the lines of a Slitherlink's solution."""
    cols = size(text)[0]
    across, upright = answer.split("/")
    return ([(i % cols + 0.5, i // cols) for i, byte in enumerate(across) if byte == "1"]
            + [(i % (cols + 1), i // (cols + 1) + 0.5) for i, byte in enumerate(upright) if byte == "1"])


def loop(text, answer):
    """The dots of a Slitherlink's solution in their order along the loop, the first one again at its end."""
    links = {}
    for x, y in sides(text, answer):
        ends = [(int(x), y), (int(x) + 1, y)] if x % 1 else [(x, int(y)), (x, int(y) + 1)]
        for one, other in (ends, ends[::-1]):
            links.setdefault(one, []).append(other)
    path = [min(links)]
    while len(path) == 1 or path[-1] != path[0]:
        before = path[-2] if len(path) > 1 else None
        path.append(next(dot for dot in links[path[-1]] if dot != before))
    return path


def walls(text, answer):
    """The middles of the walls of a Nurikabe's solution."""
    cols = size(text)[0]
    return [(i % cols + 0.5, i // cols + 0.5) for i, byte in enumerate(answer) if byte == "#"]


def runs(cells):
    """Cells as runs of neighbours in a row."""
    found = []
    for cell in cells:
        if found and found[-1][-1] == (cell[0] - 1, cell[1]):
            found[-1].append(cell)
        else:
            found.append([cell])
    return found
