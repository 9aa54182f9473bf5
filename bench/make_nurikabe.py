"""Makes Nurikabe texts whose solution is known by construction.

Usage: make_nurikabe.py COLS ROWS COUNT SEED MOST SHARE: the size of the largest island, and how many walls are tried to
be taken away, in hundredths. Each line is a puzzle text, a space and the answer; a solver has to tell which have one
solution.
"""
import random
import sys


def neighbours(cell, cols, rows):
    r, c = divmod(cell, cols)
    if r > 0:
        yield cell - cols
    if c > 0:
        yield cell - 1
    if c + 1 < cols:
        yield cell + 1
    if r + 1 < rows:
        yield cell + cols


def makes_pool(wall, cell, cols, rows):
    r, c = divmod(cell, cols)
    for top in (r - 1, r):
        for left in (c - 1, c):
            if 0 <= top < rows - 1 and 0 <= left < cols - 1:
                block = [top * cols + left, top * cols + left + 1, (top + 1) * cols + left, (top + 1) * cols + left + 1]
                if all(x == cell or wall[x] for x in block):
                    return True
    return False


def islands(wall, cols, rows):
    seen = set()
    found = []
    for cell in range(cols * rows):
        if wall[cell] or cell in seen:
            continue
        island = [cell]
        seen.add(cell)
        for x in island:
            for y in neighbours(x, cols, rows):
                if not wall[y] and y not in seen:
                    seen.add(y)
                    island.append(y)
        found.append(island)
    return found


def grow(cols, rows, rng):
    wall = [False] * (cols * rows)
    start = rng.randrange(cols * rows)
    wall[start] = True
    edge = list(neighbours(start, cols, rows))
    while edge:
        cell = edge.pop(rng.randrange(len(edge)))
        if wall[cell] or makes_pool(wall, cell, cols, rows):
            continue
        wall[cell] = True
        edge.extend(x for x in neighbours(cell, cols, rows) if not wall[x])
    return wall


def is_joined(wall, cols, rows):
    cells = [x for x in range(cols * rows) if wall[x]]
    if not cells:
        return True
    seen = {cells[0]}
    reached = [cells[0]]
    for x in reached:
        for y in neighbours(x, cols, rows):
            if wall[y] and y not in seen:
                seen.add(y)
                reached.append(y)
    return len(reached) == len(cells)


def merge(wall, cols, rows, most, share, rng):
    """Takes walls away while they stay joined and no island grows past the most; tries this share of the cells, in
    hundredths."""
    for cell in rng.sample(range(cols * rows), cols * rows * share // 100):
        if not wall[cell]:
            continue
        wall[cell] = False
        size = next(len(x) for x in islands(wall, cols, rows) if cell in x)
        if size > most or not is_joined(wall, cols, rows):
            wall[cell] = True


def body(clues):
    text = ""
    blank = 0
    for clue in list(clues) + [None]:
        if clue == 0:
            blank += 1
            continue
        while blank > 0:
            run = min(blank, 20)
            text += chr(ord("f") + run)
            blank -= run
        if clue is None:
            return text
        text += format(clue, "x") if clue < 16 else "-" + format(clue, "02x")
    return text


def main():
    cols, rows, count, seed, most, share = (int(x) for x in sys.argv[1:7])
    rng = random.Random(seed)
    made = 0
    while made < count:
        wall = grow(cols, rows, rng)
        merge(wall, cols, rows, most, share, rng)
        parts = islands(wall, cols, rows)
        if max(len(x) for x in parts) > most:
            continue
        clues = [0] * (cols * rows)
        for part in parts:
            clues[rng.choice(part)] = len(part)
        answer = "".join("#" if x else "." for x in wall)
        print(f"nurikabe/{cols}/{rows}/{body(clues)} {answer}")
        made += 1


if __name__ == "__main__":
    main()
