"""Slitherlink: a line or none for each side of a cell."""

STEPS = ((0, 1), (1, 0), (0, -1), (-1, 0))
RING = ((-1, -1), (-1, 0), (-1, 1), (0, 1), (1, 1), (1, 0), (1, -1), (0, -1))


class Slither:
    def __init__(self, cols, rows):
        self.cols, self.rows = cols, rows
        self.flat = (rows + 1) * cols
        self.sides = self.flat + rows * (cols + 1)
        self.dots = [[] for _ in range((rows + 1) * (cols + 1))]
        self.ends = []
        for side in range(self.sides):
            self.ends.append(self.ends_of(side))
            for dot in self.ends[side]:
                self.dots[dot].append(side)

    def ends_of(self, side):
        if side < self.flat:
            row, col = divmod(side, self.cols)
            return row * (self.cols + 1) + col, row * (self.cols + 1) + col + 1
        row, col = divmod(side - self.flat, self.cols + 1)
        return row * (self.cols + 1) + col, (row + 1) * (self.cols + 1) + col

    def round(self, cell):
        row, col = divmod(cell, self.cols)
        left = self.flat + row * (self.cols + 1) + col
        return [row * self.cols + col, (row + 1) * self.cols + col, left, left + 1]

    def encode(self, solver):
        self.line = [solver.variable() for _ in range(self.sides)]
        for sides in self.dots:
            lines = [self.line[s] for s in sides]
            for i, line in enumerate(lines):
                solver.add([-line] + lines[:i] + lines[i + 1 :])
                for j in range(i):
                    for k in range(j):
                        solver.add([-line, -lines[j], -lines[k]])
        self.told = [[solver.variable() for _ in range(4)] for _ in range(self.cols * self.rows)]
        for cell, told in enumerate(self.told):
            lines = [self.line[s] for s in self.round(cell)]
            for mask in range(16):
                for clue, it in enumerate(told):
                    if bin(mask).count("1") != clue:
                        solver.add([-it] + [-x if mask >> i & 1 else x for i, x in enumerate(lines)])
        solver.add(self.line)

    def solution_in(self, truth):
        return [int(truth[x]) for x in self.line]

    def loops(self, solution):
        left = {s for s in range(self.sides) if solution[s]}
        while left:
            loop = [left.pop()]
            for side in loop:
                for dot in self.ends[side]:
                    for other in self.dots[dot]:
                        if other in left:
                            left.remove(other)
                            loop.append(other)
            yield loop

    def cut(self, solver, solution):
        """Where there are several loops, some side crosses out of the dots of each: or it has no line, or the others
        have none."""
        loops = list(self.loops(solution))
        if len(loops) == 1:
            return False
        for i, loop in enumerate(loops):
            inside = {dot for side in loop for dot in self.ends[side]}
            are_in = [[dot in inside for dot in self.ends[s]] for s in range(self.sides)]
            crossing = [self.line[s] for s, (one, other) in enumerate(are_in) if one != other]
            other = loops[(i + 1) % len(loops)]
            solver.add([-self.line[loop[0]], -self.line[other[0]], *crossing])
        return True

    def block(self, solver, solution):
        solver.add([-self.line[s] if on else self.line[s] for s, on in enumerate(solution)])

    def random_solution(self, rng):
        region = region_of(self.cols, self.rows, rng)
        differ = lambda a, b: int((a in region) != (b in region))
        flat = [differ((r - 1, c), (r, c)) for r in range(self.rows + 1) for c in range(self.cols)]
        return flat + [differ((r, c - 1), (r, c)) for r in range(self.rows) for c in range(self.cols + 1)]

    def clues_of(self, solution):
        return [sum(solution[s] for s in self.round(cell)) for cell in range(self.cols * self.rows)]

    def weaker(self, clue):
        return [None]

    def literals(self, solver, place, clue):
        return [] if clue is None else [self.told[place][clue]]

    def text(self, clues):
        body, place = "", 0
        while place < len(clues):
            empty = 0
            while place + empty < len(clues) and clues[place + empty] is None:
                empty += 1
            if empty:
                some = min(empty, 20)
                body += chr(102 + some)
                place += some
                continue
            while empty < 2 and place + empty + 1 < len(clues) and clues[place + empty + 1] is None:
                empty += 1
            body += "0123456789abcde"[5 * empty + clues[place]]
            place += empty + 1
        return f"slither/{self.cols}/{self.rows}/{body}"

    def answer(self, solution):
        text = "".join(map(str, solution))
        return text[: self.flat] + "/" + text[self.flat :]


def keeps_a_loop(region, cell):
    """Whether the rim of the region with one more cell is one loop that touches itself nowhere."""
    row, col = cell
    ring = [(row + down, col + right) in region for down, right in RING]
    if sum(ring[i] != ring[(i + 1) % 8] for i in range(8)) != 2:
        return False
    corners = ((0, 7, 1), (2, 1, 3), (4, 3, 5), (6, 5, 7))
    return not any(ring[at] and not ring[left] and not ring[right] for at, left, right in corners)


def region_of(cols, rows, rng):
    region = {(rng.randrange(rows), rng.randrange(cols))}
    cells = list(region)
    share = rng.uniform(0.45, 0.6)
    for _ in range(40 * cols * rows):
        if len(region) >= share * cols * rows:
            break
        (row, col), (down, right) = rng.choice(cells), rng.choice(STEPS)
        cell = (row + down, col + right)
        if cell in region or not (0 <= cell[0] < rows and 0 <= cell[1] < cols):
            continue
        touching = sum((cell[0] + a, cell[1] + b) in region for a, b in STEPS)
        if (touching == 1 or rng.random() < 0.4) and keeps_a_loop(region, cell):
            region.add(cell)
            cells.append(cell)
    return region
