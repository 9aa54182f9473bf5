"""Nurikabe: a wall or white for each cell. A number's island is known by the number's cell."""
from make_nurikabe import grow, islands, makes_pool, merge, neighbours
from real.sat import search
from real.text import number, runs

UNKNOWN = "?"
# boards of more cells than these are told to the solver in fewer clauses
LARGE = 400


class Nurikabe:
    """`clues` has for each cell None, the size of its island, or `?`."""

    def __init__(self, cols, rows, clues):
        self.cols, self.rows = cols, rows
        self.cells = cols * rows
        self.near = [list(neighbours(cell, cols, rows)) for cell in range(self.cells)]
        self.clues = clues
        self.roots = [cell for cell in range(self.cells) if clues[cell] is not None]

    def encode(self, solver):
        self.wall = [solver.variable() for _ in range(self.cells)]
        self.of = [{cell: solver.variable() for cell in range(self.cells)} for _ in self.roots]
        bits = [[solver.variable() for _ in range(len(self.roots).bit_length())] for _ in range(self.cells)]
        for island, of in enumerate(self.of):
            solver.add([of[self.roots[island]]])
            for cell in range(self.cells):
                solver.add([-of[cell], -self.wall[cell]])
                for k, bit in enumerate(bits[cell]):
                    solver.add([-of[cell], bit if island >> k & 1 else -bit])
                for other in self.near[cell]:
                    solver.add([-of[cell], self.wall[other], of[other]])
        for cell in range(self.cells):
            solver.add([self.wall[cell]] + [of[cell] for of in self.of])
        for cell in range(self.cells - self.cols):
            if cell % self.cols + 1 < self.cols:
                solver.add([-self.wall[x] for x in (cell, cell + 1, cell + self.cols, cell + self.cols + 1)])
        self.sized = {}
        for island, root in enumerate(self.roots):
            if self.clues[root] != UNKNOWN:
                self.sized[root] = self.size(solver, self.of[island], root, self.clues[root])

    def size(self, solver, of, root, size):
        """A variable under which the island has this size."""
        it = solver.variable()
        row, col = divmod(root, self.cols)
        within = []
        for cell in range(self.cells):
            away = abs(cell // self.cols - row) + abs(cell % self.cols - col)
            if away < size:
                within.append(of[cell])
            else:
                solver.add([-it, -of[cell]])
        least = solver.counts(within, size)
        if len(least) < size:
            solver.add([-it])
        else:
            solver.add([-it, least[size - 1]])
        if len(least) > size:
            solver.add([-it, -least[size]])
        return it

    def solution_in(self, truth):
        self.found = [{cell: truth[it] for cell, it in of.items()} for of in self.of]
        return [int(truth[x]) for x in self.wall]

    def groups(self, cells):
        left = set(cells)
        while left:
            group = [left.pop()]
            for cell in group:
                for other in self.near[cell]:
                    if other in left:
                        left.remove(other)
                        group.append(other)
            yield group

    def rim(self, group):
        inside = set(group)
        return {other for cell in group for other in self.near[cell]} - inside

    def cut(self, solver, solution):
        """Groups of walls that are apart, and groups of white cells without their number: each reaches on through its
        rim."""
        found = False
        walls = list(self.groups([c for c in range(self.cells) if solution[c]]))
        for i, group in enumerate(walls if len(walls) > 1 else []):
            other = walls[(i + 1) % len(walls)][0]
            solver.add([-self.wall[group[0]], -self.wall[other]] + [self.wall[c] for c in self.rim(group)])
            found = True
        for group in self.groups([c for c in range(self.cells) if not solution[c]]):
            island = next(k for k, of in enumerate(self.found) if of.get(group[0]))
            if self.roots[island] not in group:
                of = self.of[island]
                solver.add([-of[group[0]]] + [of[c] for c in self.rim(group) if c in of])
                found = True
        return found

    def block(self, solver, solution):
        solver.add([-self.wall[c] if on else self.wall[c] for c, on in enumerate(solution)])

    def weaker(self, clue):
        return [] if clue in (None, UNKNOWN) else [UNKNOWN]

    def literals(self, solver, place, clue):
        return [] if clue in (None, UNKNOWN) else [self.sized[place]]

    def text(self, clues):
        signs = ["." if clue == UNKNOWN else None if clue is None else number(clue) for clue in clues]
        return f"nurikabe/{self.cols}/{self.rows}/" + runs(signs, "g")

    def answer(self, solution):
        return "".join("#" if on else "." for on in solution)


class LargeNurikabe(Nurikabe):
    """The same in fewer clauses, where each number is known: an island has variables only where its number comes."""

    def encode(self, solver):
        self.wall = [solver.variable() for _ in range(self.cells)]
        self.of = [self.reach(solver, root) for root in self.roots]
        holders = [[] for _ in range(self.cells)]
        for island, of in enumerate(self.of):
            for cell in of:
                holders[cell].append(island)
        for island, of in enumerate(self.of):
            solver.add([of[self.roots[island]]])
            for cell, it in of.items():
                solver.add([-it, -self.wall[cell]])
                for other in holders[cell]:
                    if other < island:
                        solver.add([-it, -self.of[other][cell]])
                for other in self.near[cell]:
                    solver.add([-it, self.wall[other]] + ([of[other]] if other in of else []))
            self.has_size(solver, list(of.values()), self.clues[self.roots[island]])
        for cell in range(self.cells):
            solver.add([self.wall[cell]] + [self.of[island][cell] for island in holders[cell]])
            if cell % self.cols + 1 < self.cols and cell + self.cols < self.cells:
                solver.add([-self.wall[x] for x in (cell, cell + 1, cell + self.cols, cell + self.cols + 1)])

    def reach(self, solver, root):
        """A variable for each cell that the number at the root comes to."""
        row, col = divmod(root, self.cols)
        away = lambda cell: abs(cell // self.cols - row) + abs(cell % self.cols - col)
        return {cell: solver.variable() for cell in range(self.cells) if away(cell) < self.clues[root]}

    def has_size(self, solver, within, size):
        least = solver.counts(within, size)
        solver.add([least[size - 1]])
        if len(least) > size:
            solver.add([-least[size]])

    def literals(self, solver, place, clue):
        return []

    def prefer(self, solver, solution):
        """Has the solver try the solution's values first, so that another one that it finds is near."""
        for cell, on in enumerate(solution):
            solver.prefer(self.wall[cell], on)
        for island in self.groups([c for c, on in enumerate(solution) if not on]):
            root = next(c for c in island if self.clues[c] is not None)
            for cell, it in self.of[self.roots.index(root)].items():
                solver.prefer(it, cell in island)

    def differing(self, solver, solution):
        """Other solutions, each apart from those before it: where one differs, the next doesn't."""
        self.prefer(solver, solution)
        self.block(solver, solution)
        while True:
            second = search(self, solver, [])
            if second is None:
                return
            yield second
            for cell, on in enumerate(solution):
                if second[cell] != on:
                    solver.add([self.wall[cell] if on else -self.wall[cell]])

    def island_at(self, solution, cell):
        return next(group for group in self.groups([c for c, on in enumerate(solution) if not on]) if cell in group)

    def move(self, solution, cell):
        """Moves the island's number to the cell."""
        root = next(c for c in self.island_at(solution, cell) if self.clues[c] is not None)
        self.clues[root], self.clues[cell] = None, self.clues[root]

    def widen(self, solution, cell, most):
        """Makes the cell white, where that leaves a solution; tells whether it does."""
        solution[cell] = 0
        island = self.island_at(solution, cell)
        roots = [c for c in island if self.clues[c] is not None]
        walls = list(self.groups([c for c, on in enumerate(solution) if on]))
        if len(island) > most or len(roots) != 1 or len(walls) != 1:
            solution[cell] = 1
            return False
        self.clues[roots[0]] = len(island)
        return True

    def narrow(self, solution, cell):
        """Makes the cell wall, where that leaves a solution; tells whether it does."""
        island = self.island_at(solution, cell)
        rest = [c for c in island if c != cell]
        beside = any(solution[c] for c in self.near[cell])
        if self.clues[cell] is not None or len(list(self.groups(rest))) != 1 or not beside:
            return False
        if makes_pool([bool(on) for on in solution], cell, self.cols, self.rows):
            return False
        solution[cell] = 1
        self.clues[next(c for c in rest if self.clues[c] is not None)] = len(rest)
        return True

    def mend(self, solution, second, most, moved, rng):
        """Moves a number to a cell that is wall in the second solution, once a cell, or else takes one of its cells
        over."""
        lost = [c for c, on in enumerate(solution) if second[c] and not on]
        for cell in rng.sample(lost, len(lost)):
            if self.clues[cell] is None and cell not in moved and not solution[cell]:
                moved.add(cell)
                return self.move(solution, cell)
        ways = [c for c, on in enumerate(solution) if second[c] != on]
        for cell in rng.sample(ways, len(ways)):
            if self.widen(solution, cell, most) if solution[cell] else self.narrow(solution, cell):
                return None


def random_board(cols, rows, most, share, rng):
    """Walls that are a solution of the clues, which stand at random in their islands."""
    wall = grow(cols, rows, rng)
    merge(wall, cols, rows, most, share, rng)
    clues = [None] * (cols * rows)
    for island in islands(wall, cols, rows):
        clues[rng.choice(island)] = len(island)
    return [int(x) for x in wall], clues


def puzzle_of(cols, rows, clues):
    """The puzzle of these clues, in fewer clauses where it is large."""
    return (LargeNurikabe if cols * rows > LARGE else Nurikabe)(cols, rows, clues)
