"""Sudoku: a number for each cell."""
from real.text import number, runs


class Sudoku:
    def __init__(self, side):
        self.side = side
        self.box_cols = next(w for w in range(int(side**0.5), 0, -1) if side % w == 0)
        self.box_cols = side // self.box_cols
        self.box_rows = side // self.box_cols

    def encode(self, solver):
        n = self.side
        self.at = [[solver.variable() for _ in range(n)] for _ in range(n * n)]
        for cell in self.at:
            solver.exactly_one(cell)
        boxes = n // self.box_cols
        for v in range(n):
            for k in range(n):
                row, col = [k * n + i for i in range(n)], [i * n + k for i in range(n)]
                top, left = k // boxes * self.box_rows, k % boxes * self.box_cols
                box = [(top + i // self.box_cols) * n + left + i % self.box_cols for i in range(n)]
                for unit in (row, col, box):
                    solver.exactly_one([self.at[c][v] for c in unit])

    def solution_in(self, truth):
        return [next(v for v, x in enumerate(cell) if truth[x]) for cell in self.at]

    def cut(self, solver, solution):
        return False

    def block(self, solver, solution):
        solver.add([-self.at[c][v] for c, v in enumerate(solution)])

    def clues_of(self, solution):
        return list(solution)

    def weaker(self, clue):
        """What may stand in place of a clue, the weakest last."""
        return [None]

    def literals(self, solver, place, clue):
        return [] if clue is None else [self.at[place][clue]]

    def text(self, clues):
        return f"sudoku/{self.side}/{self.side}/" + runs([None if v is None else number(v + 1) for v in clues], "g")

    def answer(self, solution):
        return "".join(chr(49 + v) if v < 9 else chr(88 + v) for v in solution)

