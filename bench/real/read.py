"""Reads puzzle texts."""
from real.nurikabe import puzzle_of
from real.slither import Slither
from real.sudoku import Sudoku
from real.text import numbers, sides


def read(text):
    """The kind and the clues of a puzzle text."""
    name, cols, rows, body = text.split("/", 3)
    size = int(cols), int(rows)
    if name == "slither":
        return Slither(*size), sides(body)
    clues = numbers(body, "g")
    if name == "nurikabe":
        return puzzle_of(*size, clues), clues
    return Sudoku(size[0]), [clue and clue - 1 for clue in clues]
