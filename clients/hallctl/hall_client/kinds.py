"""The three kinds of puzzles for readers: their names, their rules, and an example of each with its solution."""
from typing import NamedTuple


class Kind(NamedTuple):
    """A kind: its name, its rules a sentence or two each, and an example with its solution."""
    name: str
    rules: tuple
    text: str
    solution: str


KINDS = {
    "sudoku": Kind("Sudoku", (
        "Write a number into each empty cell, so that each row, each column and each box with a thick frame has every"
        " number once.",
        "The numbers go from 1 to the side of the board: to 6 on a board of 6 by 6, whose boxes are 3 wide and 2 high;"
        " to 9, 16 or 25 on larger ones.",
    ), "sudoku/6/6/g5h1g3h5i2i11i2i4h6g6h3g",
        "456213312564625341143625234156561432"),
    "slither": Kind("Slitherlink", (
        "Draw lines from dot to dot, along the sides of the cells, so that they make one single loop. It doesn't branch"
        " or cross itself, and has no loose end.",
        "A number says on how many of the four sides of its cell there is a line. A cell without a number, or with a ?,"
        " may have any.",
    ), "slither/5/5/21bjbg1112cj0",
        "111100000000000110000011000000/100010100010100010001010000000"),
    "nurikabe": Kind("Nurikabe", (
        "Shade cells as wall. What stays white are islands: white cells are of one island where they share a side.",
        "Each island has exactly one number, which says how many cells it has. A ? is a number that isn't told. No"
        " numbered cell is wall.",
        "All walls are joined by their sides, and no four of them make a block of two by two.",
    ), "nurikabe/5/5/4i1i2p4k",
        ".###..#..#.####.#...####."),
}
