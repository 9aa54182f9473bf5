// Pictures that are told in words too: answers and solutions, after a round, for staff, and among the rules.

import { phrase } from "./phrases.js";
import { kindOf, picture } from "./picture.js";
import { emptyMarks, numberOf, sidesAcross } from "./texts.js";

const DRAWN = 1; // a line, or a wall

const inRows = ({ cols, rows }, cells) => Array.from({ length: rows }, (_, y) => phrase("tellRow", { row: y + 1,
  cells: cells.slice(y * cols, (y + 1) * cols).join(" ") })).join(" ");

function sidesInRows({ cols, rows }, marks, across) {
  const row = (from, wide) => marks.slice(from, from + wide)
    .map((mark, x) => (mark === DRAWN ? x + 1 : 0)).filter(Boolean).join(" ") || phrase("none");
  const all = (from, count, wide) => Array.from({ length: count }, (_, y) => row(from + y * wide, wide)).join("; ");
  return phrase("tellSlitherlink", { across: all(0, rows + 1, cols), upright: all(across, rows, cols + 1) });
}

// What stands in a picture, by kind.
const TELL = {
  slither: (puzzle, marks) => sidesInRows(puzzle, marks, sidesAcross(puzzle)),
  nurikabe: (puzzle, marks) => inRows(puzzle,
    puzzle.clues.map((clue, cell) => clue ?? phrase(marks[cell] === DRAWN ? "wall" : "white"))),
  sudoku: (puzzle, marks) => inRows(puzzle, marks.map((mark) => numberOf(mark) || phrase("empty"))),
};

// A picture that a screen reader is told: `words`, and what stands in it.
export function toldPicture(puzzle, marks = emptyMarks(puzzle), words = "") {
  const drawn = picture(puzzle, marks), { kind, cols, rows } = puzzle, told = TELL[kind](puzzle, marks);
  drawn.removeAttribute("aria-hidden");
  drawn.setAttribute("role", "img");
  drawn.setAttribute("aria-label", phrase("pictureName", { words, kind: kindOf(puzzle).name, cols, rows, told }));
  return drawn;
}
