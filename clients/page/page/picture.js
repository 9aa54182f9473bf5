// A puzzle as SVG: the sheet with what is printed and the layer for what is drawn, and pictures that take no input.
// What a kind of puzzle must have is told in ../README.md.

import { svg, UNIT } from "./elements.js";
import { nurikabe } from "./nurikabe.js";
import { phrase } from "./phrases.js";
import { slitherlink } from "./slitherlink.js";
import { sudoku } from "./sudoku.js";
import { emptyMarks } from "./texts.js";

const KINDS = { slither: slitherlink, nurikabe, sudoku };
export const kindOf = (puzzle) => KINDS[puzzle.kind];
export const nameOf = (text) => KINDS[text.replace(/^.*\?/, "").split("/")[0]]?.name ?? phrase("puzzle");

export const EDGE = 14; // free space round the board, in units

// `ink` lies between what is printed: lines and dots beneath it, clues above.
export function sheet(puzzle, ink, ...more) {
  const { kind, cols, rows } = puzzle, printed = kindOf(puzzle).paper(puzzle);
  const isText = (element) => element.tagName === "text";
  return svg("svg", { viewBox: `${-EDGE} ${-EDGE} ${cols * UNIT + 2 * EDGE} ${rows * UNIT + 2 * EDGE}`,
    class: `sheet ${kind}${cols > 20 ? " large" : ""}` },
  printed.filter((element) => !isText(element)), ink, printed.filter(isText), more);
}

// A picture for the eye; told.js has those that a screen reader is told too.
export function picture(puzzle, marks = emptyMarks(puzzle)) {
  const kind = kindOf(puzzle), isUnder = (ink) => ink.classList.contains("under");
  const inks = marks.map((mark, place) => (mark ? kind.ink(puzzle, place, mark, marks) : null)).filter(Boolean);
  const drawn = sheet(puzzle, svg("g", {}, inks.filter(isUnder), inks.filter((ink) => !isUnder(ink))));
  drawn.setAttribute("aria-hidden", "true");
  return drawn;
}
