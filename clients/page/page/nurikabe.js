// Nurikabe on a board: a click makes wall, dot, nothing in turn; dragging draws the same over more cells.
// A cell with a number is never wall, so clicks on it do nothing.

import { svg, UNIT } from "./elements.js";
import { pairs, phrase } from "./phrases.js";
import { cellAt } from "./texts.js";

const WALL = 1, DOT = 2;
const NAMES = ["empty", "wall", "dot"];

const cursorOf = (board) => board.at.y * board.puzzle.cols + board.at.x;

function draw(board, cell, mark) {
  if (cell >= 0 && board.puzzle.clues[cell] === null) board.set(cell, mark);
}

// The cells that are joined with a cell over those that `belongs` says, itself among them.
function joined({ cols, clues }, first, belongs) {
  const found = new Set([first]);
  for (const cell of found) {
    const x = cell % cols, next = [cell - cols, cell + cols, x ? cell - 1 : -1, x < cols - 1 ? cell + 1 : -1];
    for (const other of next) if (other >= 0 && other < clues.length && belongs(other)) found.add(other);
  }
  return found;
}

// The cells that walls leave together with a number, where they hold no other one; else null.
function closed({ puzzle, marks }, first) {
  let alone = true;
  const cells = joined(puzzle, first, (cell) => {
    if (!alone || marks[cell] === WALL) return false;
    alone = cell === first || puzzle.clues[cell] === null;
    return alone;
  });
  return alone ? cells : null;
}

// How many cells the island of a number has: where walls don't close it, those that dots join with it.
const sizeOf = (board, first) => (closed(board, first) ?? joined(board.puzzle, first, (cell) =>
  board.marks[cell] === DOT || board.puzzle.clues[cell] !== null)).size;

// The cells of the islands that walls close, and that are as large as their number.
const finished = (board) => board.puzzle.clues.flatMap((clue, first) => {
  const cells = clue === null ? null : closed(board, first);
  return cells && (clue === "?" || clue === cells.size) ? [...cells] : [];
});

export const nurikabe = {
  name: phrase("nurikabe"),
  help: () => pairs("helpNurikabe"),
  modes: [["wall", "■", phrase("wall")], ["dot", "•", phrase("dots")]],
  wishes: [["islands", phrase("islands")], ["counts", phrase("counts")]],

  paper({ cols, rows, clues }) {
    let grid = "";
    for (let x = 1; x < cols; x++) grid += `M${x * UNIT} 0v${rows * UNIT}`;
    for (let y = 1; y < rows; y++) grid += `M0 ${y * UNIT}h${cols * UNIT}`;
    const look = (clue) => (String(clue).length > 2 ? "clue long" : "clue");
    const texts = clues.map((clue, cell) => clue === null ? null : svg("text", { class: look(clue),
      x: (cell % cols + 0.5) * UNIT, y: (Math.floor(cell / cols) + 0.5) * UNIT }, String(clue)));
    return [svg("rect", { class: "frame", x: -1.3, y: -1.3, width: cols * UNIT + 2.6, height: rows * UNIT + 2.6 }),
      svg("path", { class: "island" }), svg("path", { class: "grid", d: grid }), ...texts.filter(Boolean)];
  },

  ink({ cols }, place, mark) {
    const x = (place % cols) * UNIT, y = Math.floor(place / cols) * UNIT;
    if (mark === DOT) return svg("circle", { class: "spot", cx: x + UNIT / 2, cy: y + UNIT / 2, r: 4 });
    return svg("rect", { class: "wall", x: x + 0.4, y: y + 0.4, width: UNIT - 0.8, height: UNIT - 0.8 });
  },

  // The press decides what the whole stroke draws. It may begin on a number, for a drag.
  press(board, at, event) {
    const { puzzle } = board, cell = cellAt(puzzle, at), mark = board.marks[cell] ?? 0;
    const numbered = cell >= 0 && puzzle.clues[cell] !== null, second = board.mode === "dot" || event.button === 2;
    board.press = { to: second ? (mark === DOT ? 0 : DOT) : numbered ? WALL : (mark + 1) % 3 };
    if (cell >= 0) board.moveTo(cell);
    draw(board, cell, board.press.to);
  },

  drag(board, at) { draw(board, cellAt(board.puzzle, at), board.press.to); },
  lift() {},

  steps: ({ cols, rows }) => ({ cols, rows }),
  cursor: (x, y) => [x + 0.06, y + 0.06, 0.88, 0.88],

  key(board, event, arrow) {
    const mark = board.marks[cursorOf(board)], next = (mark + 1) % 3;
    const keys = { " ": next, w: WALL, "#": WALL, d: DOT, ".": DOT, backspace: 0, delete: 0 };
    const wanted = keys[event.key.toLowerCase()];
    if (wanted === undefined && !(arrow && event.shiftKey)) return false;
    if (arrow) board.move(...arrow);
    draw(board, cursorOf(board), wanted ?? mark);
    board.end();
    return true;
  },

  say(board) {
    const cell = cursorOf(board), clue = board.puzzle.clues[cell], mark = board.marks[cell];
    const number = clue === "?" ? phrase("numberUntold") : phrase("number", { clue });
    const alone = clue === null ? phrase(NAMES[mark]) : number, counts = board.wishes.counts && clue !== null;
    const what = counts ? phrase("islandOf", { what: alone, n: sizeOf(board, cell) }) : alone;
    return phrase("cellAt", { row: board.at.y + 1, col: board.at.x + 1, what });
  },

  shade(board) {
    const { puzzle: { cols, clues }, wishes } = board, cells = wishes.islands ? finished(board) : [];
    const square = `h${UNIT}v${UNIT}h${-UNIT}z`;
    const path = cells.map((cell) => `M${cell % cols * UNIT} ${Math.floor(cell / cols) * UNIT}${square}`);
    board.svg.querySelector(".island").setAttribute("d", path.join(""));
    if (!wishes.counts) { board.over.replaceChildren(); return; }
    const numbers = clues.map((_, cell) => cell).filter((cell) => clues[cell] !== null);
    if (!board.over.firstChild) {
      board.over.append(...numbers.map((cell) => svg("text", { class: "count", x: (cell % cols + 0.82) * UNIT,
        y: (Math.floor(cell / cols) + 0.82) * UNIT })));
    }
    numbers.forEach((cell, i) => {
      const size = String(sizeOf(board, cell)), text = board.over.children[i];
      if (text.textContent !== size) text.textContent = size;
    });
  },

  // Where every number is told, so is how many cells stay white.
  unfinished({ clues }, marks) {
    const walls = marks.filter((mark) => mark === WALL).length, numbers = clues.filter((clue) => clue !== null);
    if (numbers.includes("?")) return walls || numbers.length === clues.length ? "" : phrase("noWallYet");
    const wanted = clues.length - numbers.reduce((sum, number) => sum + number, 0);
    return walls === wanted ? "" : phrase("wallsWanted", { n: walls, wanted });
  },
};
