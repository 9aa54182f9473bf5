// Sudoku on a board: cells are chosen by clicks, drags or the arrows, numbers come by digits, letters (a is 10) or the
// pad. A mark of a cell is number + 32 * (sum of 2^n over its corner notes n); centre notes and colours are layers.

import { svg, UNIT } from "./elements.js";
import { pairs, phrase } from "./phrases.js";
import { boxOf, cellAt, numberOf } from "./texts.js";

const QUICKLY = 900; // milliseconds in which a second digit belongs to the first
const INSIDE = 36; // units of a cell that notes may take
const COLOURS = 8;
const MODE_KEYS = { q: "number", s: "corner", w: "centre", x: "colour" };
const COLOUR = 2; // the layer of colours; the one of centre notes is the first

const bits = (sum, side) => Array.from({ length: side }, (_, i) => i + 1).filter((number) => (sum >> number) & 1);
const cornersOf = (mark, side) => bits((mark - numberOf(mark)) / 32, side);
const cursorOf = (board) => board.at.y * board.puzzle.cols + board.at.x;
const isGiven = (puzzle, cell) => puzzle.clues[cell] !== null;
const square = (side, cell, look) => svg("rect", { class: look, x: cell % side * UNIT,
  y: Math.floor(cell / side) * UNIT, width: UNIT, height: UNIT });

// The cells that are chosen; the cursor's is the last.
const chosen = (board) => [...board.extra].filter((cell) => cell !== cursorOf(board)).concat(cursorOf(board));

// Corner notes are two lines. On small boards each number has its own place; on large ones they are packed, and many
// of them are more lines where the centre is free.
function drawCorners(side, x, y, notes, isFree) {
  const packed = side > 9, shown = packed ? notes : bits(-1, side), count = shown.length;
  const high = packed && isFree && count > 6 ? Math.ceil(Math.sqrt(count)) : 2;
  const wide = Math.max(2, Math.ceil(count / high));
  const size = Math.min(11, INSIDE / wide / (packed ? 1.25 : 0.66), 30 / high);
  return svg("g", { class: "notes", "font-size": size }, shown.map((number, i) => notes.includes(number)
    && svg("text", { x: x + 2 + INSIDE * (i % wide + 0.5) / wide,
    y: y + 7.5 + (UNIT - 14.5) * Math.floor(i / wide) / (high - 1) }, String(number))));
}

function drawCentre(x, y, notes) {
  const words = notes.join(notes.some((number) => number > 9) ? " " : ""), size = Math.min(13, 62 / words.length);
  return svg("g", { class: "notes", "font-size": size }, svg("text", { x: x + UNIT / 2, y: y + UNIT / 2 }, words));
}

const erases = (event) => ["Backspace", "Delete"].includes(event.key);

// The number that a key means: 0 erases; null where it means none.
function typedNumber(event) {
  if (erases(event)) return 0;
  if (/^(Digit|Numpad)\d$/.test(event.code)) return Number(event.code.at(-1)); // whatever Shift makes of the key
  if (/^\d$/.test(event.key)) return Number(event.key);
  return /^[a-pA-P]$/.test(event.key) && !event.ctrlKey && !event.metaKey ? parseInt(event.key, 36) : null;
}

// Moves the cursor to a cell and keeps what was chosen; one that was chosen already is given up where `turns` says so.
function chooseMore(board, cell, turns) {
  if (turns && board.extra.delete(cell)) { board.kind.follow(board); return; }
  board.extra.add(cursorOf(board));
  board.moveTo(cell, true);
}

// Gives places a mark each; where all have it already, they lose it.
function writeAll(board, places, has, put, take) {
  const next = places.every((place) => has(board.marks[place])) ? take : put;
  for (const place of places) board.set(place, next(board.marks[place]));
}

// Numbers go first, then notes, then colours.
function erase(board, cells, count) {
  const free = cells.filter((cell) => !isGiven(board.puzzle, cell)), { marks } = board;
  const colours = cells.map((cell) => cell + COLOUR * count);
  const take = (places, left) => places.forEach((place) => board.set(place, left(marks[place])));
  if (board.mode === "colour") take(colours, () => 0);
  else if (free.some((cell) => numberOf(marks[cell]))) take(free, (mark) => mark - numberOf(mark));
  else if (free.some((cell) => marks[cell] || marks[cell + count])) {
    take([...free, ...free.map((cell) => cell + count)], () => 0);
  } else take(colours, () => 0);
}

// The cells whose number stands twice in a row, a column or a box.
function clashes({ cols: side }, marks) {
  const [wide, high] = boxOf(side), seen = new Map();
  for (let cell = 0; cell < side * side; cell++) {
    const number = numberOf(marks[cell]), x = cell % side, y = Math.floor(cell / side);
    if (!number) continue;
    for (const group of [`r${y}`, `c${x}`, `b${Math.floor(x / wide)},${Math.floor(y / high)}`]) {
      const name = `${group}:${number}`;
      seen.set(name, [...seen.get(name) ?? [], cell]);
    }
  }
  return new Set([...seen.values()].filter((cells) => cells.length > 1).flat());
}

export const sudoku = {
  name: phrase("sudoku"),
  help: () => pairs("helpSudoku"),
  modes: [["number", "1", phrase("numbers")], ["corner", "⁚", phrase("corners")], ["centre", "·2·", phrase("centres")],
    ["colour", "▨", phrase("colours")]],
  wishes: [["dim", phrase("equalNumbers")], ["clash", phrase("clashes")]],
  takesCommands: true,
  COLOURS,

  paper({ cols: side, clues }) {
    const [wide, high] = boxOf(side);
    let thin = "", thick = "";
    for (let i = 1; i < side; i++) {
      const upright = `M${i * UNIT} 0v${side * UNIT}`, across = `M0 ${i * UNIT}h${side * UNIT}`;
      if (i % wide) thin += upright; else thick += upright;
      if (i % high) thin += across; else thick += across;
    }
    const givens = clues.map((clue, cell) => clue === null ? null : svg("text", { class: "clue", "data-cell": cell,
      x: (cell % side + 0.5) * UNIT, y: (Math.floor(cell / side) + 0.5) * UNIT }, String(clue)));
    return [svg("g", { class: "same" }), svg("path", { class: "grid", d: thin }),
      svg("path", { class: "grid thick", d: thick }),
      svg("rect", { class: "frame", width: side * UNIT, height: side * UNIT }), ...givens.filter(Boolean)];
  },

  ink(puzzle, place, mark, marks) {
    const { cols: side, clues } = puzzle, cell = place % clues.length, layer = Math.floor(place / clues.length);
    const x = cell % side * UNIT, y = Math.floor(cell / side) * UNIT;
    if (layer === COLOUR) {
      const tint = square(side, cell, "under tint");
      tint.style.fill = `var(--c${mark - 1})`;
      return tint;
    }
    const number = numberOf(marks[cell]);
    if (isGiven(puzzle, cell) || layer && number) return null;
    if (layer) return drawCentre(x, y, bits(mark, side));
    if (!number) return drawCorners(side, x, y, cornersOf(mark, side), !marks[cell + clues.length]);
    return svg("text", { class: "number", x: x + UNIT / 2, y: y + UNIT / 2 }, String(number));
  },

  // A number hides centre notes, and these leave less room for corner notes.
  along: ({ clues: { length } }, place) => (place < 2 * length ? [(place + length) % (2 * length)] : []),

  press(board, at, event) {
    const cell = cellAt(board.puzzle, at), more = event.shiftKey || event.ctrlKey || event.metaKey || board.more;
    board.typed = null;
    if (cell < 0) return;
    if (more) chooseMore(board, cell, true);
    else board.moveTo(cell);
  },

  drag(board, at) {
    const cell = cellAt(board.puzzle, at);
    if (cell >= 0 && cell !== cursorOf(board)) chooseMore(board, cell, false);
  },

  lift() {},

  steps: ({ cols, rows }) => ({ cols, rows }),
  cursor: (x, y) => [x + 0.04, y + 0.04, 0.92, 0.92],

  // Writes a number, 0 for none, into the chosen cells, or a note, or a colour; also called by the pad of buttons.
  write(board, number, mode = board.mode) {
    const { puzzle } = board, cells = chosen(board), count = puzzle.clues.length;
    const free = cells.filter((cell) => !isGiven(puzzle, cell));
    const open = free.filter((cell) => !numberOf(board.marks[cell])), bit = 1 << number;
    if (number > (mode === "colour" ? COLOURS : puzzle.cols)) return;
    if (number === 0) erase(board, cells, count);
    else if (mode === "colour") {
      writeAll(board, cells.map((cell) => cell + COLOUR * count), (mark) => mark === number, () => number, () => 0);
    } else if (mode === "number") {
      writeAll(board, free, (mark) => numberOf(mark) === number, (mark) => mark - numberOf(mark) + number,
        (mark) => mark - number);
    } else {
      const note = mode === "corner" ? 32 * bit : bit, place = mode === "corner" ? 0 : count;
      writeAll(board, open.map((cell) => cell + place), (mark) => mark & note, (mark) => mark | note,
        (mark) => mark - note);
    }
    board.end();
  },

  // A second digit makes a number above 9 with the first, and what the first one wrote is taken back. Notes are typed
  // in a row, so each is one key.
  key(board, event, arrow) {
    const command = event.ctrlKey || event.metaKey;
    if (this.keyOfChoice(board, event, arrow, command)) return true;
    const number = typedNumber(event), mode = command ? "centre" : event.shiftKey ? "corner" : board.mode;
    if (number === null || number > board.puzzle.cols) return false;
    const first = mode === "number" ? board.typed : null;
    board.typed = null;
    const soon = first && first.cell === cursorOf(board) && Date.now() - first.time < QUICKLY;
    const whole = soon && number < 10 && !erases(event) ? first.number * 10 + number : Infinity;
    if (whole <= board.puzzle.cols) {
      if (board.past.length > first.strokes) board.undo();
      this.write(board, whole, mode);
      return true;
    }
    if (mode === "number" && number > 0 && number < 10) {
      board.typed = { cell: cursorOf(board), number, time: Date.now(), strokes: board.past.length };
    }
    this.write(board, number, mode);
    return true;
  },

  // Keys that choose cells, or what is written.
  keyOfChoice(board, event, arrow, command) {
    const mode = command ? null : MODE_KEYS[event.key.toLowerCase()];
    if (arrow && (event.shiftKey || command)) {
      board.extra.add(cursorOf(board));
      board.move(...arrow, true);
    } else if (command && event.key.toLowerCase() === "a") {
      board.puzzle.clues.forEach((_, cell) => board.extra.add(cell));
    } else if (event.key === "Escape") board.extra.clear();
    else if (mode || event.key === " ") {
      if (board.mode !== "number") board.notes = board.mode;
      board.mode = mode ?? (board.mode === "number" ? board.notes ?? "corner" : "number");
      board.changed();
    } else return false;
    this.follow(board);
    return true;
  },

  say(board) {
    const { cols, clues } = board.puzzle, cell = cursorOf(board), mark = board.marks[cell];
    const corners = cornersOf(mark, cols), centre = bits(board.marks[cell + clues.length], cols);
    const colour = board.marks[cell + COLOUR * clues.length], number = numberOf(mark);
    const open = corners.length ? phrase("emptyNotes", { list: corners.join(" ") }) : phrase("empty");
    const parts = [isGiven(board.puzzle, cell) ? phrase("given", { n: mark }) : number || open,
      !number && centre.length && phrase("centreNotes", { list: centre.join(" ") }),
      colour && phrase("colour", { n: colour }), board.extra.size && phrase("chosen", { n: chosen(board).length })];
    return phrase("cellAt", { row: board.at.y + 1, col: board.at.x + 1, what: parts.filter(Boolean).join(", ") });
  },

  shade(board) { this.follow(board); },

  // Shows the chosen cells, and where it is wished for those that hold the cursor's number, and numbers that clash.
  follow(board) {
    const { puzzle, marks, wishes } = board, side = puzzle.cols;
    const number = wishes.dim && numberOf(marks[cursorOf(board)]);
    const cells = number ? puzzle.clues.map((_, cell) => cell).filter((cell) => numberOf(marks[cell]) === number) : [];
    board.svg.querySelector(".same").replaceChildren(...cells.map((cell) => square(side, cell)));
    board.over.replaceChildren(
      ...(wishes.clash ? [...clashes(puzzle, marks)].map((cell) => square(side, cell, "clash")) : []),
      ...(board.extra.size ? chosen(board).map((cell) => square(side, cell, "chosen")) : []));
  },

  // The numbers that stand as often as they will.
  spent({ cols: side, clues }, marks) {
    const count = Array(side + 1).fill(0);
    clues.forEach((_, cell) => { count[numberOf(marks[cell])] += 1; });
    return new Set([...count.keys()].filter((number) => number && count[number] >= side));
  },

  unfinished(puzzle, marks) {
    const left = puzzle.clues.filter((_, cell) => !numberOf(marks[cell])).length;
    return left ? phrase("cellsEmpty", { n: left }) : "";
  },
};
