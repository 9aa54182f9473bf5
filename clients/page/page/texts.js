// Puzzle texts and answer texts, in the forms that docs/USING.md tells. No drawing, no network: plain values.
//
// A puzzle is {kind, cols, rows, clues}: a clue for each cell, row by row: null, "?" or a number.
// What is drawn is a list of marks, one for each place, 0 where nothing is drawn:
//   Slitherlink: a place is a side, the horizontal ones row by row, then the upright ones; 1 line, 2 cross
//   Nurikabe: a place is a cell; 1 wall, 2 dot
//   Sudoku: a place is a cell; number + 32 * (sum of 2^n over the pencilled numbers n)
// Behind these stand layers, which no answer has, a place for each cell:
//   Slitherlink: 1 inside, 2 outside
//   Sudoku: the sum of 2^n over the notes n in the centre; then the number of a colour

const BOXES = { 4: [2, 2], 6: [3, 2], 9: [3, 3], 16: [4, 4], 25: [5, 5] };
const CELLS = 1000;
const WIDTHS = { "-": 2, "+": 3 }; // the signs before numbers of so many digits

// A box's columns and rows; undefined where no Sudoku has this side.
export const boxOf = (side) => BOXES[side];

function hexadecimal(digits, width) {
  if (digits.length !== width || !/^[0-9a-f]+$/.test(digits)) throw new Error(`no number: ${digits}`);
  return parseInt(digits, 16);
}

// What stands at place i of a body: its clues, and how many bytes they take.
function cluesAt(kind, body, i) {
  const byte = body[i];
  if (byte >= "g" && byte <= "z") return [Array(parseInt(byte, 36) - 15).fill(null), 1];
  if (byte === ".") return [["?"], 1];
  if (kind === "slither") { // a number, and none, one or two empty cells
    const value = hexadecimal(byte, 1);
    if (value > 14) throw new Error(`no number: ${byte}`);
    return [[value % 5, ...Array(Math.floor(value / 5)).fill(null)], 1];
  }
  const sign = byte in WIDTHS ? 1 : 0, width = WIDTHS[byte] ?? 1;
  return [[hexadecimal(body.slice(i + sign, i + sign + width), width)], sign + width];
}

export function readPuzzle(text) {
  const plain = /^https?:\/\//.test(text) ? text.slice(text.indexOf("?") + 1) : text;
  const [kind, wide, high, ...rest] = plain.split("/");
  const cols = Number(wide), rows = Number(high), cells = cols * rows;
  const known = kind === "sudoku" ? cols === rows && boxOf(cols) : ["slither", "nurikabe"].includes(kind);
  if (!known || !(cells >= 1 && cells <= CELLS)) throw new Error("no puzzle that this page can draw");
  const body = rest.join("/").replace(/\/$/, ""), clues = [];
  for (let i = 0; i < body.length && clues.length < cells;) {
    const [more, bytes] = cluesAt(kind, body, i);
    clues.push(...more);
    i += bytes;
  }
  clues.length = Math.min(clues.length, cells); // a run of empty cells may pass the last one
  while (clues.length < cells) clues.push(null);
  return { kind, cols, rows, clues };
}

export const sidesAcross = ({ cols, rows }) => (rows + 1) * cols; // how many horizontal sides come first
export const placesOf = (puzzle) =>
  puzzle.kind === "slither" ? sidesAcross(puzzle) + puzzle.rows * (puzzle.cols + 1) : puzzle.cols * puzzle.rows;

// How many places there are with those of the layers.
export const layersOf = (puzzle) =>
  placesOf(puzzle) + { slither: 1, nurikabe: 0, sudoku: 2 }[puzzle.kind] * puzzle.clues.length;

// The cell at a point, in cells; -1 outside the board.
export function cellAt({ cols, rows }, at) {
  const x = Math.floor(at.x), y = Math.floor(at.y);
  return x >= 0 && y >= 0 && x < cols && y < rows ? y * cols + x : -1;
}

// The marks of a board on which nothing is drawn; in Sudoku with the givens.
export const emptyMarks = (puzzle) =>
  Array.from({ length: placesOf(puzzle) }, (_, place) => (puzzle.kind === "sudoku" ? puzzle.clues[place] ?? 0 : 0));

export const numberOf = (mark) => mark % 32; // of a Sudoku cell
const digit = (number) => (number < 10 ? String(number) : String.fromCharCode(87 + number)); // 10 is a, 25 is p
const number = (byte) => (byte <= "9" ? Number(byte) : byte.charCodeAt(0) - 87);

// An empty Sudoku cell becomes 0, which makes it no filling at all: the page doesn't send such a text.
export function writeAnswer(puzzle, drawn) {
  const marks = drawn.slice(0, placesOf(puzzle));
  if (puzzle.kind === "sudoku") return marks.map((mark) => digit(numberOf(mark))).join("");
  if (puzzle.kind === "nurikabe") return marks.map((mark) => (mark === 1 ? "#" : ".")).join("");
  const bits = marks.map((mark) => (mark === 1 ? "1" : "0")).join("");
  return `${bits.slice(0, sidesAcross(puzzle))}/${bits.slice(sidesAcross(puzzle))}`;
}

// The marks of an answer or a solution, or null where it isn't of the form.
export function readAnswer(puzzle, text) {
  const bytes = puzzle.kind === "slither" ? text.replace("/", "") : text;
  if (bytes.length !== placesOf(puzzle)) return null;
  const read = { sudoku: number, nurikabe: (byte) => (byte === "#" ? 1 : 0), slither: Number }[puzzle.kind];
  const marks = Array.from(bytes, read);
  return marks.every((mark) => Number.isInteger(mark)) ? marks : null;
}
