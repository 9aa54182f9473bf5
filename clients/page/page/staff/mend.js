// Addresses of puzzles as a browser shows them, made into texts that the hall reads, as clients/hallctl does it too.
// What was mended is told, since a puzzle that means another rule must not slip in unseen. And where a text is no
// puzzle, by the hall's codes, before the hall is asked: what counts is what the hall says.

import { boxOf } from "../texts.js";

const KINDS = { slitherlink: "slither", slitherlinks: "slither", nuri: "nurikabe", numberplace: "sudoku" };
const SIDES = { 16: 4, 36: 6, 81: 9 }; // of a Sudoku whose numbers are all digits, by its cells
const MOST = 50, CELLS = 1000; // sides and cells of the other kinds

// --- mending: each step gives the text, and what it mended, or ""

function withoutWrapping(text) {
  const bare = text.trim().replace(/^[<>"']+|[<>"']+$/g, "").trim();
  return [bare, bare !== text && "spaces or marks round the address were taken off"];
}

// A Sudoku that is written as a sign for each cell: its digit, a dot or a zero where it is empty.
function ofSigns(text) {
  const signs = text.replace(/\s/g, ""), side = SIDES[signs.length];
  if (!side || !new RegExp(`^[.0-${side}]+$`).test(signs)) return [text, ""];
  const body = signs.match(/[.0]{1,20}|[1-9]/g)
    .map((it) => (/[1-9]/.test(it) ? it : String.fromCharCode(102 + it.length))).join("");
  return [`sudoku/${side}/${side}/${body}`, `${signs.length} signs were read as a Sudoku of ${side} by ${side}`];
}

function decoded(text) {
  let found = text;
  try { found = decodeURIComponent(text); } catch { /* a % that means itself */ }
  return [found, found !== text && "%-signs were decoded"];
}

function withoutAddress(text) {
  const mark = text.indexOf("?"), address = text.slice(0, mark);
  if (mark < 0) return [text, ""];
  const isPlain = /^https?:\/\//.test(address);
  return [text.slice(mark + 1), !isPlain && `the address ${address} in front of the puzzle was taken off`];
}

function withoutTail(text) {
  const [found] = text.split(/[&#]/);
  return [found, found !== text && `${text.slice(found.length)} behind the puzzle was taken off`];
}

function withKind(text) {
  const [word, ...rest] = text.split("/"), plain = word.toLowerCase().replace(/_(edit|play)$/, "");
  const kind = KINDS[plain] ?? plain;
  return [[kind, ...rest].join("/"), kind !== word && `the word ${word} was read as ${kind}`];
}

// Without segments that are flags, as `v:`: they stand between the word and the sides.
function withoutFlags(text) {
  const [kind, ...rest] = text.split("/"), flags = [];
  while (rest.length && /^[a-z][a-z:]*$/.test(rest[0])) flags.push(rest.shift());
  return [[kind, ...rest].join("/"), flags.length > 0 && `the flag ${flags.join(", ")} was taken out: the hall knows `
    + "the plain rules alone, so see that they are meant"];
}

function withoutEnds(text) {
  const found = text.replace(/[/ ]+$/, "");
  return [found, text.length - found.length > 1 && "more than one final slash was taken off"];
}

const STEPS = [withoutWrapping, ofSigns, decoded, withoutAddress, withoutTail, withKind, withoutFlags, withoutEnds];

// The text, and what was mended, a sentence each.
export function mended(text) {
  const notes = [];
  for (const step of STEPS) {
    const [next, told] = step(text);
    text = next;
    if (told) notes.push(told);
  }
  return { text, notes };
}

// --- where a text is no puzzle

const widthOf = (sign) => ({ "-": 2, "+": 3 })[sign] ?? 1;
const isRun = (byte) => byte >= "g" && byte <= "z";

// How many cells and bytes the form at place i of a body takes, or the code of its fault.
function formAt(kind, side, body, i) {
  const byte = body[i];
  if (isRun(byte)) return [parseInt(byte, 36) - 15, 1];
  if (byte === ".") return kind === "sudoku" ? "E5" : [1, 1];
  if (kind === "slither") return /[0-9a-e]/.test(byte) ? [1 + Math.floor(parseInt(byte, 16) / 5), 1] : "E5";
  const sign = /[-+]/.test(byte) ? 1 : 0, width = widthOf(byte), digits = body.slice(i + sign, i + sign + width);
  if (!sign && !/[0-9a-f]/.test(byte)) return "E5";
  if (digits.length < width || /[^0-9a-f]/.test(digits)) return "E6";
  const number = parseInt(digits, 16);
  return number >= 1 && number <= (kind === "sudoku" ? side : 4095) ? [1, sign + width] : "E7";
}

function faultInBody(kind, cols, rows, body) {
  let cells = 0;
  for (let place = 0; place < body.length;) {
    if (cells >= cols * rows) return { form: "E8", place };
    const found = formAt(kind, cols, body, place);
    if (typeof found === "string") return { form: found, place };
    cells += found[0];
    place += found[1];
  }
  return null;
}

// The first fault of a text by the hall's codes, as {form, at}: its place in the text, where it has one. null where
// the text is a puzzle.
export function faultIn(text) {
  const begin = /^https?:\/\//.test(text) ? text.indexOf("?") + 1 : 0;
  const [kind, wide, high, ...rest] = text.slice(begin).split("/");
  if (!["sudoku", "slither", "nurikabe"].includes(kind)) return { form: "E2" };
  if (![wide, high].every((side) => /^\d\d?$/.test(side ?? ""))) return { form: "E3" };
  const cols = Number(wide), rows = Number(high);
  const fits = kind === "sudoku" ? cols === rows && boxOf(cols)
    : cols >= 1 && rows >= 1 && cols <= MOST && rows <= MOST && cols * rows <= CELLS;
  if (!fits) return { form: "E4" };
  const body = rest.join("/").replace(/\/$/, "");
  const fault = faultInBody(kind, cols, rows, body);
  return fault && { form: fault.form, at: begin + [kind, wide, high, ""].join("/").length + fault.place };
}
