// Where the eye sees that an answer breaks rules: by rule, the cells, sides and dots to be marked. It judges nothing:
// the hall's verdict stands beside it. tools/tests/page_tests/broken.py compares the two.
//
// Cells and sides are places as in texts.js; a dot is [column, row].

import { boxOf, numberOf, sidesAcross } from "../texts.js";

const rangeOf = (count) => Array.from({ length: count }, (_, i) => i);

function grouped(list, keyOf) {
  const groups = new Map();
  for (const it of list) groups.set(keyOf(it), [...groups.get(keyOf(it)) ?? [], it]);
  return [...groups.values()];
}

// What is joined: `pairs` are two of `members` that lie side by side; the groups, the largest first.
function joined(members, pairs) {
  const parent = new Map(members.map((it) => [it, it]));
  const root = (it) => {
    while (parent.get(it) !== it) {
      parent.set(it, parent.get(parent.get(it)));
      it = parent.get(it);
    }
    return it;
  };
  for (const [a, b] of pairs) parent.set(root(a), root(b));
  return grouped(members, root).sort((a, b) => b.length - a.length);
}

// --- Sudoku

function sudoku({ cols: side, clues }, marks) {
  const [wide, high] = boxOf(side), numbers = marks.map(numberOf), cells = rangeOf(side * side);
  const row = (cell) => Math.floor(cell / side), column = (cell) => cell % side;
  const box = (cell) => Math.floor(row(cell) / high) * side + Math.floor(column(cell) / wide);
  const twice = (unit) => grouped(cells, (cell) => `${unit(cell)} ${numbers[cell]}`)
    .filter((group) => group.length > 1).flat();
  return { U1: { cells: twice(row) }, U2: { cells: twice(column) }, U3: { cells: twice(box) },
    U4: { cells: cells.filter((cell) => clues[cell] !== null && numbers[cell] !== clues[cell]) } };
}

// --- Slitherlink

// The two dots of a side.
function ends({ cols, rows }, place) {
  const across = sidesAcross({ cols, rows }), isAcross = place < across, wide = isAcross ? cols : cols + 1;
  const i = isAcross ? place : place - across, x = i % wide, y = Math.floor(i / wide);
  return [[x, y], isAcross ? [x + 1, y] : [x, y + 1]];
}

// The four sides of a cell.
function around({ cols, rows }, cell) {
  const left = sidesAcross({ cols, rows }) + Math.floor(cell / cols) * (cols + 1) + cell % cols;
  return [cell, cell + cols, left, left + 1];
}

function slither(puzzle, marks) {
  const lines = rangeOf(marks.length).filter((place) => marks[place] === 1), dots = new Map();
  for (const place of lines) {
    for (const dot of ends(puzzle, place)) dots.set(String(dot), [...dots.get(String(dot)) ?? [], place]);
  }
  const dotsWith = (isSuch) => [...dots].filter(([, of]) => isSuch(of.length))
    .map(([dot]) => dot.split(",").map(Number));
  const chains = joined(lines, [...dots.values()].flatMap((of) => of.slice(1).map((place) => [of[0], place])));
  const others = puzzle.clues.map((clue, cell) => [clue, cell]).filter(([clue, cell]) => typeof clue === "number"
    && around(puzzle, cell).filter((place) => marks[place] === 1).length !== clue);
  return { S1: lines.length ? {} : { all: true }, S2: { dots: dotsWith((count) => count === 1) },
    S3: { dots: dotsWith((count) => count > 2) }, S4: { cells: others.map(([, cell]) => cell) },
    S5: { sides: chains.slice(1).flat() } };
}

// --- Nurikabe

// Two cells side by side, of those that `has` tells.
function neighbours({ cols, rows }, has) {
  const cells = rangeOf(cols * rows).filter(has);
  const right = cells.filter((cell) => cell % cols < cols - 1 && has(cell + 1)).map((cell) => [cell, cell + 1]);
  const below = cells.filter((cell) => cell + cols < cols * rows && has(cell + cols))
    .map((cell) => [cell, cell + cols]);
  return joined(cells, [...right, ...below]);
}

function nurikabe(puzzle, marks) {
  const { cols, rows, clues } = puzzle, isWall = (cell) => marks[cell] === 1, cells = rangeOf(cols * rows);
  const walls = neighbours(puzzle, isWall), islands = neighbours(puzzle, (cell) => !isWall(cell));
  const blocks = cells.filter((cell) => cell % cols < cols - 1 && cell + cols < cols * rows)
    .map((cell) => [cell, cell + 1, cell + cols, cell + cols + 1]);
  const numbered = (island) => island.filter((cell) => clues[cell] !== null);
  return { N1: { cells: cells.filter((cell) => clues[cell] !== null && isWall(cell)) },
    N2: { cells: blocks.filter((block) => block.every(isWall)).flat() }, N3: { cells: walls.slice(1).flat() },
    N4: { cells: islands.filter((island) => !numbered(island).length).flat() },
    N5: { cells: islands.filter((island) => numbered(island).length > 1).flatMap(numbered) },
    N6: { cells: islands.flatMap((island) => numbered(island).filter((cell) => clues[cell] !== "?"
      && clues[cell] !== island.length)) } };
}

const KINDS = { sudoku, slither, nurikabe };
const ofAny = { cells: [], sides: [], dots: [], all: false };
const isSeen = ({ cells, sides, dots, all }) => all || cells.length + sides.length + dots.length > 0;

// The broken rules, each with what is to be marked, in the order of their names.
export function brokenIn(puzzle, marks) {
  return Object.entries(KINDS[puzzle.kind](puzzle, marks)).map(([rule, found]) => ({ ...ofAny, ...found, rule }))
    .filter(isSeen).map((it) => ({ ...it, cells: [...new Set(it.cells)] }));
}

// The places at which two fillings of a puzzle differ.
export const differing = (marks, others) => rangeOf(marks.length).filter((place) => marks[place] !== others[place]);

// The middle of a side, in cells.
export function middleOf(puzzle, place) {
  const [[x, y], [endX, endY]] = ends(puzzle, place);
  return [(x + endX) / 2, (y + endY) / 2];
}
