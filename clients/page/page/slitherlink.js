// Slitherlink on a board: sides are drawn by clicks (line, cross, nothing), by dragging from dot to dot, and by keys
// from a dot. Places are sides: the horizontal ones row by row, then the upright ones; and behind them, a layer, cells
// that are shaded as inside or outside.

import { svg, UNIT } from "./elements.js";
import { pairs, phrase } from "./phrases.js";
import { cellAt, placesOf, sidesAcross } from "./texts.js";

const LINE = 1, CROSS = 2;
const WAYS = { up: [0, -1], rightWay: [1, 0], down: [0, 1], left: [-1, 0] };
const CORNERS = { aboveLeft: [-1, -1], aboveRight: [0, -1], belowLeft: [-1, 0], belowRight: [0, 0] };
const CROSSING = { w: "up", a: "left", s: "down", d: "rightWay" }; // keys that put a cross beside the dot
const SIDES = { i: 1, o: 2 }, SIDE_NAMES = ["", "inside", "outside"]; // keys that shade, and what is shaded
const COLOURS = 8; // of chains

// How near a pointer must be to mean something, in cells: a dot that was pressed, a dot that was reached, and how far
// a click may slip before it becomes a drag.
const PRESSED = 0.3, REACHED = 0.42, SLIP = 0.45;

const within = (n, most) => Math.max(0, Math.min(most, n));
const same = (a, b) => a.x === b.x && a.y === b.y;
const far = (a, b) => Math.hypot(a.x - b.x, a.y - b.y);
const inside = (puzzle, dot) => dot.x >= 0 && dot.y >= 0 && dot.x <= puzzle.cols && dot.y <= puzzle.rows;

// The side between two neighbouring dots.
function between(puzzle, a, b) {
  const x = Math.min(a.x, b.x), y = Math.min(a.y, b.y);
  return a.y === b.y ? y * puzzle.cols + x : sidesAcross(puzzle) + y * (puzzle.cols + 1) + x;
}

// The two dots of a side.
function ends(puzzle, place) {
  const across = sidesAcross(puzzle), wide = place < across ? puzzle.cols : puzzle.cols + 1;
  const i = place < across ? place : place - across, x = i % wide, y = Math.floor(i / wide);
  return [{ x, y }, place < across ? { x: x + 1, y } : { x, y: y + 1 }];
}

const nearestDot = (puzzle, at) =>
  ({ x: within(Math.round(at.x), puzzle.cols), y: within(Math.round(at.y), puzzle.rows) });

function nearestSide(puzzle, at) {
  const x = within(Math.floor(at.x), puzzle.cols - 1), y = within(Math.floor(at.y), puzzle.rows - 1);
  const gaps = [at.y - y, y + 1 - at.y, at.x - x, x + 1 - at.x], least = gaps.indexOf(Math.min(...gaps));
  const corner = [{ x, y }, { x, y: y + 1 }, { x, y }, { x: x + 1, y }][least];
  return between(puzzle, corner, least < 2 ? { x: corner.x + 1, y: corner.y } : { x: corner.x, y: corner.y + 1 });
}

// The four sides of a cell: above, below, left, right.
function around(puzzle, cell) {
  const left = sidesAcross(puzzle) + Math.floor(cell / puzzle.cols) * (puzzle.cols + 1) + cell % puzzle.cols;
  return [cell, cell + puzzle.cols, left, left + 1];
}

// How many lines each dot has.
function degrees(puzzle, marks) {
  const count = Array((puzzle.cols + 1) * (puzzle.rows + 1)).fill(0);
  marks.forEach((mark, place) => {
    if (mark !== LINE || place >= placesOf(puzzle)) return;
    for (const dot of ends(puzzle, place)) count[dot.y * (puzzle.cols + 1) + dot.x] += 1;
  });
  return count;
}

// The place of the cell at a point, or right below a dot; -1 outside the board.
function cellPlace(puzzle, at) {
  const cell = cellAt(puzzle, at);
  return cell < 0 ? -1 : placesOf(puzzle) + cell;
}

// The chains of lines: for each the places of its sides, the longest first.
function chains({ puzzle, marks }) {
  const parent = Array.from({ length: (puzzle.cols + 1) * (puzzle.rows + 1) }, (_, dot) => dot), found = new Map();
  const root = (dot) => {
    while (parent[dot] !== dot) dot = parent[dot] = parent[parent[dot]];
    return dot;
  };
  const lines = [...marks.keys()].filter((place) => place < placesOf(puzzle) && marks[place] === LINE);
  const dots = (place) => ends(puzzle, place).map(({ x, y }) => y * (puzzle.cols + 1) + x);
  for (const [one, other] of lines.map(dots)) parent[root(one)] = root(other);
  for (const place of lines) {
    const name = root(dots(place)[0]);
    if (!found.has(name)) found.set(name, []);
    found.get(name).push(place);
  }
  return [...found.values()].sort((a, b) => b.length - a.length);
}

// Colours the chains. One keeps the colour that most of its sides had, where no longer chain has it.
function colourChains(board) {
  const before = board.colours ?? new Map(), used = new Set(), next = new Map();
  const all = board.wishes.chains ? chains(board) : [];
  all.forEach((places, rank) => {
    const votes = Array(COLOURS).fill(0);
    for (const place of places) if (before.has(place)) votes[before.get(place)] += 1;
    const order = [...votes.keys()].sort((a, b) => votes[b] - votes[a]);
    const colour = order.find((one) => !used.has(one)) ?? (votes[order[0]] ? order[0] : rank % COLOURS);
    used.add(colour);
    for (const place of places) next.set(place, colour);
  });
  for (const place of before.keys()) if (!next.has(place) && board.inks[place]) board.inks[place].style.stroke = "";
  for (const [place, colour] of next) board.inks[place].style.stroke = `var(--c${colour})`;
  board.colours = next;
}

// Draws a side of a drag: its first side decides whether the drag draws or erases.
function draw(board, place) {
  const { press } = board, drawn = press.second ? CROSS : LINE;
  if (place < 0) return;
  press.to ??= board.marks[place] === drawn ? 0 : drawn;
  board.set(place, press.to);
}

// A press becomes a drag: it begins at the dot that was pressed, or at the one that was reached from a side.
function beginDrag(board, at) {
  const { puzzle, press } = board, from = nearestDot(puzzle, press.at), now = nearestDot(puzzle, at);
  const fromDot = far(from, press.at) < PRESSED;
  Object.assign(press, { moved: true, dot: fromDot ? from : now });
  if (!fromDot && ends(puzzle, press.place).some((dot) => same(dot, now))) draw(board, press.place);
}

// From the drag's dot to another one, along the grid.
function drawTo(board, goal) {
  const { press } = board;
  while (!same(goal, press.dot)) {
    const dx = goal.x - press.dot.x, dy = goal.y - press.dot.y, wide = Math.abs(dx) >= Math.abs(dy);
    const next = { x: press.dot.x + (wide ? Math.sign(dx) : 0), y: press.dot.y + (wide ? 0 : Math.sign(dy)) };
    draw(board, between(board.puzzle, press.dot, next));
    press.dot = next;
  }
}

// The ways from the cursor's dot whose sides have this mark.
const marked = (board, mark) => Object.keys(WAYS).filter((way) => {
  const to = { x: board.at.x + WAYS[way][0], y: board.at.y + WAYS[way][1] };
  return inside(board.puzzle, to) && board.marks[between(board.puzzle, board.at, to)] === mark;
});

// What `f` says of the cells round the cursor's dot.
const round = ({ puzzle, at }, f) => Object.entries(CORNERS).map(([name, [dx, dy]]) => {
  const place = cellPlace(puzzle, { x: at.x + dx, y: at.y + dy }), what = place < 0 ? "" : f(place);
  return what && phrase("clueThere", { clue: what, way: phrase(name) });
}).filter(Boolean);

const numbersRound = (board) => round(board, (place) => {
  const clue = board.puzzle.clues[place - placesOf(board.puzzle)];
  return clue === null ? "" : clue === "?" ? phrase("untold") : String(clue);
});

export const slitherlink = {
  name: phrase("slitherlink"),
  help: () => pairs("helpSlitherlink"),
  modes: [["line", "╱", phrase("lines")], ["cross", "✕", phrase("crosses")], ["cell", "▦", phrase("sides")]],
  wishes: [["dim", phrase("dimNumbers")], ["chains", phrase("chains")]],

  paper({ cols, rows, clues }) {
    let dots = "";
    for (let y = 0; y <= rows; y++) for (let x = 0; x <= cols; x++) dots += `M${x * UNIT} ${y * UNIT}h0`;
    const texts = clues.map((clue, cell) => clue === null ? null : svg("text", { class: "clue", "data-cell": cell,
      x: (cell % cols + 0.5) * UNIT, y: (Math.floor(cell / cols) + 0.5) * UNIT }, String(clue)));
    return [...texts.filter(Boolean), svg("path", { class: "dots", d: dots })];
  },

  ink(puzzle, place, mark) {
    const cell = place - placesOf(puzzle);
    if (cell >= 0) {
      return svg("rect", { class: `under ${SIDE_NAMES[mark]}`, x: cell % puzzle.cols * UNIT,
        y: Math.floor(cell / puzzle.cols) * UNIT, width: UNIT, height: UNIT });
    }
    const [a, b] = ends(puzzle, place).map((dot) => ({ x: dot.x * UNIT, y: dot.y * UNIT }));
    if (mark === LINE) return svg("path", { class: "line", d: `M${a.x} ${a.y}L${b.x} ${b.y}` });
    const x = (a.x + b.x) / 2, y = (a.y + b.y) / 2, r = 4.5;
    return svg("path", { class: "cross", d: `M${x - r} ${y - r}l${2 * r} ${2 * r}m0 ${-2 * r}l${-2 * r} ${2 * r}` });
  },

  press(board, at, event) {
    const second = board.mode === "cross" || event.button === 2;
    board.press = { at, place: nearestSide(board.puzzle, at), moved: false, second };
    const place = board.mode === "cell" ? cellPlace(board.puzzle, at) : -1;
    if (place < 0) return;
    board.press.shade = ((board.marks[place] || (event.button === 2 ? 1 : 0)) + 1) % 3;
    board.set(place, board.press.shade);
  },

  drag(board, at) {
    if (board.mode === "cell") {
      const place = cellPlace(board.puzzle, at);
      if (place >= 0 && board.press.shade !== undefined) board.set(place, board.press.shade);
      return;
    }
    if (!board.press.moved) {
      if (far(at, board.press.at) < SLIP) return;
      beginDrag(board, at);
    }
    const goal = nearestDot(board.puzzle, at);
    if (far(goal, at) <= REACHED) drawTo(board, goal); // else too far from any dot to mean one
  },

  lift(board) {
    const { place, moved, second } = board.press, mark = board.marks[place];
    if (!moved && board.mode !== "cell") board.set(place, second ? (mark === CROSS ? 0 : CROSS) : (mark + 1) % 3);
  },

  steps: ({ cols, rows }) => ({ cols: cols + 1, rows: rows + 1 }),
  cursor: (x, y) => [x - 0.22, y - 0.22, 0.44, 0.44],

  key(board, event, arrow) {
    const letter = event.key.toLowerCase(), crossed = WAYS[CROSSING[letter]];
    const cell = cellPlace(board.puzzle, board.at);
    if (SIDES[letter]) {
      if (cell >= 0) board.set(cell, board.marks[cell] === SIDES[letter] ? 0 : SIDES[letter]);
      board.end();
      return true;
    }
    const way = crossed ?? (event.shiftKey ? arrow : null);
    if (!way) return false;
    const to = { x: board.at.x + way[0], y: board.at.y + way[1] };
    if (!inside(board.puzzle, to)) return true;
    const place = between(board.puzzle, board.at, to), mark = crossed ? CROSS : LINE;
    board.set(place, board.marks[place] === mark ? 0 : mark);
    board.end();
    if (!crossed) board.move(...way);
    return true;
  },

  say(board) {
    const ways = (mark) => marked(board, mark).map((way) => phrase(way)).join(phrase("and"));
    const lines = ways(LINE), crosses = ways(CROSS), numbers = numbersRound(board).join(", ");
    const shades = round(board, (place) => board.marks[place] && phrase(SIDE_NAMES[board.marks[place]])).join(", ");
    const parts = [phrase("dotAt", { row: board.at.y + 1, col: board.at.x + 1 }),
      lines ? phrase("lineWays", { ways: lines }) : phrase("noLine"),
      crosses && phrase("crossWays", { ways: crosses }),
      numbers && phrase("numbersRound", { list: numbers }), shades];
    return parts.filter(Boolean).join("; ");
  },

  // Colours the chains, and dims the numbers that have as many lines as they say.
  shade(board) {
    colourChains(board);
    for (const text of board.svg.querySelectorAll("text.clue")) {
      const cell = Number(text.dataset.cell);
      const lines = around(board.puzzle, cell).filter((place) => board.marks[place] === LINE).length;
      text.classList.toggle("done", Boolean(board.wishes.dim) && lines === board.puzzle.clues[cell]);
    }
  },

  unfinished(puzzle, marks) {
    const count = degrees(puzzle, marks);
    if (!count.some(Boolean)) return phrase("noLineYet");
    return count.includes(1) ? phrase("looseEnd") : "";
  },
};
