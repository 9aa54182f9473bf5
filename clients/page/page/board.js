// A board: what is drawn, strokes with undo, redo and tries, zoom, and the keyboard's cursor. Pointers are in
// pointers.js; what a click or a key means is the kind's own module (README.md tells what a kind must have).
//
// A stroke is a flat list of whole numbers: place, mark before, mark after, place, ... A try is told by how many
// strokes were drawn before it.

import { html, svg, UNIT } from "./elements.js";
import { phrase } from "./phrases.js";
import { EDGE, kindOf, sheet } from "./picture.js";
import { listen } from "./pointers.js";
import { emptyMarks, layersOf } from "./texts.js";

const LEGIBLE = matchMedia("(pointer: coarse)").matches ? 26 : 18; // pixels of a cell: the least at the beginning
const LEAST = 6, GREATEST = 76; // and the bounds of zooming
const ARROWS = { ArrowLeft: [-1, 0], ArrowRight: [1, 0], ArrowUp: [0, -1], ArrowDown: [0, 1] };
const within = (least, n, most) => Math.max(least, Math.min(most, n));

export class Board {
  // `drawing` keeps what is drawn (store.js); `changed` is called after each stroke, and where another tab drew.
  // `wishes` are the helps that the reader asked for, by name.
  constructor(puzzle, drawing, changed, wishes = {}) {
    Object.assign(this, { puzzle, drawing, changed, wishes, kind: kindOf(puzzle), stroke: [], tried: new Set() });
    this.mode = this.kind.modes[0][0];
    this.at = { x: 0, y: 0 };
    this.extra = new Set(); // cells that are chosen beside the cursor's
    this.inks = Array(layersOf(puzzle)).fill(null);
    this.layer = svg("g");
    this.over = svg("g");
    this.frame = svg("rect", { class: "cursor", rx: 5 });
    this.svg = sheet(puzzle, this.layer, this.over, this.frame);
    const name = phrase("boardName", { kind: this.kind.name, cols: puzzle.cols, rows: puzzle.rows });
    Object.entries({ tabindex: 0, role: "application", "aria-label": name })
      .forEach(([attribute, value]) => this.svg.setAttribute(attribute, value));
    this.words = html("p", { class: "unseen", "aria-live": "polite" });
    this.element = html("div", { class: "board" }, this.svg, this.words);
    this.adopt();
    this.move(0, 0);
    listen(this);
    this.svg.addEventListener("keydown", (event) => this.onKey(event));
    // In a frame of its own, since scroll bars may come or go by it.
    const refit = () => requestAnimationFrame(() => { if (this.fitted !== false) this.fit(); });
    new ResizeObserver(refit).observe(this.element);
  }

  // --- what is drawn

  // Takes over what is kept. A drawing that was kept before there were layers has none of their marks.
  adopt() {
    const { marks, past, future, tries = [] } = this.drawing.value ?? { marks: emptyMarks(this.puzzle), past: [],
      future: [] };
    while (marks.length < this.inks.length) marks.push(0);
    Object.assign(this, { marks, past, future, tries, stroke: [], tried: new Set() });
    marks.forEach((_, place) => this.paint(place));
    this.showTries();
  }

  // What another tab of this person has drawn is taken over first, so that nothing of it is lost.
  renew() {
    if (this.stroke.length || !this.drawing.renewed()) return;
    this.adopt();
    this.kind.shade?.(this);
    this.changed();
  }

  paint(place) {
    const mark = this.marks[place];
    this.inks[place]?.remove();
    const ink = this.inks[place] = mark ? this.kind.ink(this.puzzle, place, mark, this.marks) : null;
    if (!ink) return;
    if (ink.classList.contains("under")) this.layer.prepend(ink);
    else this.layer.append(ink);
    ink.classList.toggle("tried", this.tried.has(place));
  }

  // Draws a mark as a part of the stroke that is under way; `end` ends it.
  set(place, mark) {
    if (this.marks[place] === mark) return;
    this.stroke.push(place, this.marks[place], mark);
    if (this.tries.length) this.tried.add(place);
    this.put(place, mark);
  }

  put(place, mark) {
    this.marks[place] = mark;
    this.paint(place);
    this.kind.along?.(this.puzzle, place).forEach((other) => this.paint(other));
  }

  end() {
    if (!this.stroke.length) return;
    this.past.push(this.stroke);
    Object.assign(this, { stroke: [], future: [] });
    this.after();
  }

  // Takes back what the stroke under way drew: a second finger came, which means zooming.
  forget() {
    this.replay(this.stroke, false);
    this.stroke = [];
  }

  undo() { this.walk("past", "future", false); }
  redo() { this.walk("future", "past", true); }

  walk(from, to, forward) {
    this.renew();
    const stroke = this[from].pop();
    if (!stroke) return;
    this.replay(stroke, forward);
    this[to].push(stroke);
    this.tries = this.tries.filter((begin) => begin <= this.past.length);
    this.showTries();
    this.after();
  }

  replay(stroke, forward) {
    const count = stroke.length / 3;
    for (let k = 0; k < count; k++) {
      const i = 3 * (forward ? k : count - 1 - k);
      this.put(stroke[i], stroke[i + (forward ? 2 : 1)]);
    }
  }

  clear() {
    this.renew();
    const empty = emptyMarks(this.puzzle);
    this.marks.forEach((_, place) => this.set(place, empty[place] ?? 0));
    this.end();
  }

  after() {
    this.kind.shade?.(this);
    this.drawing.keep(this);
    this.changed();
  }

  // --- tries

  beginTry() {
    this.renew();
    this.tries.push(this.past.length);
    this.after();
  }

  // Takes back all that was drawn since the newest try began; redo brings it back, but not as a try.
  undoTry() {
    this.renew();
    const begin = this.tries.pop();
    if (begin === undefined) return;
    while (this.past.length > begin) {
      const stroke = this.past.pop();
      this.replay(stroke, false);
      this.future.push(stroke);
    }
    this.showTries();
    this.after();
  }

  keepTries() {
    this.tries = [];
    this.showTries();
    this.after();
  }

  // Shows which places were drawn in a try.
  showTries() {
    const before = this.tried, strokes = this.tries.length ? this.past.slice(this.tries[0]) : [];
    this.tried = new Set(strokes.flatMap((stroke) => stroke.filter((_, i) => i % 3 === 0)));
    for (const place of new Set([...before, ...this.tried])) {
      this.inks[place]?.classList.toggle("tried", this.tried.has(place));
    }
  }

  // --- keys

  // Moves the cursor; `more` keeps what is chosen beside it.
  move(dx, dy, more = false) {
    const { cols, rows } = this.kind.steps(this.puzzle);
    if (!more) this.extra.clear();
    this.at = { x: within(0, this.at.x + dx, cols - 1), y: within(0, this.at.y + dy, rows - 1) };
    const [x, y, width, height] = this.kind.cursor(this.at.x, this.at.y).map((n) => n * UNIT);
    Object.entries({ x, y, width, height }).forEach(([name, value]) => this.frame.setAttribute(name, value));
    this.kind.follow?.(this);
    if (!dx && !dy) return;
    this.frame.scrollIntoView({ block: "nearest", inline: "nearest" });
    this.say();
  }

  moveTo(cell, more) {
    const { cols } = this.puzzle;
    this.move(cell % cols - this.at.x, Math.floor(cell / cols) - this.at.y, more);
  }

  say() { this.words.textContent = this.kind.say(this); }

  onKey(event) {
    const arrow = ARROWS[event.key], command = event.ctrlKey || event.metaKey, letter = event.key.toLowerCase();
    this.renew();
    if (command && (letter === "y" || letter === "z" && event.shiftKey)) this.redo();
    else if (command && letter === "z") this.undo();
    else if (event.altKey || command && !this.kind.takesCommands) return;
    else if (this.kind.key(this, event, arrow)) this.say();
    else if (command) return;
    else if (letter === "t") this.beginTry();
    else if (letter === "r") this.undoTry();
    else if (arrow) this.move(...arrow);
    else return;
    event.preventDefault();
    this.element.classList.add("by-key");
  }

  // --- zoom

  // Lays the board out so that it is legible, or with `whole` so that all of it is seen.
  fit(whole = this.whole) {
    const { cols, rows } = this.puzzle, wide = this.element.clientWidth - 4, high = this.element.clientHeight - 4;
    if (wide <= 0) return;
    const withEdge = (cells) => cells + 2 * EDGE / UNIT;
    const least = Math.min(wide / withEdge(cols), high / withEdge(rows));
    this.zoomTo(Math.min(60, whole ? least : Math.max(least, Math.min(LEGIBLE, wide / 8))));
    Object.assign(this, { fitted: true, whole });
  }

  // Makes a cell so many pixels wide; what is at the point (of the window) stays there.
  zoomTo(pixels, point = null) {
    const before = this.svg.getBoundingClientRect(), old = this.scale;
    this.scale = within(LEAST, pixels, GREATEST);
    const { cols, rows } = this.puzzle, unit = this.scale / UNIT;
    this.svg.style.width = `${(cols * UNIT + 2 * EDGE) * unit}px`;
    this.svg.style.height = `${(rows * UNIT + 2 * EDGE) * unit}px`;
    this.fitted = false;
    if (!old) return;
    const box = this.element.getBoundingClientRect();
    const { x, y } = point ?? { x: box.left + box.width / 2, y: box.top + box.height / 2 };
    const after = this.svg.getBoundingClientRect(), grown = this.scale / old;
    this.element.scrollLeft += after.left + (x - before.left) * grown - x;
    this.element.scrollTop += after.top + (y - before.top) * grown - y;
  }
}
