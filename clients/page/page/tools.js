// The tools beside a board: undo, zoom, modes, the pad of a Sudoku, tries, helps on wish, and clicks and keys.

import { html, question } from "./elements.js";
import { loadLater, pairs, phrase } from "./phrases.js";
import { keepOption, readOption } from "./store.js";

// The helps that the reader asked for before, on boards of this kind.
export function wishesOf(puzzle, { wishes }) {
  return Object.fromEntries(wishes.map(([name]) => [name, readOption(optionOf(puzzle, name), false)]));
}

const optionOf = ({ kind }, name) => (name === "dim" ? kind : `${kind}.${name}`);

export class Tools {
  constructor(board, signal) {
    Object.assign(this, { board, signal });
    const { kind, puzzle } = board;
    this.undo = this.tool("↶", phrase("undo"), () => board.undo());
    this.redo = this.tool("↷", phrase("redo"), () => board.redo());
    this.zoom = [this.tool("−", phrase("smaller"), () => board.zoomTo(board.scale / 1.25)),
      this.tool(phrase("fit"), phrase("whole"), () => board.fit(true)),
      this.tool("+", phrase("larger"), () => board.zoomTo(board.scale * 1.25))];
    this.modes = kind.modes.map(([name, sign, hint]) => [name, this.tool(sign, hint, () => this.setMode(name))]);
    this.begin = this.tool(phrase("tryIt"), phrase("tryHint"), () => board.beginTry());
    this.back = this.tool(phrase("undoTry"), phrase("undoTryHint"), () => board.undoTry());
    this.keep = this.tool(phrase("keepTry"), phrase("keepTryHint"), () => board.keepTries());
    if (puzzle.kind === "sudoku") this.makePad();
  }

  tool(label, hint, f) {
    return html("button", { title: hint, "aria-label": hint, onclick: (event) => {
      f();
      if (event.detail) this.board.svg.focus({ preventScroll: true }); // a click; by keys one stays on the button
    } }, label);
  }

  makePad() {
    const { board } = this, { kind, puzzle } = board;
    const write = (number, name = String(number)) => this.tool(number ? name : "⌫", number ? name : phrase("erase"),
      () => kind.write(board, number));
    this.numbers = Array.from({ length: puzzle.cols }, (_, i) => write(i + 1));
    this.colours = Array.from({ length: kind.COLOURS }, (_, i) => write(i + 1, phrase("colour", { n: i + 1 })));
    this.colours.forEach((button, i) => {
      button.style.background = `color-mix(in srgb, var(--c${i}) 35%, var(--board))`;
      button.textContent = String(i + 1);
    });
    this.more = this.tool("⊞", phrase("more"), () => {
      board.more = !board.more;
      this.tell();
    });
    this.pad = html("div", { class: puzzle.cols > 9 ? "pad wide" : "pad" }, this.numbers, this.colours, write(0));
  }

  // A second push on a mode goes back to the usual one.
  setMode(name) {
    const { board } = this, usual = board.kind.modes[0][0];
    board.mode = board.mode === name ? usual : name;
    this.tell();
  }

  tell() {
    const { board } = this, { mode, kind } = board, isTrying = board.tries.length > 0;
    this.undo.disabled = !board.past.length;
    this.redo.disabled = !board.future.length;
    for (const [name, button] of this.modes) button.setAttribute("aria-pressed", mode === name);
    this.back.hidden = this.keep.hidden = !isTrying;
    board.element.classList.toggle("trying", isTrying);
    if (!this.pad) return;
    const spent = kind.spent(board.puzzle, board.marks);
    this.more.setAttribute("aria-pressed", Boolean(board.more));
    this.pad.classList.toggle("small", mode === "corner" || mode === "centre");
    this.numbers.forEach((button, i) => {
      button.hidden = mode === "colour";
      button.classList.toggle("spent", mode === "number" && spent.has(i + 1));
    });
    for (const button of this.colours) button.hidden = mode !== "colour";
  }

  wishes() {
    const { board } = this;
    return board.kind.wishes.map(([name, words]) => html("label", { class: "check" },
      html("input", { type: "checkbox", checked: board.wishes[name], onchange: ({ target }) => {
        board.wishes[name] = target.checked;
        keepOption(optionOf(board.puzzle, name), target.checked);
        board.kind.shade(board);
      } }), words));
  }

  async clear() {
    const sure = await question(phrase("clearSure"), phrase("clearBack"), [[phrase("keepIt"), ""],
      [phrase("clearGo"), "yes"]], this.signal);
    if (sure) this.board.clear();
  }

  // What stands above and below the button that hands in.
  above() {
    return [html("div", { class: "row" }, this.undo, this.redo, this.zoom),
      html("div", { class: "row modes" }, this.modes.map(([, button]) => button), this.more), this.pad];
  }

  below() {
    const help = html("div"), fill = async () => {
      await loadLater();
      const lines = [...this.board.kind.help(), ...pairs("helpAll")];
      help.replaceChildren(html("dl", {}, lines.map(([keys, what]) => [html("dt", {}, keys), html("dd", {}, what)])),
        html("p", { class: "small" }, phrase("helpMore")));
    };
    const tries = html("div", { class: "row tries" }, this.begin, this.back, this.keep);
    return [tries, this.wishes(), html("details", { ontoggle: fill }, html("summary", {}, phrase("help")), help),
    html("button", { class: "quiet", onclick: () => this.clear() }, phrase("clear"))];
  }
}
