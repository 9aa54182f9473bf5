// The puzzles that the hall lists to the caller, and their texts, which it tells one by one: so they are asked for a
// few at a time, those first that are looked at.

import { html } from "../elements.js";
import { kindOf, picture } from "../picture.js";
import { readPuzzle } from "../texts.js";

const AT_ONCE = 3; // texts that are asked for at once
const PAUSE = 150; // milliseconds that each takes at the least: a proxy lets a key ask 300 times in 10 seconds
export const nameOf = ({ author, label }) => `${author}/${label}`;

export class Puzzles extends EventTarget {
  list = null; refused = null; texts = new Map(); waiting = []; asking = 0;

  constructor(app, signal) {
    super();
    Object.assign(this, { app, signal });
  }

  // Asks for the list anew; the event "list" says that it came, or was refused. A puzzle that was put anew may have
  // another text.
  async renew() {
    const reply = await this.app.ask("GET", "/puzzles", { signal: this.signal });
    if (!reply) return;
    this.refused = reply.ok ? null : reply;
    if (reply.ok) {
      const states = new Map(this.list?.map((it) => [nameOf(it), it.state]));
      this.list = reply.value.puzzles;
      for (const it of this.list) if (states.get(nameOf(it)) !== it.state) this.texts.delete(nameOf(it));
    }
    this.tell();
  }

  tell() { this.dispatchEvent(new Event("list")); }

  // What a reply told of a puzzle.
  learn(author, label, { state, text }) {
    const name = nameOf({ author, label }), known = this.list?.find((it) => nameOf(it) === name);
    if (text) this.texts.set(name, Promise.resolve(text));
    if (known) known.state = state;
    else {
      this.list = [...(this.list ?? []), { author, label, state }]
        .sort((a, b) => (nameOf(a) < nameOf(b) ? -1 : 1));
    }
    this.tell();
  }

  // The text of a puzzle, or null where it can't be had.
  text({ author, label }) {
    const name = nameOf({ author, label });
    if (!this.texts.has(name)) this.texts.set(name, new Promise((done) => {
      this.waiting.push([`/puzzles/${name}`, done]);
      this.next();
    }));
    return this.texts.get(name);
  }

  async next() {
    if (this.asking >= AT_ONCE || !this.waiting.length) return;
    const [path, done] = this.waiting.shift();
    this.asking += 1;
    const pause = new Promise((over) => setTimeout(over, PAUSE));
    const reply = await this.app.ask("GET", path, { signal: this.signal });
    done(reply?.ok ? reply.value.text : null);
    await pause;
    this.asking -= 1;
    this.next();
  }

  // The puzzles that have these texts, by text, as far as they are found: the texts of all are asked for until then,
  // of those that may stand in a round first. It may take long.
  async byTexts(texts) {
    const found = new Map(), left = new Set(texts), ready = ({ state }) => state === "one";
    const entries = [...this.list.filter(ready), ...this.list.filter((it) => !ready(it))];
    const look = async () => {
      while (left.size && entries.length) {
        const entry = entries.shift(), text = await this.text(entry);
        if (left.delete(text)) found.set(text, entry);
      }
    };
    await Promise.all(Array.from({ length: AT_ONCE }, look));
    return found;
  }
}

// A puzzle's text as a puzzle; null where this page can't draw it.
export function puzzleOf(text) {
  try {
    return readPuzzle(text);
  } catch {
    return null;
  }
}

// What a puzzle is, in a few words.
export const sizeOf = (puzzle) => `${kindOf(puzzle).name} ${puzzle.cols}\u00a0×\u00a0${puzzle.rows}`;

// A place for a puzzle's picture, which is asked for once it comes into view; `said` gets what the puzzle is.
export function thumb(puzzles, entry, said) {
  const place = html("div", { class: "thumb" });
  new IntersectionObserver(async (seen, observer) => {
    if (!seen.some((one) => one.isIntersecting)) return;
    observer.disconnect();
    const text = await puzzles.text(entry), puzzle = text && puzzleOf(text);
    place.replaceChildren(puzzle ? picture(puzzle) : html("p", { class: "small" }, "no picture"));
    if (puzzle) said.textContent = sizeOf(puzzle);
  }, { rootMargin: "200px" }).observe(place);
  return place;
}
