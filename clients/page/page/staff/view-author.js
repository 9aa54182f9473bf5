// The author's view: a text is pasted, seen and put under a label; below it the list of puzzles.

import { html, question, refill } from "../elements.js";
import { toldPicture } from "../told.js";
import { PuzzleList } from "./author-list.js";
import { faultIn, mended } from "./mend.js";
import { field, note, refused, wrongName } from "./parts.js";
import { nameOf, puzzleOf, sizeOf } from "./puzzles.js";
import { TEXT_FAULTS } from "./words.js";

const DRAFT = "author"; // the name of what isn't put yet, among the drafts

// A text with its wrong sign marked.
const marked = (text, at) => html("code", { class: "text" }, text.slice(0, at), html("mark", {}, text[at] ?? " "),
  text.slice(at + 1));

class Paste {
  constructor(app, list) {
    Object.assign(this, { app, list });
    const kept = app.drafts.get(DRAFT) ?? {}, on = { oninput: () => this.look() };
    const plain = { autocapitalize: "off", spellcheck: "false", autocomplete: "off" };
    this.text = field("An address of puzz.link, a puzzle's text, or the signs of a Sudoku",
      html("textarea", { rows: 4, ...plain, ...on }));
    this.author = field("Author", html("input", { ...plain, ...on }),
      "Your name as it stands on your slip: the hall tells it only beside a puzzle of yours.");
    this.label = field("Label", html("input", { ...plain, ...on, placeholder: "as loop-1" }));
    Object.assign(this.text.input, { value: kept.text ?? "" });
    Object.assign(this.author.input, { value: kept.author ?? app.author ?? "" });
    Object.assign(this.label.input, { value: kept.label ?? "" });
    this.put = html("button", { class: "main" }, "Put the puzzle");
    this.notes = html("div", { "aria-live": "polite" });
    this.said = html("div", { "aria-live": "polite" });
    this.seen = html("div", { class: "preview" });
    this.element = html("form", { class: "paste", novalidate: true, onsubmit: (event) => this.send(event) },
      html("div", { class: "form" }, this.text.element, this.notes, html("div", { class: "two" }, this.author.element,
        this.label.element), this.put, this.said), this.seen);
    this.look();
  }

  // The one author whose puzzles the hall lists is the caller, or the only one there is.
  guess() {
    const authors = new Set(this.app.puzzles.list?.map(({ author }) => author));
    if (!this.author.input.value && authors.size === 1) this.author.input.value = [...authors][0];
  }

  look() {
    const given = this.text.input.value.trim(), { text, notes } = mended(given), fault = given && faultIn(text);
    const puzzle = given && !fault && puzzleOf(text);
    Object.assign(this, { given, mend: text, fault });
    this.text.wrong("");
    refill(this.notes, notes.map((it) => html("p", { class: "small" }, `Mended: ${it}.`)), fault ? html("div",
      { class: "note bad" }, html("strong", {}, "This is no puzzle. "), TEXT_FAULTS[fault.form],
      fault.at === undefined ? html("code", { class: "text" }, text) : marked(text, fault.at)) : "");
    this.seen.replaceChildren(puzzle ? html("figure", {}, toldPicture(puzzle, undefined, "What is pasted"),
      html("figcaption", {}, sizeOf(puzzle))) : html("p", { class: "small" }, "What you paste is drawn here. It goes "
        + "to the hall alone, and not before you put it."));
    const values = { text: this.text.input.value, author: this.author.input.value, label: this.label.input.value };
    if (given) this.app.drafts.set(DRAFT, values);
    else this.app.drafts.delete(DRAFT);
  }

  // Says all that is wrong at once; whether nothing is.
  check() {
    const author = wrongName(this.author.input.value, "your name");
    const label = wrongName(this.label.input.value, "a label");
    const text = this.given ? (this.fault ? "See above." : "") : "Paste a puzzle.";
    this.author.wrong(author);
    this.label.wrong(label);
    this.text.wrong(text);
    return !(author || label || text);
  }

  async send(event) {
    event.preventDefault();
    if (!this.check()) return;
    const entry = { author: this.author.input.value, label: this.label.input.value }, { puzzles } = this.app;
    const there = puzzles.list?.find((it) => nameOf(it) === nameOf(entry));
    const words = "Another text takes its place, and its solutions are counted anew.";
    if (there && !await question(`${nameOf(entry)} stands there already`, words,
      [["Go back", ""], ["Put this one", "yes"]])) return;
    this.put.disabled = true;
    refill(this.said, html("p", { class: "small" }, "On its way …"));
    const reply = await this.app.ask("PUT", `/puzzles/${nameOf(entry)}`, { body: { text: this.mend } });
    this.put.disabled = false;
    if (reply) this.told(entry, reply);
  }

  told(entry, reply) {
    if (!reply.ok) {
      this.said.replaceChildren(refused(reply));
      return;
    }
    this.app.author = entry.author;
    this.app.puzzles.learn(entry.author, entry.label, reply.value);
    const card = this.list.renewed(entry);
    const other = reply.value.text !== this.mend ? " The hall writes it otherwise; it is the same puzzle." : "";
    const go = html("button", { type: "button", class: "certify", onclick: () => {
      card.certify();
      card.element.scrollIntoView({ block: "center", behavior: "smooth" });
      this.said.replaceChildren();
    } }, "Count its solutions");
    this.said.replaceChildren(note("note good", [`${nameOf(entry)} is kept.`, other],
      reply.value.state === "new" && go));
    this.text.input.value = this.label.input.value = "";
    this.look();
  }
}

export function authorView(app, signal) {
  const list = new PuzzleList(app, signal), paste = new Paste(app, list);
  app.puzzles.addEventListener("list", () => paste.guess(), { signal });
  return html("section", { class: "page" }, html("h1", {}, "A puzzle"), paste.element, list.element);
}
