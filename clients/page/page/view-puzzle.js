// One puzzle: the board, its tools, handing in, and what the hall said.

import { Board } from "./board.js";
import { clock } from "./clock.js";
import { html, question, refill } from "./elements.js";
import { listOf, pointsWords, sums, worth } from "./overview.js";
import { phrase } from "./phrases.js";
import { kindOf } from "./picture.js";
import { Drawing } from "./store.js";
import { readPuzzle, writeAnswer } from "./texts.js";
import { countdown, endOf, every, exact } from "./times.js";
import { Tools, wishesOf } from "./tools.js";
import { failed, refused, wait } from "./view-round.js";
import { verdict } from "./words.js";

const LOOK = 3; // seconds between two looks whether the end is past for sure
const SOON = 120; // seconds before the end from which on is told what isn't handed in

export function puzzleView(app, signal, id, wanted) {
  const element = html("section", { class: "play" }, html("p", { class: "lead" }, phrase("asking")));
  const show = async () => {
    const view = await open(app, signal, id, Number(wanted), show);
    if (!signal.aborted) element.replaceChildren(...view);
  };
  show();
  return element;
}

// `again` opens it anew, at the start of its round.
async function open(app, signal, id, number, again) {
  const round = await app.round(id);
  if (round && !signal.aborted && !app.hasBegun(round)) return [wait(round, signal, again)];
  const reply = round && await app.sheet(id, signal);
  if (signal.aborted) return [];
  if (reply && !reply.ok) return [failed(reply)];
  const entry = reply?.value.puzzles.find((puzzle) => puzzle.number === number);
  if (!entry) return [failed({ denied: 4 })];
  try {
    return new Desk(app, signal, round, reply.value, entry, readPuzzle(entry.text)).view();
  } catch (fault) {
    console.error(fault);
    return [html("div", { class: "note bad" }, phrase("cantDraw", entry))];
  }
}

class Desk {
  constructor(app, signal, round, sheet, entry, puzzle) {
    Object.assign(this, { app, signal, round, sheet, entry, puzzle, number: entry.number, kind: kindOf(puzzle) });
    this.all = []; // one's answers to all puzzles of the round
    this.ended = new AbortController(); // the round is over, or the reader has left
    signal.addEventListener("abort", () => this.ended.abort());
    document.title = `${entry.number}. ${this.kind.name} · ${round.title}`;
    const drawing = new Drawing(app.person, round.id, entry.number, entry.text, endOf(round));
    this.board = new Board(puzzle, drawing, () => this.warn(""), wishesOf(puzzle, this.kind));
    this.tools = new Tools(this.board, signal);
    this.hand = html("button", { class: "main hand", onclick: () => this.handIn() });
    this.said = html("div", { class: "said", "aria-live": "polite" });
    this.past = html("ol", { class: "past", "aria-label": phrase("answersLabel") });
    this.list = html("div");
    this.sum = html("small");
    drawing.follow(signal, () => this.board.renew());
    const heard = ({ detail }) => (detail.reply?.ok ? this.renew() : this.tell());
    app.letters.addEventListener("change", heard, { signal });
    app.addEventListener("rounds", () => app.isSame(round) || app.show(), { signal });
    document.addEventListener("keydown", (event) => this.onKey(event), { signal });
    every(LOOK, signal, () => {
      this.tell();
      this.tellList();
    });
    this.renew();
    requestAnimationFrame(() => {
      this.board.fit();
      this.board.svg.focus({ preventScroll: true });
    });
  }

  get answers() { return this.all.filter((answer) => answer.number === this.number); }

  // Keys that go to another puzzle, and hand in.
  onKey(event) {
    const step = { PageDown: 1, PageUp: -1 }[event.key];
    if (document.querySelector("dialog[open]")) return;
    if (step && this.has(this.number + step)) location.hash = `#/r/${this.round.id}/${this.number + step}`;
    else if (event.key === "Enter" && (event.ctrlKey || event.metaKey)) { if (!this.hand.disabled) this.handIn(); }
    else return;
    event.preventDefault();
  }

  has(number) { return this.sheet.puzzles.some((entry) => entry.number === number); }

  // --- handing in

  costs() {
    const { penalty } = this.sheet;
    return this.round.mode === "instant" && penalty ? phrase("wrongCost", { n: penalty }) : "";
  }

  async handIn() {
    const { marks } = this.board, answer = writeAnswer(this.puzzle, marks);
    const why = this.kind.unfinished(this.puzzle, marks);
    const sure = (title, text, go) => question(phrase(title), `${text} ${this.costs()}`,
      [[phrase("goOn"), ""], [phrase(go), "yes"]], this.ended.signal);
    if (why && this.puzzle.kind === "sudoku") { this.warn(why); return; } // its text would be no filling at all
    if (why && !await sure("notFinished", why, "handAsIs")) return;
    if (!why && this.answers.some((old) => old.answer === answer)
      && !await sure("sameAgain", phrase("sameBefore"), "handAgain")) return;
    this.app.letters.answer(this.round, this.number, answer);
  }

  async renew() {
    const answers = await this.app.answers(this.round.id, this.signal);
    if (this.signal.aborted) return;
    if (answers) this.all = answers;
    this.tell();
    this.tellList();
  }

  // --- what is told beside the board

  // Says why nothing was handed in, until more is drawn.
  warn(why) {
    this.warning = why;
    this.tell();
  }

  tell() {
    if (!this.hand) return; // the board isn't laid out yet
    const { answers, app, number, round } = this, over = clock.isPast(endOf(round));
    const letters = app.letters.of(round.id, "answer").filter((letter) => letter.number === number);
    const waiting = letters.some((letter) => !letter.reply), isInstant = round.mode === "instant";
    const right = answers.some((answer) => answer.verdict === "right");
    if (over) this.ended.abort();
    this.tools.tell();
    this.hand.disabled = waiting || over || (right && isInstant);
    const label = waiting ? phrase("sending") : over ? phrase("isOver") : right && isInstant ? phrase("solved")
      : phrase("handIn", { points: pointsWords(this.worth()) });
    if (this.hand.textContent !== label) this.hand.textContent = label;
    refill(this.said, letters.filter((letter) => letter.reply).map((letter) => refused(app, letter)),
      this.hand.disabled ? "" : this.reminder(), this.news(waiting, over, right));
    refill(this.past, answers.map((answer) => html("li", {}, `${exact(answer.moment)} `, chip(answer))));
  }

  // Not after each stroke: it reads all drawings.
  tellList() {
    const { app, round, sheet, all, number } = this;
    const whole = sums(round, sheet, all), [, points = whole] = whole.split(" · ");
    this.sum.textContent = points;
    refill(this.list, html("p", { class: "small" }, whole), listOf(app, round, sheet, all, number));
  }

  worth() { return worth(this.round, this.sheet, this.entry, this.answers); }

  // Near the end, that what is drawn here isn't handed in.
  reminder() {
    const { board, answers, puzzle } = this, drawn = writeAnswer(puzzle, board.marks);
    const isSoon = endOf(this.round) - clock.now() < SOON;
    if (!isSoon || !board.past.length || answers.some(({ answer }) => answer === drawn)) return "";
    return html("p", { class: "note" }, phrase("endNear"));
  }

  news(waiting, over, right) {
    const last = this.answers.at(-1), judged = verdict(last?.verdict);
    const note = (look, head, ...more) =>
      html("div", { class: `note ${look}` }, html("strong", {}, phrase(head)), ...more);
    if (this.warning) return html("p", { class: "note" }, this.warning);
    if (waiting) return html("p", { class: "note" }, phrase("goesAgain"));
    if (right && this.round.mode === "instant") {
      return note("good", "isRight", over ? "" : ` ${pointsWords(this.worth())}.`);
    }
    if (judged?.right) return note("good", "isRight");
    if (judged) {
      return note("bad", "isWrong", html("ul", {}, judged.reasons.map((reason) => html("li", {}, reason))));
    }
    if (!last) return "";
    const same = last.answer === writeAnswer(this.puzzle, this.board.marks);
    return note("good", "isReceived", phrase("receivedAt", { time: exact(last.moment) }),
      phrase(same ? "isDrawn" : "drawnElse"), phrase("lastCounts"));
  }

  // --- the view

  bar() {
    const { round, number, kind, puzzle, signal } = this;
    const step = (to, label, hint) => html("a", { class: "step", title: hint, "aria-label": hint,
      href: this.has(to) && `#/r/${round.id}/${to}` }, label);
    return html("header", { class: "bar" }, html("a", { href: `#/r/${round.id}` }, `‹ ${round.title}`),
      html("h1", {}, step(number - 1, "‹", phrase("previous")), ` ${number}. ${kind.name} `,
        step(number + 1, "›", phrase("next")), html("small", {}, ` ${puzzle.cols} × ${puzzle.rows}`)),
      html("div", { class: "left" }, this.sum, " ", countdown(endOf(round), signal, () => this.renew())));
  }

  view() {
    const { tools } = this;
    this.kind.shade?.(this.board);
    this.tell();
    return [this.bar(), this.board.element, html("aside", { class: "tools", "aria-label": phrase("tools") },
      tools.above(), this.hand, this.said, this.past,
      html("details", { open: innerWidth > 800 }, html("summary", {}, phrase("puzzles")), this.list), tools.below())];
  }
}

export function chip({ verdict: text }) {
  const judged = verdict(text);
  if (!judged) return html("span", { class: "chip wait" }, phrase("received"));
  return html("span", { class: `chip ${judged.right ? "good" : "bad"}` }, phrase(judged.right ? "right" : "wrong"));
}
