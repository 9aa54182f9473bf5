// One protest: what it says, the answer and the solution on their boards, and the ruling.

import { clock } from "../clock.js";
import { html, refill } from "../elements.js";
import { endOf, exact, span } from "../times.js";
import { verdict } from "../words.js";
import { boards, titleOf } from "./boards.js";
import { keepFocus, refused } from "./parts.js";
import { puzzleOf } from "./puzzles.js";
import { Ruling, rulingText } from "./ruling.js";
import { nearEnd } from "./watch.js";

const AGAIN = 5; // seconds until it is looked again whether the answers may be asked for

const choiceText = ({ n, moment, verdict: text }, count) =>
  `${n} of ${count}, ${exact(moment)}${text ? `, ${text.split(" ")[0]}` : ""}`;

export class ProtestView {
  constructor(app, signal, protests, protest) {
    Object.assign(this, { app, signal, protests, protest, sheet: null, solution: null, chosen: null,
      ruling: null });
    this.head = html("h2", { tabindex: -1 }, `${protest.entrant} on puzzle ${protest.number}`);
    this.title = html("p", { class: "small" }, `${protest.round.title} · ${protest.token}`);
    this.chip = html("span", { "aria-live": "polite" });
    this.said = html("div", { "aria-live": "polite" });
    this.choice = html("div");
    this.board = html("div");
    this.rule = html("div", { class: "below" });
    this.element = html("article", { class: "protest-view", "aria-label": "The protest" },
      html("div", { class: "row" }, this.head, this.chip), this.title, html("blockquote", {}, protest.text), this.said,
      this.choice, this.board, this.rule);
    this.tell();
    this.open();
  }

  async open() {
    const { app, signal, protest: { round, number } } = this, reply = await app.sheet(round.id, signal);
    if (signal.aborted || !reply) return;
    if (!reply.ok) { this.said.replaceChildren(refused(reply)); return; }
    this.sheet = reply.value;
    const solutions = await this.protests.solutionsOf(round);
    this.solution = solutions[this.sheet.puzzles.findIndex((it) => it.number === number)];
    if (signal.aborted) return;
    this.tell();
    await this.askAnswers();
  }

  // The answers are asked for once, and not where another round is about to end.
  async askAnswers() {
    const { app, protests, protest: { round }, signal } = this;
    for (let near = nearEnd(app); !protests.answersOf(round) && near; near = nearEnd(app)) {
      const left = span(endOf(near) - clock.now());
      refill(this.said, html("p", { class: "note" }, `${near.title} ends in ${left}. The answers are asked for after `
        + "that, since the hall hears nobody while it lists them."));
      await new Promise((done) => setTimeout(done, AGAIN * 1000));
      if (signal.aborted) return;
    }
    if (!protests.answersOf(round)) {
      refill(this.said, html("p", { class: "small" }, "Asking for the answers …"));
      const reply = await protests.askAnswers(round);
      if (signal.aborted || !reply) return;
      refill(this.said, reply.ok ? "" : refused(reply));
    } else refill(this.said);
    this.choose(this.own().at(-1));
  }

  // The answers of who protests to the puzzle, in their order.
  own() {
    const { entrant, number, round } = this.protest;
    return (this.protests.answersOf(round) ?? []).filter((it) => it.entrant === entrant && it.number === number)
      .sort((a, b) => a.n - b.n);
  }

  choose(answer) {
    this.chosen = answer ?? null;
    this.tell();
  }

  // --- what is shown

  choices() {
    const own = this.own();
    if (!this.protests.answersOf(this.protest.round)) return "";
    if (!own.length) return html("p", {}, `${this.protest.entrant} has no answer to this puzzle.`);
    const judged = verdict(this.chosen?.verdict);
    const choose = ({ target }) => this.choose(own[target.selectedIndex]);
    return html("div", { class: "row answer" }, html("label", { for: "answer" }, "Answer"),
      html("select", { id: "answer", name: "answer", onchange: choose },
        own.map((it) => html("option", { selected: it === this.chosen }, choiceText(it, own.length)))),
      judged && html("span", { class: `chip ${judged.right ? "good" : "bad"}` }, judged.right ? "right" : "wrong"),
      judged && !judged.right && html("span", { class: "small" }, `The verdict: ${judged.reasons.join(" ")}`));
  }

  drawn() {
    const entry = this.sheet?.puzzles.find(({ number }) => number === this.protest.number);
    const puzzle = entry && puzzleOf(entry.text);
    if (!entry) return html("p", { class: "lead" }, "Asking the hall …");
    if (!puzzle) return html("p", { class: "note bad" }, `This page can't draw this puzzle: ${entry.text}`);
    return html("div", {}, html("h3", {}, titleOf(puzzle, entry)), boards(puzzle, this.chosen, this.solution));
  }

  tell() {
    const { protest, sheet } = this, isOpen = protest.ruling === "open";
    const words = isOpen ? "not ruled" : rulingText(protest);
    this.chip.className = `chip ${{ open: "wait", upheld: "good", rejected: "bad" }[protest.ruling]}`;
    if (this.chip.textContent !== words) this.chip.textContent = words; // else it would be spoken again
    keepFocus(this.choice, () => refill(this.choice, this.choices()));
    this.board.replaceChildren(this.drawn());
    if (!isOpen) this.rule.replaceChildren(this.ruling?.refusal ?? "");
    else if (sheet && !this.ruling) {
      this.ruling = new Ruling(this.app, this.protests, protest, () => this.facts());
      this.rule.replaceChildren(this.ruling.element);
    }
  }

  facts() {
    const { round } = this.protest;
    return { sheet: this.sheet, answers: this.protests.answersOf(round),
      protests: this.protests.listed.get(round.id) ?? [] };
  }

  // The list came anew: it may have been ruled by another referee. Where the focus was on the buttons that go, it is
  // put on the protest's title.
  renew(protest) {
    const isSame = protest.ruling === this.protest.ruling && protest.points === this.protest.points;
    this.protest = protest;
    if (isSame) return;
    const { activeElement, body } = document, isLost = activeElement === body || this.rule.contains(activeElement);
    this.tell();
    if (isLost) this.head.focus({ preventScroll: true });
  }
}
