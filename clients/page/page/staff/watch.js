// The answers of a round. The hall lists them all or none, and hears nobody meanwhile: so they are asked for seldom,
// as docs/RUNNING.md wants it, and it is told how old they are.

import { clock } from "../clock.js";
import { html, question, refill } from "../elements.js";
import { endOf, every, exact, span, stage } from "../times.js";
import { refused } from "./parts.js";
import { puzzleOf, sizeOf } from "./puzzles.js";
import { tallies } from "./reckon.js";

const PAUSE = 60; // seconds between two listings, at the least
const SHARE = 100; // and so many times as long as the last one took
const NEAR = 120; // seconds before the end of any round in which none is asked for
const GREAT = 5000; // answers from which on none is asked for by itself, nor without a question

// A round that is about to end: until then no listing is asked for.
export function nearEnd(app) {
  const now = clock.now();
  return app.rounds.find((it) => it.released && endOf(it) > now && endOf(it) - now < NEAR);
}

export class Watch {
  // `heard` is called with the answers that came.
  constructor(app, signal, round, sheet, heard) {
    Object.assign(this, { app, signal, round, sheet, heard, asking: false });
    this.button = html("button", { onclick: () => this.byHand() }, "Ask for the answers");
    this.age = html("span", { class: "small", "aria-live": "off" });
    this.said = html("div", { "aria-live": "polite" });
    this.grid = html("div", { class: "wide", tabindex: 0, role: "region", "aria-label": "Answers" });
    this.element = html("section", {}, html("h2", {}, "Answers"), html("div", { class: "row" }, this.button, this.age),
      this.said, this.grid);
    if (this.last()) this.show();
    every(1, signal, () => this.tick());
  }

  last() { return this.app.listings.get(this.round.id); }

  // Why they may not be asked for now, or "".
  why() {
    const now = clock.now(), last = this.last(), near = nearEnd(this.app);
    if (near) return `not before ${near.title} ends, in ${span(endOf(near) - now)}: meanwhile the hall hears nobody`;
    const next = last ? last.at + Math.max(PAUSE, SHARE * last.took) : 0;
    return next > now ? `again in ${span(next - now)}` : "";
  }

  tick() {
    const last = this.last(), why = this.why(), now = clock.now();
    this.button.disabled = this.asking || Boolean(why);
    const age = last && `as of ${exact(last.at)}, ${span(now - last.at)} ago`;
    this.age.textContent = [age, why].filter(Boolean).join("; ");
    const isRunning = stage(this.round, this.sheet) === "running" || last?.at < endOf(this.round);
    const bySelf = last && isRunning && last.answers.length < GREAT && !document.hidden;
    return bySelf && !why && !this.asking ? this.ask() : null;
  }

  async byHand() {
    const count = this.last()?.answers.length ?? 0, words = `${count} answers took ${this.last()?.took.toFixed(1)} s.`;
    if (count >= GREAT && !await question("List all answers?", `${words} Meanwhile the hall hears nobody.`,
      [["Go back", ""], ["List them", "yes"]])) return;
    if (!this.why()) await this.ask();
  }

  async ask() {
    this.asking = true;
    const begun = performance.now();
    const reply = await this.app.ask("GET", `/rounds/${this.round.id}/answers`, { signal: this.signal });
    this.asking = false;
    if (!reply) return;
    refill(this.said, reply.ok ? "" : refused(reply));
    if (!reply.ok) return;
    const took = (performance.now() - begun) / 1000;
    this.app.listings.set(this.round.id, { answers: reply.value.answers, at: clock.now(), took });
    this.show();
    this.tick();
  }

  show() {
    const { answers } = this.last();
    this.grid.replaceChildren(...answers.length ? [gridOf(this.round, this.sheet, answers)]
      : [html("p", { class: "lead" }, "There are none yet.")]);
    this.heard(answers);
  }
}

function cellOf(tally, start) {
  if (!tally) return html("td", {});
  const minute = (moment) => Math.floor((moment - start) / 60);
  const [first, last] = [minute(tally.first), minute(tally.last)];
  return html("td", { class: tally.right ? "right" : "wrong" },
    html("span", {}, tally.right > 0 && html("b", { title: "right" }, `✓${tally.right} `),
      tally.wrong > 0 && html("span", { title: "wrong" }, `✗${tally.wrong}`)),
    html("small", { title: "minutes from the start to the first and the last" },
      first === last ? `${first}′` : `${first}–${last}′`));
}

function gridOf(round, sheet, answers) {
  const rows = tallies(answers), numbers = sheet.puzzles.map(({ number }) => number);
  const solved = (number) => [...rows.values()].filter((own) => own.get(number)?.right).length;
  const head = ({ number, points, text }) => {
    const puzzle = puzzleOf(text);
    return html("th", { scope: "col" }, `${number}.`, html("small", {}, puzzle ? sizeOf(puzzle) : ""),
      html("small", {}, `${points} points`));
  };
  return html("div", {}, html("p", {}, `${answers.length} answers of ${rows.size} entrants. Each place: right ✓ and `
    + "wrong ✗, and the minutes from the start to the first and the last."),
  html("table", { class: "grid-table" },
    html("thead", {}, html("tr", {}, html("th", { scope: "col" }, "Entrant"), sheet.puzzles.map(head))),
    html("tbody", {}, [...rows].map(([entrant, own]) => html("tr", {}, html("th", { scope: "row" }, entrant),
      numbers.map((number) => cellOf(own.get(number), round.start))))),
    html("tfoot", {}, html("tr", {}, html("th", { scope: "row" }, "solved by"),
      numbers.map((number) => html("td", {}, String(solved(number))))))));
}
