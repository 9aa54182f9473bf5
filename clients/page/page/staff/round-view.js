// A released round: its times, its answers, its protests, the table that is to come, and its publication.

import { html, question, refill } from "../elements.js";
import { ask } from "../requests.js";
import { closeOf, countdown, dayAndTime, endOf, every, stage, zone } from "../times.js";
import { note, refused } from "./parts.js";
import { tableOf } from "./reckon.js";
import { seen } from "./seen.js";
import { Watch } from "./watch.js";
import { MODES } from "./words.js";
import { utc } from "./zones.js";

const LOOK = 20; // seconds between two looks at the protests
const STAGES = { before: "to come", running: "runs", protests: "over; protests are taken",
  closed: "closed; it may be published", published: "published" };
const RECKONED = "Reckoned by this page from the answers above and the rulings so far. It isn't the hall's table, "
  + "which comes with the publication; then nothing of it can be mended.";
const FOR_GOOD = "A published table stays as it is, and anyone may read it. Nothing can be mended after.";

const tableElement = (lines) => html("table", {},
  html("thead", {}, html("tr", {}, ["Rank", "Name", "Points"].map((title) => html("th", { scope: "col" }, title)))),
  html("tbody", {}, lines.map((cells) => html("tr", {}, cells.map((cell) => html("td", {}, String(cell)))))));

class RoundView {
  constructor(app, signal, round, sheet) {
    Object.assign(this, { app, signal, round, sheet, protests: null, now: stage(round, sheet) });
    this.said = html("div", { "aria-live": "polite" });
    this.ruled = html("div", { "aria-live": "polite" });
    this.table = html("div", { class: "wide" });
    this.watch = this.now === "before" ? null : new Watch(app, signal, round, sheet, () => this.reckon());
    this.publish = html("button", { class: "main", onclick: () => this.onPublish() }, "Publish the table …");
    if (!["before", "running"].includes(this.now)) every(LOOK, signal, () => this.askProtests());
    if (this.now === "published") this.askTable();
    else this.reckon();
  }

  times() {
    const { round, sheet } = this, line = (name, moment) => html("tr", {}, html("th", { scope: "row" }, name),
      html("td", {}, dayAndTime(moment)), html("td", {}, utc(moment)));
    return html("table", { class: "times" }, html("thead", {}, html("tr", {}, html("td", {}),
      html("th", { scope: "col" }, `here (${zone})`), html("td", {}))), html("tbody", {},
      line("start", round.start), line("end", endOf(round)), line("close", closeOf(round, sheet))));
  }

  // What is next, with a countdown to it.
  next() {
    const { round, sheet, signal, app } = this;
    const until = (words, moment) => [words, countdown(moment, signal, app.show)];
    return { before: () => until("begins in ", round.start), running: () => until("ends in ", endOf(round)),
      protests: () => until("closes in ", closeOf(round, sheet)) }[this.now]?.();
  }

  async askProtests() {
    const reply = await this.app.ask("GET", `/rounds/${this.round.id}/protests`, { signal: this.signal });
    if (!reply) return;
    if (reply.ok) this.protests = reply.value.protests;
    this.tellProtests(reply);
    this.reckon();
  }

  open() { return this.protests?.filter(({ ruling }) => ruling === "open").length ?? 0; }

  tellProtests(reply) {
    const count = this.protests?.length ?? 0, open = this.open();
    refill(this.ruled, reply.ok ? html("p", {},
      count ? `${count} ${count === 1 ? "protest" : "protests"}, of these ${open} open. ` : "No protest. ",
      count > 0 && html("a", { href: `#/referee/${this.round.id}` }, "See them")) : refused(reply));
    this.publish.disabled = !this.protests || open > 0;
    this.publish.title = open ? "A referee rules on the open protests first." : "";
  }

  // The table that is to come, of what is known.
  reckon() {
    const last = this.app.listings.get(this.round.id);
    if (this.now === "published") return;
    if (!last) refill(this.table, html("p", { class: "small" }, "Once you ask for the answers, it is reckoned here."));
    else refill(this.table, html("p", { class: "note" }, html("strong", {}, "Not published. "), RECKONED),
      tableElement(tableOf(this.sheet, last.answers, this.protests ?? [])));
  }

  async askTable() {
    const reply = await ask("GET", `/rounds/${this.round.id}/table`, { signal: this.signal });
    if (!reply?.ok) return;
    const lines = reply.value.split("\n").filter(Boolean).map((line) => line.trim().split(/ +/));
    const page = `${location.origin}/#/r/${this.round.id}/table`;
    this.table.replaceChildren(html("p", {}, "For spectators: ", html("a", { href: page }, page)),
      tableElement(lines));
  }

  async onPublish() {
    const count = this.protests?.length ?? 0;
    const words = `${FOR_GOOD} Protests: ${count}, all ruled.`;
    if (!await question(`Publish ${this.round.title}?`, words, [["Go back", ""], ["Publish it", "yes"]])) return;
    this.publish.disabled = true;
    const reply = await this.app.ask("POST", `/rounds/${this.round.id}/publish`);
    await this.app.refresh();
    // Where the first reply was lost, the second one says that it is published already.
    const isDone = this.app.rounds.some(({ id, published }) => id === this.round.id && published);
    if (this.signal.aborted) return;
    if (reply?.ok || isDone) this.app.show();
    else if (reply) this.said.replaceChildren(refused(reply));
    this.publish.disabled = false;
  }

  view() {
    const { round, sheet, now } = this, isOver = !["before", "running"].includes(now);
    const line = this.next(), terms = `${MODES[round.mode]}, penalty ${sheet.penalty}, bonus ${sheet.bonus}`;
    const protests = isOver && html("section", {}, html("h2", {}, "Protests"), this.ruled);
    const table = now !== "before" && html("section", {}, html("h2", {}, "Table"), this.said,
      now === "closed" && html("div", { class: "row" }, this.publish), this.table);
    return html("div", {}, html("p", { class: "lead" }, `${STAGES[now]}; ${terms}. `,
      line && html("span", { class: "big" }, line)), this.times(), protests, now === "published" && table,
    this.watch?.element, now !== "published" && table,
    now === "before" ? seen(sheet) : html("details", {}, html("summary", {}, "The round's puzzles"), seen(sheet)));
  }
}

export async function releasedView(app, signal, round) {
  const reply = await app.sheet(round.id, signal);
  if (!reply?.ok) return reply ? refused(reply) : note("note", ["", ""]);
  return new RoundView(app, signal, round, reply.value).view();
}
