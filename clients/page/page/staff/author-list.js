// The puzzles that the hall lists to the caller, a card each: its picture, how it stands, and its certificate.

import { html, refill } from "../elements.js";
import { every, span } from "../times.js";
import { command, refused, stateChip } from "./parts.js";
import { nameOf, thumb } from "./puzzles.js";
import { standing, untoldWords } from "./standing.js";
import { STATES } from "./words.js";

export const BUDGETS = [[200000, "200,000 visits, as usual"], [1000000, "1,000,000 visits, the most"]];

class Card {
  constructor(list, entry) {
    Object.assign(this, { list, entry, name: nameOf(entry) });
    this.size = html("p", {}, "…");
    this.stand = html("div", { class: "stand", "aria-live": "polite" });
    this.round = html("p", { class: "small" });
    this.home = html("div");
    const home = html("details", { ontoggle: () => this.tellHome() },
      html("summary", {}, "Try it at home"), this.home);
    this.element = html("article", { class: "card puzzle", "data-name": this.name },
      thumb(list.app.puzzles, entry, this.size), html("h3", {}, this.name), this.size, this.stand, this.round, home);
  }

  async tellHome() {
    const text = await this.list.app.puzzles.text(this.entry);
    this.home.replaceChildren(...text ? [command(`echo '${text}' | hall solve --budget ${this.list.budget()}`),
      html("p", { class: "small" }, "It takes your own machine's time, and tells the one solution.")] : []);
  }

  // Whether this card is to be seen: by what is chosen above the list.
  tell(entry) {
    this.entry = entry;
    const { searches } = this.list.app, search = searches.of(entry), { state } = entry;
    const go = html("button", { class: "certify", onclick: () => this.certify() },
      state === "new" ? "Count its solutions" : "Search again");
    if (search) this.wait(search, searches.isNext(search));
    else {
      this.waiting = null;
      refill(this.stand, html("p", {}, stateChip(state)), html("p", { class: "small" }, STATES[state]?.[1] ?? ""),
        this.said);
      if (["new", "gave up"].includes(state)) this.stand.append(go);
    }
    this.element.hidden = this.list.lacking() && state === "one";
  }

  // A sign that a search waits, with the time since it was asked for: the hall makes one of a key at a time.
  wait(search, isNext) {
    if (!this.waiting) {
      [this.turn, this.waiting] = [html("span"), html("span")];
      this.stand.replaceChildren(html("p", {}, html("span", { class: "chip wait" }, this.turn, " ", this.waiting)),
        html("p", { class: "small" }, "It may take minutes. The hall searches on, also when you leave this page or "
          + "close the tab. To be rid of it, put another text under this label."));
    }
    this.turn.textContent = isNext ? "being searched" : "waits for your other search";
    this.waiting.textContent = span((Date.now() - search.since) / 1000);
  }

  async certify() {
    this.said = null;
    const reply = await this.list.app.searches.begin(this.entry, this.list.budget());
    if (reply && !reply.ok) this.said = refused(reply);
    this.list.tell();
  }

  tellRounds(byText) {
    this.list.app.puzzles.text(this.entry).then((text) => {
      const ids = byText.get(text) ?? [];
      this.round.textContent = ids.length ? `in ${ids.join(", ")}` : "";
    });
  }
}

export class PuzzleList {
  constructor(app, signal) {
    Object.assign(this, { app, signal, cards: new Map() });
    this.most = html("select", { "aria-label": "How long to search" },
      BUDGETS.map(([value, label]) => html("option", { value }, label)));
    this.few = html("input", { type: "checkbox", onchange: () => this.tell() });
    this.said = html("div");
    this.box = html("div", { class: "cards puzzles" });
    this.rounds = html("p", { class: "small" });
    const check = (...children) => html("label", { class: "check" }, children);
    this.element = html("section", {}, html("h2", {}, "Puzzles"), html("div", { class: "row choices" },
      check(this.few, "only what isn't ready"), check("search", this.most)), this.rounds, this.said, this.box);
    app.puzzles.addEventListener("list", () => this.tell(), { signal });
    app.searches.addEventListener("change", () => this.tell(), { signal });
    every(1, signal, () => this.tick());
    this.tell();
    this.renew();
  }

  budget() { return Number(this.most.value); }
  lacking() { return this.few.checked; }

  async renew() {
    await this.app.puzzles.renew();
    if (this.signal.aborted || !this.app.puzzles.list) return;
    const found = await standing(this.app, this.signal);
    if (!found || this.signal.aborted) return;
    this.rounds.textContent = untoldWords(found, this.app.rounds);
    for (const card of this.cards.values()) card.tellRounds(found.byText);
  }

  tick() {
    for (const card of this.cards.values()) {
      const { searches } = this.app, search = searches.of(card.entry);
      if (search) card.wait(search, searches.isNext(search));
    }
  }

  tell() {
    const { list, refused: reply } = this.app.puzzles;
    refill(this.said, reply ? refused(reply) : list?.length === 0 ? html("p", { class: "lead" }, "There is none yet.")
      : list ? "" : html("p", { class: "lead" }, "Asking the hall …"));
    for (const entry of list ?? []) {
      const name = nameOf(entry);
      if (!this.cards.has(name)) this.cards.set(name, new Card(this, entry));
      this.cards.get(name).tell(entry);
    }
    const wanted = (list ?? []).map((entry) => this.cards.get(nameOf(entry)).element);
    if (wanted.some((element, i) => this.box.children[i] !== element)) this.box.replaceChildren(...wanted);
  }

  // The card of a puzzle, after a put: with a new picture.
  renewed({ author, label }) {
    this.cards.delete(nameOf({ author, label }));
    this.tell();
    return this.cards.get(nameOf({ author, label }));
  }
}
