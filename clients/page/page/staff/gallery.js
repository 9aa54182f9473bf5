// The puzzles to choose from, by their pictures.

import { html, refill } from "../elements.js";
import { refused, stateChip } from "./parts.js";
import { nameOf, thumb } from "./puzzles.js";

// `isChosen(entry)` tells whether a puzzle stands in the round, `choose(entry)` takes it in or out.
export class Gallery {
  constructor(app, signal, isChosen, choose) {
    Object.assign(this, { app, isChosen, choose, cards: new Map() });
    const tell = () => this.tell();
    this.find = html("input", { type: "search", placeholder: "author or label", "aria-label": "Find", oninput: tell });
    this.ready = html("input", { type: "checkbox", checked: true, onchange: tell });
    this.box = html("div", { class: "cards puzzles" });
    this.said = html("div");
    this.element = html("section", {}, html("h2", {}, "Puzzles to choose from"), html("div", { class: "row choices" },
      this.find, html("label", { class: "check" }, this.ready, "only those with one solution")), this.said, this.box);
    app.puzzles.addEventListener("list", tell, { signal });
    app.puzzles.renew();
    this.tell();
  }

  card(entry) {
    const name = nameOf(entry), size = html("span", { class: "small" }, "…"), state = html("span");
    const element = html("button", { type: "button", class: "card pick", "data-name": name,
      onclick: () => this.choose(this.cards.get(name).entry) }, thumb(this.app.puzzles, entry, size),
    html("strong", {}, name), size, state);
    return { element, state, entry };
  }

  tell() {
    const { list, refused: reply } = this.app.puzzles, wanted = this.find.value.trim();
    refill(this.said, reply ? refused(reply) : list ? "" : html("p", { class: "lead" }, "Asking the hall …"));
    const shown = (list ?? []).filter((entry) => this.isChosen(entry) || nameOf(entry).includes(wanted)
      && (!this.ready.checked || entry.state === "one"));
    if (list && !shown.length) this.said.append(html("p", { class: "lead" }, "There is none of this kind."));
    for (const entry of shown) {
      const name = nameOf(entry);
      if (!this.cards.has(name)) this.cards.set(name, this.card(entry));
      const card = this.cards.get(name);
      card.entry = entry;
      card.element.setAttribute("aria-pressed", this.isChosen(entry));
      refill(card.state, stateChip(entry.state));
    }
    const elements = shown.map((entry) => this.cards.get(nameOf(entry)).element);
    if (elements.length !== this.box.childElementCount || elements.some((it, i) => this.box.children[i] !== it)) {
      this.box.replaceChildren(...elements);
    }
  }
}
