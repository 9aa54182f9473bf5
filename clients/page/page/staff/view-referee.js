// The referee's view: the protests of the rounds that are over, those that aren't ruled first, and one of them whole.

import { clock } from "../clock.js";
import { html, refill } from "../elements.js";
import { countdown, endOf, every } from "../times.js";
import { keepFocus, note, refused } from "./parts.js";
import { ProtestView } from "./protest-view.js";
import { keyOf, Protests } from "./protests.js";
import { rulingText } from "./ruling.js";

const LOOK = 20; // seconds between two looks at the protests
const LOOKS = { open: "wait", upheld: "good", rejected: "bad" };
const ALL = ""; // the value of a filter that lets all through

const sorted = (values) => [...new Set(values)].sort((a, b) => (a < b ? -1 : a > b ? 1 : 0));

class Referee {
  constructor(app, signal, wanted) {
    Object.assign(this, { app, signal, wanted, view: null });
    this.filters = { round: wanted ?? ALL, number: ALL, entrant: ALL };
    this.protests = new Protests(app, signal, () => this.show());
    this.bar = html("div", { class: "row filters" });
    this.said = html("div", { "aria-live": "polite" });
    this.list = html("ol", { class: "protest-list", "aria-label": "Protests" });
    this.one = html("div", { class: "protest-one" });
    this.element = html("section", { class: "page" }, html("h1", {}, "Protests"), this.bar, this.said,
      html("div", { class: "referee" }, this.list, this.one));
    app.addEventListener("rounds", () => this.renew(), { signal });
    every(LOOK, signal, () => this.renew());
  }

  // The rounds that are looked at: the one that is chosen, or all that aren't published.
  rounds() {
    const { round } = this.filters;
    return this.protests.rounds().filter(({ id, published }) => (round === ALL ? !published : id === round));
  }

  async renew() {
    await this.protests.renew(this.rounds());
    this.show();
  }

  passes(it) {
    const { number, entrant } = this.filters;
    return (number === ALL || String(it.number) === number) && (entrant === ALL || it.entrant === entrant);
  }

  // --- the filters

  filter(name, label, options) {
    if (options.every(([value]) => value !== this.filters[name])) this.filters[name] = ALL;
    const change = ({ target }) => {
      this.filters[name] = target.value;
      if (name === "round") this.renew();
      this.show();
    };
    return html("label", {}, html("span", { class: "small" }, label), html("select", { name, onchange: change },
      options.map(([value, words]) => html("option", { value, selected: value === this.filters[name] }, words))));
  }

  showFilters(all) {
    const rounds = this.protests.rounds().map(({ id, title, published }) =>
      [id, `${title}${published ? " (published)" : ""}`]);
    const wanted = this.wanted && !rounds.some(([id]) => id === this.wanted) ? [[this.wanted, this.wanted]] : [];
    const numbers = sorted(all.map(({ number }) => number)).map((number) => [String(number), String(number)]);
    const entrants = sorted(all.map(({ entrant }) => entrant)).map((entrant) => [entrant, entrant]);
    keepFocus(this.bar, () => refill(this.bar,
      this.filter("round", "Round", [[ALL, "all that aren't published"], ...wanted, ...rounds]),
      this.filter("number", "Puzzle", [[ALL, "all"], ...numbers]),
      this.filter("entrant", "Entrant", [[ALL, "all"], ...entrants])));
  }

  // --- the list

  line(it) {
    const isShown = this.view && keyOf(this.view.protest) === keyOf(it);
    return html("li", {}, html("button", { "aria-current": isShown && "true", name: keyOf(it),
      onclick: () => this.open(it) },
    html("span", {}, html("strong", {}, it.entrant), ` · ${it.round.title} · puzzle ${it.number} `),
    html("span", { class: `chip ${LOOKS[it.ruling]}` }, it.ruling === "open" ? "not ruled" : rulingText(it)),
    html("span", { class: "text" }, it.text)));
  }

  // Why there is nothing in the list.
  lack() {
    const round = this.app.rounds.find(({ id }) => id === this.filters.round);
    if (!this.app.told) return html("p", { class: "lead" }, "Asking the hall …");
    if (this.wanted && !round && this.filters.round) return note("note bad", ["There is no such round.", ""]);
    if (round && clock.now() < endOf(round)) {
      return html("p", { class: "lead" }, "Protests come from the end of the round on: ",
        countdown(endOf(round), this.signal, () => this.renew()));
    }
    return html("p", { class: "lead" }, this.rounds().length ? "There is no protest."
      : "No round is over that isn't published.");
  }

  show() {
    if (this.signal.aborted) return;
    const rounds = this.rounds(), all = this.protests.of(rounds), shown = all.filter((it) => this.passes(it));
    const open = all.filter(({ ruling }) => ruling === "open").length;
    this.showFilters(all);
    const refusals = rounds.map(({ id }) => this.protests.refused.get(id)).filter(Boolean);
    refill(this.said, refusals.length ? refused(refusals[0]) : all.length ? html("p", {}, open
      ? `${open} of ${all.length} protests ${open === 1 ? "isn't" : "aren't"} ruled.` : "All protests are ruled.")
      : this.lack());
    keepFocus(this.list, () => refill(this.list, shown.map((it) => this.line(it))));
    this.follow(shown);
  }

  // Keeps the protest that is shown, or shows the first one that isn't ruled.
  follow(shown) {
    const now = this.view && shown.find((it) => keyOf(it) === keyOf(this.view.protest));
    if (now) this.view.renew(now);
    else if (shown.length) this.open(shown[0], false);
    else {
      this.view = null;
      this.one.replaceChildren();
    }
    this.showNext(now, shown);
  }

  // After a ruling, the way to the next protest.
  showNext(now, shown) {
    const next = now && now.ruling !== "open" && shown.find(({ ruling }) => ruling === "open");
    this.one.querySelector(".next")?.remove();
    if (!next) return;
    this.one.append(html("p", { class: "next" }, html("button", { class: "main", onclick: () => this.open(next) },
      `Next: ${next.entrant} on puzzle ${next.number}`)));
  }

  open(protest, isAsked = true) {
    this.view = new ProtestView(this.app, this.signal, this.protests, protest);
    this.one.replaceChildren(this.view.element);
    this.list.querySelectorAll("button").forEach((button) => {
      if (button.name === keyOf(protest)) button.setAttribute("aria-current", "true");
      else button.removeAttribute("aria-current");
    });
    if (!isAsked) return;
    this.view.head.focus({ preventScroll: true });
    const isBelow = matchMedia("(max-width: 60rem)").matches;
    if (isBelow || this.one.getBoundingClientRect().top < 0) this.one.scrollIntoView();
  }
}

export const refereeView = (app, signal, wanted) => new Referee(app, signal, wanted).element;
