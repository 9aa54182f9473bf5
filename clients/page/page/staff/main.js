// The staff's page: who is in, which view is shown, and what views share.
//
// A view is a function (app, signal, ...words) that gives an element. `#/director/noon` shows the view `director` with
// the word `noon`; `signal` tells that it was left. Views share of `app`:
//   ask(method, path, options)   a request with the key, as of requests.js; null where its signal ended it
//   rounds, told, refresh()      the list of rounds, whether the hall has told it yet, and to ask for it anew;
//                                the event "rounds" says that it came
//   round(id), sheet(id, signal) a round of that list; the reply with a round's puzzles, which is kept once released
//   puzzles, searches            the puzzles with their texts (puzzles.js); certificates asked for (searches.js)
//   drafts                       what isn't sent yet, by a name, so that a walk to another view loses nothing
//   put, listings                drafts that this tab put, by their ids; the last answers of each round (watch.js)

import { html, question } from "../elements.js";
import { chooseLook } from "../look.js";
import { loadLater } from "../phrases.js";
import { ask, network } from "../requests.js";
import { keepKey, readKey } from "../store.js";
import { every } from "../times.js";
import { doorView } from "../view-door.js";
import { trouble } from "../words.js";
import { Puzzles } from "./puzzles.js";
import { Searches } from "./searches.js";
import { authorView } from "./view-author.js";
import { directorView } from "./view-director.js";
import { refereeView } from "./view-referee.js";

const VIEWS = { author: ["Author", "Paste a puzzle, see it, put it, and have its solutions counted.", authorView],
  director: ["Director", "Make a round of puzzles, release it, watch it, and publish its table.", directorView],
  referee: ["Referee", "See protests beside the board, and rule on them.", refereeView] };
const REFRESH = 30; // seconds between two looks at the list of rounds
const main = document.querySelector("main"), whose = document.querySelector("#whose");
const views = document.querySelector("#views");

class Staff extends EventTarget {
  key = null; rounds = []; told = false; leaving = null; session = null; refreshing = null; drafts = new Map();
  sheets = new Map(); put = new Map(); listings = new Map(); puzzles = null; searches = null;

  enter(key, rounds) {
    keepKey(key);
    const session = new AbortController();
    Object.assign(this, { key, rounds: rounds ?? [], told: Boolean(rounds), session }); // what asks needs the key
    Object.assign(this, { puzzles: new Puzzles(this, session.signal), searches: new Searches(this, session.signal) });
    document.body.classList.add("in");
    whose.textContent = `Key …${key.slice(-3)}`;
    every(REFRESH, session.signal, this.refresh);
    this.show();
  }

  leave() {
    this.session?.abort();
    this.searches?.forget();
    keepKey(null);
    Object.assign(this, { key: null, rounds: [], told: false, puzzles: null, searches: null });
    for (const kept of [this.sheets, this.drafts, this.put, this.listings]) kept.clear();
    document.body.classList.remove("in");
    whose.textContent = "";
    network.dispatchEvent(new Event("well"));
    this.show();
  }

  ask(method, path, options = {}) {
    return ask(method, path, { key: this.key, signal: this.session?.signal, ...options });
  }

  refresh = () => {
    this.refreshing ??= this.askRounds().finally(() => { this.refreshing = null; });
    return this.refreshing;
  };

  async askRounds() {
    if (!this.key) return;
    const reply = await this.ask("GET", "/rounds");
    if (!reply?.ok) return;
    Object.assign(this, { rounds: reply.value.rounds, told: true });
    this.dispatchEvent(new Event("rounds"));
  }

  async round(id) {
    const find = () => this.rounds.find((round) => round.id === id), asked = this.refresh();
    if (!find()) await asked;
    return find();
  }

  async sheet(id, signal) {
    if (this.sheets.has(id)) return { ok: true, value: this.sheets.get(id) };
    const reply = await this.ask("GET", `/rounds/${id}`, { signal });
    if (reply?.ok && this.rounds.find((round) => round.id === id)?.released) this.sheets.set(id, reply.value);
    return reply;
  }

  show = () => {
    this.leaving?.abort();
    this.leaving = new AbortController();
    const [name, ...words] = location.hash.replace(/^#\//, "").split("/"), { signal } = this.leaving;
    const [title, , view] = VIEWS[name] ?? ["Staff", "", home];
    document.title = `${title} · Contest hall`;
    views.replaceChildren(...Object.entries(VIEWS).map(([of, [label]]) =>
      html("a", { href: `#/${of}`, "aria-current": of === name && "page" }, label)));
    main.replaceChildren(this.key ? view(this, signal, ...words) : doorView(this, signal));
  };
}

function home() {
  return html("section", { class: "page" }, html("h1", {}, "What do you want to do?"),
    html("div", { class: "cards roles" }, Object.entries(VIEWS).map(([name, [title, what]]) =>
      html("a", { class: "card", href: `#/${name}` }, html("h3", {}, title), html("p", {}, what)))),
    html("p", { class: "small" }, "The hall tells nobody whose a key is, or which roles it has. So all three are "
      + "shown, and each asks for what it needs: what your roles don't allow is refused in words."));
}

const app = new Staff();

addEventListener("hashchange", () => {
  app.show();
  scrollTo(0, 0);
  if (!main.contains(document.activeElement)) main.focus({ preventScroll: true }); // a screen reader goes on there
});
document.addEventListener("visibilitychange", () => document.hidden || app.refresh());
addEventListener("beforeunload", (event) => { if (app.drafts.size) event.preventDefault(); });
document.querySelector("#leave").addEventListener("click", async () => {
  const sure = () => question("Something isn't sent yet", "If you leave, what you wrote here is gone.",
    [["Stay", ""], ["Leave", "yes"]]);
  if (app.drafts.size && !await sure()) return;
  location.hash = "#/";
  app.leave();
});

const banner = document.querySelector("#trouble");
network.addEventListener("well", () => banner.replaceChildren());
network.addEventListener("trouble", ({ detail: { status, again } }) => {
  const then = `Trying again in ${Math.ceil(again)} s; what you asked for is asked again until the hall replies.`;
  banner.replaceChildren(html("span", {}, `${trouble(status)} ${then} `),
    html("button", { class: "quiet", onclick: () => network.dispatchEvent(new Event("now")) }, "Try now"));
});

await loadLater(); // pictures are told in its sentences
chooseLook(document.querySelector("#look"));
const key = readKey();
if (key) app.enter(key);
else app.show();
