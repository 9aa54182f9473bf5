// The page: who is in, which view is shown, and what all views share (rounds, sheets, answers, letters).
// A view is a function (app, signal, ...words of the address) that gives an element; `signal` ends when it is left.

import { clock } from "./clock.js";
import { html, question } from "./elements.js";
import { Letters } from "./letters.js";
import { chooseLook } from "./look.js";
import { LANGUAGES, language, loadLater, phrase } from "./phrases.js";
import { ask, network } from "./requests.js";
import { keepKey, keepOption, keepSheet, keeping, personOf, readKey, readSheets, sweep } from "./store.js";
import { every } from "./times.js";
import { doorView } from "./view-door.js";
import { puzzleView } from "./view-puzzle.js";
import { roundView } from "./view-round.js";
import { roundsView } from "./view-rounds.js";
import { trouble } from "./words.js";

// Views whose module is loaded when it is wanted.
const later = (path, ...names) => names.map((name) => (...words) => {
  const place = html("section", { class: "page" });
  Promise.all([import(path), loadLater()]).then(([module]) => place.replaceWith(module[name](...words)));
  return place;
});

const [answersView, protestsView, tableView] = later("./view-after.js", "answersView", "protestsView", "tableView");
const [aboutView, rulesView] = later("./view-about.js", "aboutView", "rulesView");
const ROUTES = [[/^#\/r\/([a-z0-9-]+)\/(\d+)$/, puzzleView], [/^#\/r\/([a-z0-9-]+)$/, roundView],
  [/^#\/r\/([a-z0-9-]+)\/answers$/, answersView], [/^#\/r\/([a-z0-9-]+)\/protests$/, protestsView],
  [/^#\/r\/([a-z0-9-]+)\/table$/, tableView], [/^#\/about$/, aboutView], [/^#\/rules$/, rulesView],
  [/^/, roundsView]];
const WITHOUT_KEY = [tableView, aboutView, rulesView];
const REFRESH = 30; // seconds between two looks at the list of rounds
const AWAY = 2; // seconds without a reply until what the browser kept is shown
const EARLY = 5; // so many seconds before the start by the page's clock a sheet is asked for again and again
const main = document.querySelector("main"), whose = document.querySelector("#whose");

// Resolves where the hall can't be reached, or doesn't reply soon.
const away = () => new Promise((done) => {
  network.addEventListener("trouble", () => done(null), { once: true });
  setTimeout(() => done(null), AWAY * 1000);
});

class App extends EventTarget {
  rounds = []; told = false; sheets = new Map(); names = new Map(); kept = new Map();
  key = null; person = null; letters = null; leaving = null; session = null; refreshing = null;

  enter(key, rounds) {
    keepKey(key);
    Object.assign(this, { key, person: personOf(key), rounds: rounds ?? [], told: Boolean(rounds),
      session: new AbortController(), kept: readSheets(personOf(key)) });
    this.letters = new Letters(key, this.person);
    if (rounds) this.letters.begin(rounds);
    document.body.classList.add("in");
    whose.textContent = phrase("key", { end: key.slice(-3) });
    every(REFRESH, this.session.signal, this.refresh);
    this.show();
  }

  leave() {
    this.session?.abort();
    this.letters?.stop.abort();
    keepKey(null);
    Object.assign(this, { key: null, person: null, letters: null, rounds: [] });
    this.sheets.clear();
    this.names.clear();
    document.body.classList.remove("in");
    whose.textContent = "";
    network.dispatchEvent(new Event("well"));
    this.show();
  }

  // Asks for the list of rounds anew, which also tells the hall's time; once at a time.
  refresh = () => {
    this.refreshing ??= this.askRounds().finally(() => { this.refreshing = null; });
    return this.refreshing;
  };

  async askRounds() {
    if (!this.key) return;
    const reply = await ask("GET", "/rounds", { key: this.key, signal: this.session.signal });
    if (!reply?.ok) return;
    if (!this.told) this.letters.begin(reply.value.rounds);
    Object.assign(this, { rounds: reply.value.rounds, told: true });
    sweep();
    this.dispatchEvent(new Event("rounds"));
  }

  // A round as it is known, so that one may go on while the hall is away; else it is waited for, for long only where
  // the browser kept nothing of it.
  async round(id) {
    const find = () => this.rounds.find((round) => round.id === id), known = find(), asked = this.refresh();
    if (!known) await (this.kept.has(id) ? Promise.race([asked, away()]) : asked);
    return find() ?? (this.told ? undefined : this.kept.get(id)?.round);
  }

  // Whether a round has begun: a sheet that was told says so even where the clock may be wrong.
  hasBegun({ id, start }) {
    return clock.now() >= start || !clock.known && this.kept.get(id)?.round.start === start;
  }

  // Whether the hall still tells the same of a round: it may have been published since.
  isSame(round) {
    return this.rounds.some((now) => now.id === round.id && now.published === round.published
      && now.start === round.start);
  }

  // The sheet with the puzzles, which never changes, but where a tab outlives a hall, as after a rehearsal. Asked a
  // little before the start by the page's clock, it waits. While the hall is away it is the one that the browser kept.
  async sheet(id, signal) {
    const start = this.rounds.find((round) => round.id === id)?.start, known = this.sheets.get(id);
    if (known && known.start === start) return { ok: true, value: known };
    const kept = this.kept.get(id)?.sheet, asked = this.askSheet(id, signal);
    if (!kept || kept.start !== (start ?? kept.start)) return asked;
    const reply = await Promise.race([asked, away()]);
    if (reply || signal.aborted) return reply;
    asked.then((late) => late && JSON.stringify(late.value) !== JSON.stringify(kept) && this.show());
    this.dispatchEvent(new Event("kept"));
    return { ok: true, value: kept };
  }

  async askSheet(id, signal) {
    for (let pause = 300; ; pause = Math.min(15000, 1.1 * pause)) {
      const reply = await ask("GET", `/rounds/${id}`, { key: this.key, signal });
      const round = this.rounds.find((one) => one.id === id), start = round?.start;
      if (reply?.ok) {
        this.sheets.set(id, reply.value);
        if (clock.now() >= start) keepSheet(this.person, round, reply.value); // staff are told sooner: not for a store
      }
      if (reply?.denied !== 7 || !(clock.now() > start - EARLY)) return reply;
      await new Promise((done) => setTimeout(done, pause * (1 + Math.random())));
    }
  }

  async answers(id, signal) {
    const reply = await ask("GET", `/rounds/${id}/answers`, { key: this.key, signal });
    if (!reply?.ok) return null;
    const names = new Set(reply.value.answers.map((answer) => answer.entrant));
    if (names.size === 1) this.names.set(id, [...names][0]); // one's own name is told nowhere else
    return this.own(id, reply.value.answers);
  }

  // Prints a round: "each" puzzle on a page, "few" pages, or its "solutions".
  async printAs(way, id) { (await import("./paper.js")).printRound(this, way, id); }

  nameIn(id) { return this.names.get(id) ?? [...this.names.values()][0]; }

  // One's own answers or protests: an entrant who is a referee too is told those of all.
  own(id, list) { return list.filter(({ entrant }) => entrant === (this.nameIn(id) ?? entrant)); }

  show() {
    this.leaving?.abort();
    this.leaving = new AbortController();
    document.title = phrase("hall");
    const [pattern, view] = ROUTES.find(([route]) => route.test(location.hash));
    const words = location.hash.match(pattern).slice(1), { signal } = this.leaving;
    const open = this.key || WITHOUT_KEY.includes(view);
    main.replaceChildren(open ? view(this, signal, ...words) : doorView(this, signal));
  }
}

const app = new App();

addEventListener("hashchange", () => {
  app.show();
  scrollTo(0, 0);
  if (!main.contains(document.activeElement)) main.focus({ preventScroll: true }); // a screen reader goes on there
});
document.addEventListener("visibilitychange", () => document.hidden || app.refresh()); // also after a sleep
addEventListener("beforeunload", (event) => { if (app.letters?.waiting()) event.preventDefault(); });
document.querySelector("#leave").addEventListener("click", async () => {
  const sure = () => question(phrase("onItsWay"), phrase("onItsWayLeave"), [[phrase("stay"), ""],
    [phrase("leave"), "yes"]]);
  if (app.letters.waiting() && !await sure()) return;
  location.hash = "#/";
  app.leave();
});

// --- the banners of trouble

const banner = document.querySelector("#trouble"), store = document.querySelector("#store");
const KEPT = `${phrase("kept")} `;
let fromStore = "";
app.addEventListener("kept", () => {
  fromStore = KEPT;
  const told = banner.querySelector("span");
  if (!told) banner.replaceChildren(html("span", {}, KEPT));
  else if (!told.textContent.startsWith(KEPT)) told.prepend(KEPT);
});
network.addEventListener("well", () => {
  fromStore = "";
  banner.replaceChildren();
});
network.addEventListener("trouble", ({ detail: { status, again } }) => {
  const then = phrase("again", { n: Math.ceil(again) });
  banner.replaceChildren(html("span", {}, `${fromStore}${trouble(status)} ${then} `),
    html("button", { class: "quiet", onclick: () => network.dispatchEvent(new Event("now")) }, phrase("tryNow")));
});
keeping.addEventListener("trouble", ({ detail }) => {
  store.replaceChildren(html("span", {}, phrase(detail === "short" ? "storeShort" : "storeShut")));
});

// --- Ctrl+P prints a round, a puzzle a page

addEventListener("keydown", (event) => {
  const [, id] = location.hash.match(/^#\/r\/([a-z0-9-]+)(\/\d+)?$/) ?? [];
  if (!id || event.key !== "p" || !(event.ctrlKey || event.metaKey)) return;
  event.preventDefault();
  app.printAs("each", id);
});

// --- languages

for (const element of document.querySelectorAll("[data-phrase]")) element.textContent = phrase(element.dataset.phrase);
whose.title = phrase("whose");
document.documentElement.lang = language;
const languages = document.querySelector("#language");
languages.setAttribute("aria-label", phrase("language"));
languages.append(...Object.entries(LANGUAGES).map(([name, own]) =>
  html("option", { value: name, selected: name === language, lang: name }, own)));
languages.addEventListener("change", () => {
  keepOption("language", languages.value);
  location.reload();
});

// The worker keeps the page for a reload without a network; a browser that forbids it does without.
navigator.serviceWorker?.register("worker.js").then(async () => {
  const loaded = performance.getEntriesByType("resource").map(({ name }) => name), { href, hash } = location;
  (await navigator.serviceWorker.ready).active.postMessage([href.replace(hash, ""), ...loaded]);
}).catch(() => {});

chooseLook(document.querySelector("#look"));
const key = readKey();
if (key) app.enter(key);
else app.show();
