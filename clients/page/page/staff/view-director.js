// The director's view: the list of rounds, a draft, or a released round.

import { html } from "../elements.js";
import { countdown, dayAndTime, endOf, lengthOf, stage, time, zone } from "../times.js";
import { draftView, NEW } from "./draft-view.js";
import { refused } from "./parts.js";
import { releasedView } from "./round-view.js";
import { MODES } from "./words.js";

const GROUPS = [["running", "Running now"], ["draft", "Drafts"], ["before", "To come"], ["protests", "Over"],
  ["published", "Published"]];
const groupOf = (round) => (round.released ? stage(round) : "draft");

function card(app, signal, round, group) {
  const line = { running: () => ["ends in ", countdown(endOf(round), signal, app.refresh)],
    before: () => ["begins in ", countdown(round.start, signal, app.refresh)] }[group]?.();
  return html("a", { class: `card round ${group}`, href: `#/director/${round.id}` }, html("h3", {}, round.title),
    html("p", {}, `${round.id} · ${dayAndTime(round.start)} to ${time(endOf(round))} · ${lengthOf(round)} · `
      + MODES[round.mode]), line && html("p", { class: "big" }, line));
}

function listView(app, signal) {
  const box = html("div");
  let shown = "";
  const draw = () => {
    const state = JSON.stringify([app.told, app.rounds.map((round) => [round, groupOf(round)])]);
    if (state === shown) return;
    shown = state;
    const groups = GROUPS.map(([name, title]) => [name, title, app.rounds.filter((round) => groupOf(round) === name)
      .sort((a, b) => a.start - b.start)]).filter(([, , rounds]) => rounds.length);
    box.replaceChildren(...groups.flatMap(([name, title, rounds]) => [html("h2", {}, title),
      html("div", { class: "cards" }, rounds.map((round) => card(app, signal, round, name)))]),
    app.rounds.length ? "" : html("p", { class: "lead" }, app.told ? "There is no round yet." : "Asking the hall …"),
    html("p", { class: "small" }, `Times are in your zone (${zone}). The hall lists drafts to directors alone.`));
  };
  app.addEventListener("rounds", draw, { signal });
  draw();
  return html("section", { class: "page" }, html("div", { class: "head" }, html("h1", {}, "Rounds"),
    html("a", { class: "button main", href: `#/director/${NEW}` }, "A new round")), box);
}

function oneView(app, signal, id) {
  const lead = html("p", { class: "lead" }, "Asking the hall …"), box = html("section", { class: "page" }, lead);
  const tell = (words) => { lead.textContent = words; };
  const open = async () => {
    const round = id === NEW ? null : await app.round(id);
    if (signal.aborted) return;
    const back = html("p", {}, html("a", { href: "#/director" }, "‹ Rounds"));
    const title = html("h1", {}, round?.title ?? (id === NEW ? "A new round" : id));
    const view = id !== NEW && !round ? refused({ denied: 4 })
      : round?.released ? await releasedView(app, signal, round) : await draftView(app, signal, id, tell);
    if (signal.aborted) return;
    document.title = `${title.textContent} · Contest hall`;
    box.replaceChildren(back, title, view);
  };
  // A round that was released or published elsewhere is shown anew.
  const kind = () => JSON.stringify(app.rounds.filter((it) => it.id === id).map((it) => [it.released, it.published]));
  let before = kind();
  app.addEventListener("rounds", () => {
    if (before !== "[]" && kind() !== before) app.show();
    before = kind();
  }, { signal });
  open();
  return box;
}

export function directorView(app, signal, id) {
  return id ? oneView(app, signal, id) : listView(app, signal);
}
