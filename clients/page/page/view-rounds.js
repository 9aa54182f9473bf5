// The list of rounds, by what can be done with them now.

import { clock } from "./clock.js";
import { html } from "./elements.js";
import { phrase } from "./phrases.js";
import { countdown, endOf, fromTo, lengthOf, stage, zone } from "./times.js";

const GROUPS = ["running", "before", "protests", "published"];

function card(app, signal, round, now) {
  const line = { running: () => [phrase("endsIn"), countdown(endOf(round), signal, app.refresh)],
    before: () => [phrase("beginsIn"), countdown(round.start, signal, app.refresh)] }[now]?.();
  const terms = [fromTo(round), lengthOf(round), phrase(round.mode)];
  return html("a", { class: `card round ${now}`, href: `#/r/${round.id}${now === "published" ? "/table" : ""}` },
    html("h3", {}, round.title),
    html("p", {}, terms.join(" · ")),
    line && html("p", { class: "big" }, line));
}

export function roundsView(app, signal) {
  const element = html("section", { class: "page" });
  let shown = "";
  const draw = () => {
    const state = JSON.stringify([clock.known, app.told, app.rounds.map((round) => [round, stage(round)])]);
    if (state === shown) return; // so that the list isn't taken from under a reader's hand
    shown = state;
    const groups = GROUPS.map((name) => {
      const rounds = app.rounds.filter((round) => stage(round) === name).sort((a, b) => a.start - b.start);
      return rounds.length && [html("h2", {}, phrase(name)),
        html("div", { class: "cards" }, rounds.map((round) => card(app, signal, round, name)))];
    });
    element.replaceChildren(html("h1", {}, phrase("rounds")), ...groups.filter(Boolean).flat(),
      app.told && app.rounds.length ? "" : html("p", { class: "lead" }, phrase(app.told ? "noRounds" : "asking")),
      html("p", { class: "small" }, phrase(clock.known ? "zone" : "zoneOwn", { zone })));
  };
  app.addEventListener("rounds", draw, { signal });
  draw();
  return element;
}
