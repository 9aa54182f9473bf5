// The form of a round: its fields, the puzzles that stand in it, and those to choose from.

import { clock } from "../clock.js";
import { html, refill } from "../elements.js";
import { exact, span } from "../times.js";
import { Gallery } from "./gallery.js";
import { field, stateChip } from "./parts.js";
import { nameOf, thumb } from "./puzzles.js";
import { faultsOf, isWrong, sheetText, startOf } from "./sheet.js";
import { offsetAt, offsetText, utc, zones } from "./zones.js";

const DAY = new Intl.DateTimeFormat("en-GB", { timeZone: "UTC", weekday: "long", day: "numeric", month: "long",
  year: "numeric" });

// When a round begins, in words, by the clocks of its zone and by UTC.
export function startInWords(draft) {
  const moment = startOf(draft), left = moment - clock.now(), minutes = offsetAt(moment, draft.zone);
  const day = DAY.format(Date.parse(`${draft.start.slice(0, 10)}T00:00Z`));
  const far = left > 0 ? `in ${span(left)} from now` : "which has come already, so it can't be released";
  const other = draft.zone === "UTC" ? "UTC" : `in ${draft.zone} (UTC${offsetText(minutes)}), that is ${utc(moment)}`;
  return `${day}, ${draft.start.slice(11)} ${other}, ${far}`;
}

export class DraftForm {
  // `changed` is called after each change.
  constructor(app, signal, draft, isNew, changed) {
    Object.assign(this, { app, signal, draft, changed, tried: false });
    const on = { oninput: () => this.read() }, plain = { ...on, autocapitalize: "off", spellcheck: "false",
      autocomplete: "off" };
    const number = (label, hint) => field(label, html("input", { inputmode: "numeric", ...plain }), hint);
    this.fields = {
      id: field("Id", html("input", { ...plain, readonly: !isNew }), "it stands in addresses, as morning"),
      title: field("Title", html("input", on)),
      start: field("Start", html("input", { type: "datetime-local", ...on })),
      zone: field("by the clocks of", html("select", on, zones().map((it) => html("option", {}, it)))),
      minutes: number("Minutes"), protest_minutes: number("Minutes for protests", "after the end"),
      mode: field("Verdicts", html("select", on, html("option", { value: "instant" }, "at once (instant)"),
        html("option", { value: "sealed" }, "after the end (sealed)"))),
      penalty: number("Penalty", "for a wrong answer, if instant"),
      bonus: number("Bonus", "for each whole minute left"),
      testers: field("Testers", html("input", plain), "entrants or referees, who read it from its release on"),
    };
    for (const [name, { input }] of Object.entries(this.fields)) input.value = draft[name];
    this.when = html("p", { class: "small", "aria-live": "polite" });
    this.chosen = html("ol", { class: "chosen" });
    this.lacks = html("p", { class: "small bad" });
    this.gallery = new Gallery(app, signal, (entry) => this.at(entry) >= 0, (entry) => this.toggle(entry));
    app.puzzles.addEventListener("list", () => this.tellPuzzles(), { signal });
    this.tellPuzzles();
    this.tell();
  }

  at(entry) { return this.draft.puzzles.findIndex((it) => nameOf(it) === nameOf(entry)); }

  read() {
    for (const [name, { input }] of Object.entries(this.fields)) this.draft[name] = input.value;
    this.tell();
    this.changed();
  }

  // Says all that is wrong, once it was tried to put the draft; and when it begins.
  tell() {
    const faults = faultsOf(this.draft), words = (fault) => (this.tried ? fault : "");
    for (const [name, { wrong }] of Object.entries(this.fields)) wrong(words(faults[name] ?? ""));
    this.lacks.textContent = words(faults.puzzles);
    [...this.chosen.children].forEach((row, i) => row.wrong(words(faults.points[i])));
    this.when.textContent = faults.start ? "" : `It begins on ${startInWords(this.draft)}.`;
  }

  // The sheet of the draft, or null where something is wrong with it, which is told then.
  sheet() {
    this.tried = true;
    this.tell();
    const isGood = !isWrong(faultsOf(this.draft));
    if (!isGood) this.element?.querySelector("[aria-invalid]")?.focus();
    return isGood ? sheetText(this.draft) : null;
  }

  // --- the puzzles of the round

  toggle(entry) {
    const at = this.at(entry), { puzzles } = this.draft;
    if (at >= 0) puzzles.splice(at, 1);
    else puzzles.push({ author: entry.author, label: entry.label, points: puzzles.at(-1)?.points ?? 40 });
    this.redo();
  }

  // Exchanges a puzzle with the one before it.
  raise(at) {
    const { puzzles } = this.draft;
    [puzzles[at - 1], puzzles[at]] = [puzzles[at], puzzles[at - 1]];
    this.redo();
  }

  redo() {
    this.tellPuzzles();
    this.gallery.tell();
    this.tell();
    this.changed();
  }

  row(entry, at) {
    const name = nameOf(entry), listed = this.app.puzzles.list?.find((it) => nameOf(it) === name);
    const size = html("span", { class: "small" });
    const points = html("input", { inputmode: "numeric", value: entry.points, "aria-label": `Points of ${name}`,
      oninput: () => {
        entry.points = points.value;
        this.tell();
        this.changed();
      } });
    const said = html("span", { class: "small bad" });
    const tool = (sign, hint, f) => html("button", { type: "button", class: "quiet", title: hint,
      "aria-label": `${hint}: ${name}`, disabled: !f, onclick: f }, sign);
    const row = html("li", { "data-name": name }, thumb(this.app.puzzles, entry, size), html("div", { class: "what" },
      html("strong", {}, name), size, listed ? stateChip(listed.state) : this.app.puzzles.list && "isn't there"),
    html("label", { class: "points" }, points, html("span", { class: "small" }, "points"), said),
    tool("↑", "Earlier", at > 0 && (() => this.raise(at))), tool("✕", "Take it out", () => this.toggle(entry)));
    row.wrong = (words) => {
      said.textContent = words;
      points.toggleAttribute("aria-invalid", Boolean(words));
    };
    return row;
  }

  tellPuzzles() { this.chosen.replaceChildren(...this.draft.puzzles.map((entry, at) => this.row(entry, at))); }

  // The states of the puzzles that aren't ready, as [name, state].
  lacking() {
    const states = new Map(this.app.puzzles.list?.map((it) => [nameOf(it), it.state]));
    return this.draft.puzzles.map((it) => [nameOf(it), states.get(nameOf(it))]).filter(([, state]) => state !== "one");
  }

  // The form; `actions` stand below its fields.
  lay(...actions) {
    const it = Object.fromEntries(Object.entries(this.fields).map(([name, { element }]) => [name, element]));
    const two = (...elements) => html("div", { class: "two" }, elements);
    this.element = html("form", { class: "form draft", novalidate: true, onsubmit: (event) => event.preventDefault() },
      two(it.id, it.title), html("div", { class: "two start" }, it.start, it.zone), this.when,
      two(it.minutes, it.protest_minutes), html("div", { class: "two three" }, it.mode, it.penalty, it.bonus),
      it.testers, html("h2", {}, "Its puzzles, in their order"), this.chosen, this.lacks, actions);
    return this.element;
  }
}

// When something was done, for a line that tells it.
export const atMoment = () => exact(clock.now());
