// What entrants see of a round, before its start and from then on.

import { html } from "../elements.js";
import { picture } from "../picture.js";
import { dayAndTime, endOf, lengthOf, time, zone } from "../times.js";
import { puzzleOf, sizeOf } from "./puzzles.js";
import { MODES } from "./words.js";

function card({ number, points, text }) {
  const puzzle = puzzleOf(text);
  return html("div", { class: "card" }, html("div", { class: "thumb" }, puzzle && picture(puzzle)),
    html("h3", {}, `${number}. ${puzzle ? sizeOf(puzzle) : text}`), html("p", {}, `${points} points`));
}

// `sheet` is what the hall tells a director of a round.
export function seen(sheet) {
  const when = `${dayAndTime(sheet.start)} to ${time(endOf(sheet))}`;
  const costs = [sheet.mode === "instant" && sheet.penalty && `a wrong answer costs ${sheet.penalty}`, sheet.bonus
    && `${sheet.bonus} for each minute left when all is right`].filter(Boolean);
  return html("section", { class: "seen" }, html("h2", {}, "What entrants see"),
    html("p", { class: "small" }, "From the release to the start:"),
    html("div", { class: "card round before" }, html("h3", {}, sheet.title),
      html("p", {}, [when, lengthOf(sheet), MODES[sheet.mode]].join(" · "))),
    html("p", { class: "small" }, `From the start on (times here are in your zone, ${zone}; theirs in their own):`),
    html("div", { class: "card round running" }, html("h3", {}, sheet.title),
      html("p", {}, [when, MODES[sheet.mode], ...costs].join(" · ")),
      html("div", { class: "cards puzzles" }, sheet.puzzles.map(card))));
}
