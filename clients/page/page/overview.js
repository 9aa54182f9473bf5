// How the puzzles of a round stand: each one's state in a chip, and what they give together.

import { html } from "./elements.js";
import { phrase } from "./phrases.js";
import { nameOf } from "./picture.js";
import { Drawing } from "./store.js";
import { endOf, exact, stage } from "./times.js";

export const pointsWords = (n) => phrase("pointsOf", { n });

export const drawingOf = (app, round, { number, text }) =>
  new Drawing(app.person, round.id, number, text, endOf(round));

// What a right answer gives now: each wrong one in an instant round costs the penalty.
export function worth(round, sheet, { number, points }, answers) {
  if (round.mode !== "instant") return points;
  const wrong = answers.filter((answer) => answer.number === number && answer.verdict?.startsWith("wrong")).length;
  return Math.max(0, points - wrong * sheet.penalty);
}

// How a puzzle stands: [class, words].
export function standing(app, round, entry, answers) {
  const { number } = entry, own = answers.filter((answer) => answer.number === number), last = own.at(-1);
  const letters = app.letters.of(round.id, "answer").filter((letter) => letter.number === number);
  if (letters.some((letter) => !letter.reply)) return ["wait", phrase("wayOut")];
  if (own.some((answer) => answer.verdict === "right")) return ["good", phrase("right")];
  if (last && !last.verdict) return ["wait", phrase("handedIn", { time: exact(last.moment) })];
  if (last) return ["bad", own.length > 1 ? phrase("wrongTimes", { n: own.length }) : phrase("wrong")];
  if (letters.length) return ["bad", phrase("notTaken")];
  if (!drawingOf(app, round, entry).isBegun) return ["", ""];
  return ["", phrase(stage(round) === "running" ? "begun" : "notHandedIn")];
}

export function fillChip(chip, [look, words]) {
  Object.assign(chip, { className: words && `chip ${look}`, textContent: words });
}

// What is done of a round, in a line: right ones, their points and those that are left; or how many were handed in.
export function sums(round, { puzzles, penalty }, answers) {
  const n = puzzles.length, isTold = answers.some((answer) => answer.verdict) || round.mode === "instant";
  const own = (entry, f) => answers.some((answer) => answer.number === entry.number && f(answer));
  if (!isTold) return phrase("sumHanded", { n, handed: puzzles.filter((entry) => own(entry, () => true)).length });
  const right = puzzles.filter((entry) => own(entry, (answer) => answer.verdict === "right"));
  const sum = (entries) => entries.reduce((all, entry) => all + worth(round, { penalty }, entry, answers), 0);
  const all = puzzles.reduce((points, entry) => points + entry.points, 0), left = sum(puzzles) - sum(right);
  return [phrase("sum", { n, right: right.length }), phrase("sumPoints", { n: all, got: sum(right) }),
    stage(round) === "running" && phrase("sumLeft", { n: left })].filter(Boolean).join(" · ");
}

// The list of a round's puzzles beside one of them.
export function listOf(app, round, sheet, answers, here) {
  return html("ol", { class: "list" }, sheet.puzzles.map((entry) => {
    const chip = html("span"), { number, text } = entry;
    fillChip(chip, standing(app, round, entry, answers));
    return html("li", {}, html("a", { href: `#/r/${round.id}/${number}`, "aria-current": number === here && "page" },
      `${number}. ${nameOf(text)}`), " ", html("span", { class: "small" },
      pointsWords(worth(round, sheet, entry, answers))), " ", chip);
  }));
}
