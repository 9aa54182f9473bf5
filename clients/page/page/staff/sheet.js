// A round as its form holds it, its limits, and its sheet (docs/USING.md tells the fields).
//
// A draft is {id, title, start: "2026-05-02T11:00", zone, minutes, protest_minutes, mode, penalty, bonus, testers:
// names with blanks between, puzzles: [{author, label, points}]}; numbers may be texts, as a field holds them.

import { wrongName } from "./parts.js";
import { isShown, momentOf, offsetAt, offsetText, own, ruleOf } from "./zones.js";

export const LIMITS = { minutes: [1, 1440], protest_minutes: [0, 10080], penalty: [0, 1000], bonus: [0, 1000],
  points: [1, 1000] };
const TITLE = 60, TESTERS = 20, PUZZLES = 40, LATEST = 4102444800;

export const emptyDraft = () => ({ id: "", title: "", start: "", zone: own, minutes: 60, protest_minutes: 30,
  mode: "instant", penalty: 5, bonus: 2, testers: "", puzzles: [] });

export const startOf = ({ start, zone }) => momentOf(start, zone);
export const testersOf = ({ testers }) => testers.split(/[\s,]+/).filter(Boolean);

function wrongNumber(text, field) {
  const [least, most] = LIMITS[field];
  const fits = /^\d{1,5}$/.test(text) && Number(text) >= least && Number(text) <= most;
  return fits ? "" : `A whole number from ${least} to ${most.toLocaleString("en")}.`;
}

function wrongTitle(title) {
  const strange = /[^ -~]/u.exec(title)?.[0];
  if (!title) return "Write a title.";
  if (strange) return `“${strange}” can't stand in a title: plain letters, digits and signs alone.`;
  return title.length > TITLE ? `These are ${title.length} signs, and at most ${TITLE} can stand.` : "";
}

function wrongStart({ start, zone }) {
  const moment = momentOf(start, zone);
  if (Number.isNaN(moment)) return "Choose a day and a time.";
  if (moment < 0 || moment > LATEST) return "From 1970 to 2099.";
  return isShown(start, zone) ? "" : "Clocks there pass over this hour: choose another one.";
}

function wrongTesters(draft) {
  const names = testersOf(draft), strange = names.find((name) => wrongName(name, "a name"));
  const twice = names.find((name, i) => names.indexOf(name) < i);
  if (strange) return `${strange} is no name: 1 to 24 of a to z, 0 to 9 and -.`;
  if (twice) return `${twice} stands twice.`;
  return names.length > TESTERS ? `These are ${names.length}, and at most ${TESTERS} may test.` : "";
}

function wrongPuzzles({ puzzles }) {
  if (!puzzles.length) return "Choose puzzles below.";
  return puzzles.length > PUZZLES ? `These are ${puzzles.length}, and a round has at most ${PUZZLES}.` : "";
}

// All that is wrong with a draft: words by field; `points` is a list, by puzzle.
export function faultsOf(draft) {
  const numbers = ["minutes", "protest_minutes", "penalty", "bonus"];
  return { id: wrongName(draft.id, "an id"), title: wrongTitle(draft.title), start: wrongStart(draft),
    testers: wrongTesters(draft), puzzles: wrongPuzzles(draft),
    ...Object.fromEntries(numbers.map((name) => [name, wrongNumber(String(draft[name]), name)])),
    points: draft.puzzles.map(({ points }) => wrongNumber(String(points), "points")) };
}

export const isWrong = (faults) => Object.values(faults).flat().some(Boolean);

const text = (words) => JSON.stringify(words); // of printable ASCII, it is a TOML text too

// The sheet as TOML: of version 1, or where somebody tests it of version 3.
export function sheetText(draft) {
  const offset = offsetAt(startOf(draft), draft.zone), testers = testersOf(draft);
  const start = testers.length ? [`start = ${text(`${draft.start}:00`)}`, `zone = ${text(ruleOf(offset))}`]
    : [`start = ${text(`${draft.start}:00${offsetText(offset)}`)}`];
  return [`version = ${testers.length ? 3 : 1}`, `title = ${text(draft.title)}`, ...start,
    `minutes = ${Number(draft.minutes)}`, `protest_minutes = ${Number(draft.protest_minutes)}`,
    `mode = ${text(draft.mode)}`, `penalty = ${Number(draft.penalty)}`, `bonus = ${Number(draft.bonus)}`,
    ...testers.length ? [`testers = [${testers.map(text).join(", ")}]`] : [],
    ...draft.puzzles.flatMap(({ author, label, points }) => ["", "[[puzzle]]", `author = ${text(author)}`,
      `label = ${text(label)}`, `points = ${Number(points)}`]), ""].join("\n");
}
