// An answer and the solution side by side, with what differs tinted and what the eye sees broken outlined.

import { html, svg, UNIT } from "../elements.js";
import { kindOf, picture } from "../picture.js";
import { readAnswer } from "../texts.js";
import { toldPicture } from "../told.js";
import { BROKEN } from "../words.js";
import { brokenIn, differing, middleOf } from "./broken.js";

const MOST = 8; // places that are told in words

const isSides = (puzzle) => puzzle.kind === "slither";

function cellMark({ cols }, cell, inset) {
  const side = UNIT - 2 * inset;
  return svg("rect", { x: (cell % cols) * UNIT + inset, y: Math.floor(cell / cols) * UNIT + inset, width: side,
    height: side });
}

function sideMark(puzzle, place) {
  const [x, y] = middleOf(puzzle, place).map((n) => n * UNIT), half = UNIT / 2;
  return svg("path", { d: Number.isInteger(y / UNIT) ? `M${x - half} ${y}h${UNIT}` : `M${x} ${y - half}v${UNIT}` });
}

// A box round a side.
function sideBox(puzzle, place) {
  const [x, y] = middleOf(puzzle, place).map((n) => n * UNIT), isAcross = Number.isInteger(y / UNIT);
  const [width, height] = isAcross ? [UNIT - 8, 16] : [16, UNIT - 8];
  return svg("rect", { x: x - width / 2, y: y - height / 2, width, height, rx: 4 });
}

const dotMark = ([x, y]) => svg("circle", { cx: x * UNIT, cy: y * UNIT, r: 10 });

// An outline, on a ground of its own, so that it is seen on a wall as on white.
function outlined(mark, rule) {
  const ground = mark.cloneNode();
  ground.setAttribute("class", "ground");
  return svg("g", { "data-rule": rule }, ground, mark);
}

// A picture with marks on it: the places that differ, and the broken rules.
function marked(puzzle, marks, words, places, broken = []) {
  const drawn = toldPicture(puzzle, marks, words);
  const tints = places.map((place) => (isSides(puzzle) ? sideBox(puzzle, place) : cellMark(puzzle, place, 1.5)));
  const outlines = broken.flatMap(({ rule, cells, sides, dots }) => [
    ...cells.map((cell) => cellMark(puzzle, cell, 3)), ...sides.map((place) => sideMark(puzzle, place)),
    ...dots.map(dotMark)].map((mark) => outlined(mark, rule)));
  drawn.append(svg("g", { class: "differs" }, tints), svg("g", { class: "broken" }, outlines));
  return drawn;
}

// Where a place is, in words.
function placeName(puzzle, place) {
  if (!isSides(puzzle)) return `row ${Math.floor(place / puzzle.cols) + 1}, column ${place % puzzle.cols + 1}`;
  const [x, y] = middleOf(puzzle, place), isAcross = Number.isInteger(y);
  return isAcross ? `across ${y + 1}, ${x + 0.5}` : `upright ${y + 0.5}, ${x + 1}`;
}

function differenceLine(puzzle, places) {
  if (!places.length) return html("p", { class: "small" }, "It is the solution, place by place.");
  const what = isSides(puzzle) ? ["side", "sides"] : ["cell", "cells"], more = places.length - MOST;
  const told = places.slice(0, MOST).map((place) => placeName(puzzle, place)).join("; ");
  return html("p", { class: "small" }, html("span", { class: "key differs" }),
    `It differs from the solution in ${places.length} ${what[places.length === 1 ? 0 : 1]}: ${told}`,
    more > 0 ? `; and ${more} more.` : ".");
}

// What the eye sees broken, in words: beside the verdict, and not a verdict.
function eyeLines(broken) {
  if (!broken.length) return html("p", { class: "small" }, "The eye sees no broken rule.");
  return html("div", { class: "small eye" }, html("p", {}, html("span", { class: "key broken" }),
    "What the eye sees on the board, marked by this page. The verdict is the hall's."),
  html("ul", {}, broken.map(({ rule, cells, sides, dots, all }) => {
    const count = cells.length + sides.length + dots.length;
    return html("li", { "data-rule": rule }, BROKEN[rule], all ? "" : ` (${count} marked)`);
  })));
}

const figure = (drawn, words) => html("figure", {}, drawn, html("figcaption", {}, words));

// The boards of an answer, which may be none, and of the solution, where it is known.
export function boards(puzzle, answer, solution) {
  const marks = answer && readAnswer(puzzle, answer.answer), solved = solution && readAnswer(puzzle, solution);
  const isFilling = marks && answer.verdict !== "wrong A0", broken = isFilling ? brokenIn(puzzle, marks) : [];
  const places = isFilling && solved ? differing(marks, solved) : [];
  return html("div", { class: "boards" }, html("div", { class: "pair" },
    marks ? figure(marked(puzzle, marks, "The answer", places, broken), "the answer")
      : figure(picture(puzzle), answer ? "the puzzle: this answer is no filling" : "the puzzle"),
    solved && figure(marked(puzzle, solved, "The solution", places), "the solution")),
  answer && !isFilling && html("p", { class: "small" }, "As it was sent: ",
    html("code", {}, answer.answer || "(empty)")),
  isFilling && solved && differenceLine(puzzle, places), isFilling && eyeLines(broken));
}

export const titleOf = (puzzle, { number, points }) =>
  `${number}. ${kindOf(puzzle).name} ${puzzle.cols} × ${puzzle.rows} · ${points} points`;
