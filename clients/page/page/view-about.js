// What this page is, what it keeps, and what to do where it fails; and the rules of the puzzles.

import { html } from "./elements.js";
import { phrase } from "./phrases.js";
import { nameOf, picture } from "./picture.js";
import { styled } from "./styles.js";
import { readAnswer, readPuzzle } from "./texts.js";
import { toldPicture } from "./told.js";

await styled("page/after.css");

const PARTS = ["aboutProved", "aboutKept", "aboutLine", "aboutPage"];
// A small puzzle of each kind with its solution.
const EXAMPLES = [
  ["rulesSudoku", "sudoku/4/4/1i3h1l4", "1234342143122143"],
  ["rulesSlitherlink", "slither/4/4/g2j312h30g3g", "01101010101101010010/01010101000100100110"],
  ["rulesNurikabe", "nurikabe/5/5/k3g4m2l", "..###.#..####.#..#.######"],
];

export function aboutView() {
  return html("section", { class: "page about" }, html("h1", {}, phrase("about")),
    PARTS.map((name) => [html("h2", {}, phrase(name)), html("p", {}, phrase(`${name}Text`))]),
    html("p", {}, html("a", { href: "#/rules" }, phrase("rules"))));
}

export function rulesView() {
  return html("section", { class: "page about" }, html("h1", {}, phrase("rules")),
    html("p", { class: "lead" }, phrase("rulesMore")), EXAMPLES.map(([rule, text, solution]) => {
      const puzzle = readPuzzle(text), solved = phrase("solution");
      return [html("h2", {}, nameOf(text)), html("p", {}, phrase(rule)), html("div", { class: "pair small-boards" },
        html("figure", {}, picture(puzzle)),
        html("figure", {}, toldPicture(puzzle, readAnswer(puzzle, solution), solved)))];
    }));
}
