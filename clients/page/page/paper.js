// A round on paper: one puzzle a page; or all on few pages, with the rules and a field for the name; or its solutions.

import { html } from "./elements.js";
import { pointsWords } from "./overview.js";
import { loadLater, phrase } from "./phrases.js";
import { nameOf, picture } from "./picture.js";
import { ask } from "./requests.js";
import { styled } from "./styles.js";
import { readAnswer, readPuzzle } from "./texts.js";
import { fromTo } from "./times.js";

const style = styled("page/paper.css");

const RULES = { sudoku: "rulesSudoku", slither: "rulesSlitherlink", nurikabe: "rulesNurikabe" };
const WIDE = 16; // columns from which on a board takes the whole width of a page

function head({ title, number, points, text }, puzzle) {
  return [html("h2", {}, `${title}${number}. ${nameOf(text)}`),
    html("p", {}, `${puzzle.cols} × ${puzzle.rows} · ${pointsWords(points)}`)];
}

function article(entry, title, marks) {
  const puzzle = readPuzzle(entry.text);
  return { puzzle, element: (look) => html("article", { class: look }, head({ ...entry, title }, puzzle),
    picture(puzzle, marks?.(puzzle) ?? undefined)) };
}

// One puzzle a page, as given, without what is drawn.
function each({ title, puzzles }) {
  return puzzles.map((entry) => {
    const { puzzle, element } = article(entry, `${title} · `);
    return element(puzzle.cols > 1.3 * puzzle.rows && "wide");
  });
}

// Small boards two beside each other, large ones below; `marks` gives what is drawn on a board.
function together(puzzles, marks) {
  return html("div", { class: "few" }, puzzles.map((entry, i) => {
    const { puzzle, element } = article(entry, "", marks && ((board) => marks(board, i)));
    return element(puzzle.cols >= WIDE && "whole");
  }));
}

function front(round, title, ...more) {
  return html("header", {}, html("h1", {}, title), html("p", {}, fromTo(round)), ...more);
}

function paper(way, round, sheet, solutions) {
  if (way === "each") return each(sheet);
  if (way === "solutions") {
    return [front(round, `${sheet.title} · ${phrase("solutions")}`),
      together(sheet.puzzles, (puzzle, i) => solutions[i] && readAnswer(puzzle, solutions[i]))];
  }
  const kinds = [...new Set(sheet.puzzles.map(({ text }) => text.split("/")[0]))];
  return [front(round, sheet.title, html("p", { class: "field" }, `${phrase("yourName")}: `),
    kinds.map((kind) => html("p", {}, html("strong", {}, `${nameOf(kind)}. `), phrase(RULES[kind])))),
  together(sheet.puzzles)];
}

// --- printing: what was asked for last stays what a browser's own command prints, until the reader goes elsewhere

const sheets = document.querySelector("#paper");
let wanted = null;

export async function printRound(app, way, id) {
  const reply = way === "solutions" && await ask("GET", `/rounds/${id}/solutions`, { key: app.key });
  const round = await app.round(id), sheet = await app.sheet(id, AbortSignal.timeout(10000));
  await Promise.all([style, loadLater()]);
  if (!sheet?.ok) return;
  wanted = { way, round, sheet: sheet.value, solutions: reply?.value?.solutions ?? [] };
  print();
}

addEventListener("hashchange", () => { wanted = null; });
addEventListener("beforeprint", () => {
  sheets.replaceChildren(...(wanted ? paper(wanted.way, wanted.round, wanted.sheet, wanted.solutions) : []).flat());
  document.body.classList.toggle("on-paper", wanted !== null);
});
addEventListener("afterprint", () => sheets.replaceChildren());
