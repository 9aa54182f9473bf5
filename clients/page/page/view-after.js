// What remains of a round: the own answers with the solutions, protests with their rulings, and the table.

import { html, refill } from "./elements.js";
import { pointsWords } from "./overview.js";
import { parts, phrase } from "./phrases.js";
import { nameOf } from "./picture.js";
import { ask } from "./requests.js";
import { styled } from "./styles.js";
import { readAnswer, readPuzzle } from "./texts.js";
import { every, exact } from "./times.js";
import { toldPicture } from "./told.js";
import { chip } from "./view-puzzle.js";
import { failed, frame, note, refusals, refused } from "./view-round.js";
import { verdict } from "./words.js";

await styled("page/after.css");

// --- the own answers

function drawn(puzzle, text, words) {
  const marks = text && readAnswer(puzzle, text);
  return marks && html("figure", {}, toldPicture(puzzle, marks, words), html("figcaption", {}, words));
}

function outcome({ number, text, points }, own, solution) {
  const puzzle = readPuzzle(text), mine = phrase(own.length > 1 ? "lastAnswer" : "yourAnswer");
  const lines = own.map((answer) => html("li", {}, `${exact(answer.moment)} `, chip(answer), " ",
    verdict(answer.verdict)?.reasons.join(" ")));
  const title = `${number}. ${nameOf(text)} · ${pointsWords(points)}`;
  return html("article", { class: "outcome" }, html("h3", {}, title),
    own.length ? html("ol", { class: "past" }, lines) : html("p", { class: "small" }, phrase("noAnswer")),
    html("div", { class: "pair" }, drawn(puzzle, own.at(-1)?.answer, mine),
      drawn(puzzle, solution, phrase("solution"))));
}

export function answersView(app, left, id) {
  return frame(app, left, id, "answers", async (box, { sheet, now, signal }) => {
    if (now === "before") { box.append(html("p", { class: "lead" }, phrase("noneBefore"))); return; }
    const said = html("div", { "aria-live": "polite" }), list = html("div");
    const renew = async () => {
      refill(said, refusals(app, id));
      const answers = await app.answers(id, signal) ?? [];
      const reply = now !== "running" ? await ask("GET", `/rounds/${id}/solutions`, { key: app.key, signal }) : null;
      if (signal.aborted) return;
      const solutions = reply?.ok ? reply.value.solutions : [];
      list.replaceChildren(...sheet.puzzles.map((entry, i) =>
        outcome(entry, answers.filter((answer) => answer.number === entry.number), solutions[i])));
    };
    box.append(said, list);
    app.letters.addEventListener("change", renew, { signal });
    await renew();
  });
}

// --- protests

const MOST = 200; // signs of a protest's text

// A protest as the hall takes it: on one line, with plain signs for those that keyboards put in their place.
const plain = (text) => text.trim().replace(/\s/g, " ").replace(/[\u2018\u2019]/g, "'")
  .replace(/[\u201c-\u201f]/g, '"').replace(/[\u2010-\u2015\u2212]/g, "-").replace(/\u2026/g, "...");

// Why the hall wouldn't take a text, or "".
function wrongText(text) {
  const strange = /[^ -~]/u.exec(text)?.[0];
  if (!text) return phrase("protestEmpty");
  if (strange) return phrase("protestSign", { sign: strange });
  return text.length > MOST ? phrase("protestLong", { n: text.length, most: MOST }) : "";
}

function protestForm(app, round, sheet) {
  const which = html("select", { id: "which" }, sheet.puzzles.map(({ number, text }) =>
    html("option", { value: number }, `${number}. ${nameOf(text)}`)));
  const words = html("textarea", { id: "words", rows: 3, required: true, "aria-describedby": "left" });
  const left = html("span", { class: "small", id: "left" });
  const look = () => {
    const text = plain(words.value), why = wrongText(text);
    words.setCustomValidity(why);
    left.textContent = text && why || phrase("protestLeft", { n: MOST - text.length });
    left.classList.toggle("bad", Boolean(text && why));
  };
  words.addEventListener("input", look);
  const send = (event) => {
    event.preventDefault();
    app.letters.protest(round, Number(which.value), plain(words.value));
    words.value = "";
    look();
  };
  look();
  return html("form", { class: "form", onsubmit: send }, html("h2", {}, phrase("protestHead")),
    html("label", { for: "which" }, phrase("puzzle")), which,
    html("label", { for: "words" }, phrase("protestWhat", { n: MOST })), words, left,
    html("button", { class: "main" }, phrase("protestMake")));
}

function protestLine({ number, text, ruling, points }) {
  const words = phrase(ruling, { points: `${points > 0 ? "+" : ""}${points}` });
  const look = { open: "wait", upheld: "good", rejected: "bad" }[ruling];
  return html("article", { class: "protest" }, html("p", {}, html("strong", {}, phrase("protestPuzzle", { number })),
    html("span", { class: `chip ${look}` }, words)), html("p", {}, text));
}

const NO_FORM = { before: "protestsLater", running: "protestsLater", closed: "protestsOver",
  published: "protestsOver" };

export function protestsView(app, left, id) {
  return frame(app, left, id, "protests", (box, { round, sheet, now, signal }) => {
    const list = html("div", { "aria-live": "polite" }), said = html("div", { "aria-live": "polite" });
    const renew = async () => {
      said.replaceChildren(...app.letters.of(id, "protest").map((letter) =>
        (letter.reply ? refused(app, letter) : html("p", { class: "note" }, phrase("sending")))));
      const reply = await ask("GET", `/rounds/${id}/protests`, { key: app.key, signal });
      if (!reply?.ok) return;
      const own = app.own(id, reply.value.protests);
      refill(list, own.length ? own.map(protestLine) : html("p", { class: "small" }, phrase("noProtest")));
    };
    const form = now === "protests" ? protestForm(app, round, sheet)
      : html("p", { class: "lead" }, phrase(NO_FORM[now]));
    box.append(form, said, list);
    app.letters.addEventListener("change", renew, { signal });
    if (now !== "before") every(20, signal, renew);
  });
}

// --- the table

function tableOf(text, own) {
  const lines = text.split("\n").filter(Boolean).map((line) => line.trim().split(/ +/));
  return html("table", {},
    html("thead", {}, html("tr", {}, ["rank", "name", "points"].map((title) =>
      html("th", { scope: "col" }, phrase(title))))),
    html("tbody", {}, lines.map((cells) =>
      html("tr", { class: cells[1] === own && "own" }, cells.map((cell) => html("td", {}, cell))))));
}

export function tableView(app, left, id) {
  return frame(app, left, id, "table", (box, { signal }) => {
    const renew = async () => {
      const reply = await ask("GET", `/rounds/${id}/table`, { signal });
      if (!reply) return;
      if (reply.denied === 15) box.replaceChildren(note("note", parts("noTable")));
      else if (!reply.ok) box.replaceChildren(failed(reply));
      else {
        box.replaceChildren(tableOf(reply.value, app.nameIn(id)),
          html("div", { class: "row screen" }, html("button", { onclick: () => print() }, phrase("print"))));
      }
    };
    every(20, signal, renew);
  });
}
