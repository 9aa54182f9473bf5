// A round: the wait before its start, then its puzzles; and the frame with title, clock and tabs of all its pages.

import { clock } from "./clock.js";
import { html, refill } from "./elements.js";
import { drawingOf, fillChip, pointsWords, standing, sums } from "./overview.js";
import { phrase } from "./phrases.js";
import { kindOf, picture } from "./picture.js";
import { readPuzzle } from "./texts.js";
import { closeOf, countdown, dayAndTime, endOf, fromTo, lengthOf, stage, time, zone } from "./times.js";
import { refusal } from "./words.js";

const TURN = 16; // milliseconds of drawing boards, until a click has its turn

// What happened, and what to do.
export const note = (look, [what, then], ...more) =>
  html("div", { class: look, role: "alert" }, html("strong", {}, what), " ", then, " ", more);

export const failed = (reply) => note("note bad", refusal(reply));

// A refused letter, until the reader has seen it.
export const refused = (app, letter, begin = "") => {
  const [what, then] = refusal(letter.reply);
  const drop = () => app.letters.drop(letter);
  return note("note bad", [begin + what, then],
    html("button", { class: "quiet", "data-letter": letter.id, onclick: drop }, phrase("ok")));
};

// The refused letters of a round, wherever its reader is when they come back.
export function refusals(app, id) {
  const words = { answer: "lastNotTaken", protest: "protestNotTaken" };
  return Object.keys(words).flatMap((kind) => app.letters.of(id, kind)).filter((letter) => letter.reply)
    .map((letter) => refused(app, letter, phrase(words[letter.kind], { number: letter.number })));
}

// --- the frame

// What the clock of a round says; `again` is called where it comes to another stage.
function clockLine(round, sheet, now, tab, signal, again) {
  const until = (words, moment) => [words, countdown(moment, signal, again)];
  if (now === "before") return tab && until(phrase("beginsIn"), round.start); // else the wait shows it
  if (now === "running") return until(phrase("endsIn"), endOf(round));
  if (now === "protests") {
    const close = sheet && closeOf(round, sheet);
    return sheet && until(phrase("protestsUntil", { time: time(close) }), close);
  }
  return phrase(now === "closed" ? "tableComes" : "isPublished");
}

// `sum` is where the points are told, beside the time that is left.
function header(round, sheet, tab, sum, line) {
  const { id } = round, terms = [`${fromTo(round)} (${zone})`, phrase(round.mode),
    round.mode === "instant" && sheet?.penalty && phrase("wrongCosts", { n: sheet.penalty }),
    sheet?.bonus && phrase("bonusEach", { n: sheet.bonus }), !clock.known && phrase("ownClock")];
  const link = (name, label) =>
    html("a", { href: `#/r/${id}${name && `/${name}`}`, "aria-current": tab === name && "page" }, label);
  return [html("header", { class: "head" },
    html("div", {}, html("h1", {}, round.title), html("p", { class: "small" }, terms.filter(Boolean).join(" · "))),
    html("p", { class: "big" }, sum, line)),
  html("nav", { class: "tabs", "aria-label": phrase("round") }, link("", phrase("puzzles")),
    link("answers", phrase("myAnswers")), link("protests", phrase("protestsTab")), link("table", phrase("table")))];
}

// The frame of a round's pages. `fill(box, {round, sheet, now, sum, signal, again})` is called anew whenever the round
// comes to another stage; its `signal` ends what the stage before began, and `again()` asks where the round stands.
export function frame(app, left, id, tab, fill) {
  const element = html("section", { class: "page" }, html("p", { class: "lead" }, phrase("asking")));
  let drawn = new AbortController();
  left.addEventListener("abort", () => drawn.abort());
  const again = async () => {
    drawn.abort();
    drawn = new AbortController();
    const { signal } = drawn, box = html("div"), sum = html("span", { class: "sums" }), round = await app.round(id);
    if (signal.aborted) return;
    if (!round && tab === "table") { // a table is for anyone, also without a key
      element.replaceChildren(html("h1", {}, phrase("roundNamed", { id })), box);
      fill(box, { signal });
      return;
    }
    if (!round) { element.replaceChildren(failed({ denied: 4 })); return; }
    const reply = !app.hasBegun(round) && tab !== "table" ? null : await app.sheet(id, signal);
    if (signal.aborted) return;
    const sheet = reply?.ok ? reply.value : null, now = sheet ? stage(round, sheet, true) : stage(round);
    document.title = round.title;
    const line = clockLine(round, sheet, now, tab, signal, again);
    element.replaceChildren(...header(round, sheet, tab, sum, line), box);
    if (reply && !reply.ok && tab !== "table") box.append(failed(reply));
    else fill(box, { round, sheet, now, sum, signal, again });
    app.addEventListener("rounds", () => app.isSame(round) || again(), { signal });
  };
  again();
  return element;
}

// --- the puzzles

// A card, with the places for its board and for how its puzzle stands.
function card(round, entry, thumb, chip) {
  let puzzle;
  try {
    puzzle = readPuzzle(entry.text);
  } catch {
    return html("div", { class: "card" }, phrase("cantDraw", entry));
  }
  return html("a", { class: "card", href: `#/r/${round.id}/${entry.number}` }, thumb,
    html("h3", {}, `${entry.number}. ${kindOf(puzzle).name}`),
    html("p", {}, `${puzzle.cols} × ${puzzle.rows} · ${pointsWords(entry.points)} `, chip));
}

// Draws each board in its place, once, and lets others have their turn between two that take long.
async function drawBoards(app, round, sheet, thumbs, signal) {
  let begun = performance.now();
  for (const [i, entry] of sheet.puzzles.entries()) {
    if (performance.now() - begun > TURN) {
      await new Promise((done) => setTimeout(done));
      begun = performance.now();
    }
    if (signal.aborted) return;
    if (!thumbs[i].parentNode) continue; // this page can't draw it
    thumbs[i].append(picture(readPuzzle(entry.text), drawingOf(app, round, entry).value?.marks));
  }
}

// All that the hall tells of a round before its start.
export function wait(round, signal, again) {
  const from = dayAndTime(round.start), to = time(endOf(round)), minutes = lengthOf(round);
  const line = (name, values) => html("p", {}, phrase(name, values));
  return html("div", { class: "wait" }, countdown(round.start, signal, again),
    html("p", { class: "lead" }, phrase("comeThemselves")),
    html("section", { class: "booklet" }, html("h2", {}, phrase("booklet")),
      line("bookletTime", { from, to, minutes }),
      line(round.mode === "instant" ? "bookletInstant" : "bookletSealed"), line("bookletMore"),
      html("p", {}, html("a", { href: "#/rules" }, phrase("rules")))));
}

export function roundView(app, left, id) {
  return frame(app, left, id, "", async (box, { round, sheet, now, sum, signal, again }) => {
    if (now === "before") { box.append(wait(round, signal, again)); return; }
    const chips = sheet.puzzles.map(() => html("span")), said = html("div", { "aria-live": "polite" });
    const thumbs = sheet.puzzles.map(() => html("div", { class: "thumb" }));
    const cards = html("div", { class: "cards puzzles" },
      sheet.puzzles.map((entry, i) => card(round, entry, thumbs[i], chips[i])));
    const tell = (answers) => {
      sheet.puzzles.forEach((entry, i) => fillChip(chips[i], standing(app, round, entry, answers)));
      sum.textContent = sums(round, sheet, answers);
    };
    const renew = async () => {
      refill(said, refusals(app, id));
      const answers = await app.answers(id, signal);
      if (answers) tell(answers);
    };
    box.append(said, cards, printers(app, id, now));
    tell([]);
    drawBoards(app, round, sheet, thumbs, signal);
    app.letters.addEventListener("change", renew, { signal });
    await renew();
  });
}

// The ways to print a round; its solutions once it is over.
function printers(app, id, now) {
  const button = (name, way) => html("button", { onclick: () => app.printAs(way, id) }, phrase(name));
  return html("div", { class: "row screen" }, button("printEach", "each"), button("printFew", "few"),
    now !== "running" && button("printSolutions", "solutions"));
}
