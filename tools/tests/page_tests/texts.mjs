// The page's reader and writer of texts against the hall: node texts.mjs TEXTS.MJS HALL COUNT PEOPLE BENCH
//
// 1. COUNT random puzzles of each kind, in loose spellings, are put into a hall (by `hall replay`). What the page
//    reads from the loose text, and from the hall's canonical one, is compared with the puzzle.
// 2. A random filling of each is written by the page and judged by `hall judge`; the verdict is compared with the one
//    that the drawing deserves, reckoned in deserved.mjs from what is drawn. Then the solutions of BENCH, as they are
//    and with up to three places drawn otherwise: near misses.
// Prints what went otherwise than wanted, and last how many did.
import { execFileSync } from "node:child_process";
import { readdirSync, readFileSync } from "node:fs";
import { pathToFileURL } from "node:url";
import { deserved } from "./deserved.mjs";

const [file, hall, count, people, bench] = process.argv.slice(2);
const texts = await import(pathToFileURL(file));
const KINDS = ["sudoku", "slither", "nurikabe"];
let well = 0, ill = 0, seed = 20261127;

function want(good, ...told) {
  if (good) { well += 1; return; }
  ill += 1;
  if (ill < 8) console.log("NOT as wanted:", ...told);
}

// A number below n, the same ones in each run.
function random(n) {
  seed = (Math.imul(seed, 1664525) + 1013904223) >>> 0;
  return Math.floor(seed / 4294967296 * n);
}
const pick = (list) => list[random(list.length)];

// --- random puzzles

function randomSize(kind) {
  if (kind === "sudoku") return Array(2).fill(pick([4, 6, 9, 16, 25]));
  for (;;) {
    const cols = 1 + random(pick([4, 12, 50])), rows = 1 + random(pick([4, 12, 50]));
    if (cols * rows <= 1000) return [cols, rows];
  }
}

function randomClue(kind, cols) {
  if (kind === "sudoku") return 1 + random(cols);
  if (random(8) === 0) return "?";
  return kind === "slither" ? random(5) : 1 + random(pick([9, 15, 40, 255, 256, 300, 4095]));
}

function randomPuzzle(kind) {
  const [cols, rows] = randomSize(kind), density = pick([0, 0.05, 0.3, 0.7, 1]);
  const clue = () => (random(1000) / 1000 < density ? randomClue(kind, cols) : null);
  const clues = Array.from({ length: cols * rows }, clue);
  return { kind, cols, rows, clues };
}

// The empty cells from i on, at most so many, cut anywhere; a run that reaches the end may pass it.
function looseRun(clues, i) {
  let empty = 0;
  while (i + empty < clues.length && clues[i + empty] === null && empty < 20) empty += 1;
  const byte = i + empty === clues.length && random(2) ? 20 : 1 + random(empty);
  return [(byte + 15).toString(36), Math.min(byte, empty)];
}

// A number in one of its spellings, and how many empty cells behind it are told by the same byte.
function looseNumber(kind, clues, i) {
  const digits = clues[i].toString(16);
  if (kind !== "slither") {
    const width = Math.max(digits.length, 1 + random(3));
    return [["", "-", "+"][width - 1] + digits.padStart(width, "0"), 1];
  }
  let empty = 0;
  while (empty < 2 && (i + 1 + empty >= clues.length || clues[i + 1 + empty] === null)) empty += 1;
  empty = random(empty + 1);
  return [(clues[i] + 5 * empty).toString(16), 1 + empty];
}

// A text of the puzzle: short runs, leading zeros, an address before it, a slash after it.
function looseText({ kind, cols, rows, clues }) {
  let body = "";
  for (let i = 0; i < clues.length;) {
    const number = () => (clues[i] === "?" ? [".", 1] : looseNumber(kind, clues, i));
    const [bytes, cells] = clues[i] === null ? looseRun(clues, i) : number();
    body += bytes;
    i += cells;
  }
  if (random(2)) body = body.replace(/[g-z]+$/, "");
  return `${pick(["", "https://puzz.link/p?", "http://x/?"])}${kind}/${cols}/${rows}/${body}${pick(["", "/"])}`;
}

// --- 1. reading

// The hall's canonical texts of these texts, which bob puts; at most 500 labels are his.
function canonical(loose) {
  const records = loose.map((text, i) => {
    const body = JSON.stringify({ text });
    const head = [`PUT /puzzles/bob/p${i % 400} HTTP/1.1`, "Hall-Key: bob-key-1", `Content-Length: ${body.length}`];
    const request = `${head.join("\r\n")}\r\n\r\n${body}`;
    return `@1777700000 ${request.length}\n${request}`;
  });
  const replies = execFileSync(hall, ["replay", "--people", people], { input: records.join(""), maxBuffer: 1 << 28 });
  return [...replies.toString().matchAll(/\r\n\r\n(\{.*?\})(?=HTTP|$)/gs)].map((match) => JSON.parse(match[1]).text);
}

function compareReading(puzzles) {
  const loose = puzzles.map(looseText), kept = canonical(loose);
  puzzles.forEach((puzzle, i) => {
    const isRead = (text) => JSON.stringify(texts.readPuzzle(text)) === JSON.stringify(puzzle);
    want(kept[i] && isRead(loose[i]) && isRead(kept[i]), loose[i], kept[i]);
  });
  return kept;
}

// --- 2. answers

function judged(text, answer) {
  const how = { input: `${text}\n${answer}\n`, stdio: ["pipe", "pipe", "ignore"] };
  try {
    return execFileSync(hall, ["judge"], how).toString().trim();
  } catch (ended) { // with status 1 for wrong
    return ended.stdout.toString().trim();
  }
}

function compareVerdict(puzzle, text, marks) {
  const answer = texts.writeAnswer(puzzle, marks), told = judged(text, answer), names = deserved(puzzle, marks);
  want(told === (names.length ? `wrong ${names.join(" ")}` : "right"), text, answer, names, told);
  const back = names[0] === "A0" ? null : texts.readAnswer(puzzle, answer);
  if (back) want(texts.writeAnswer(puzzle, back) === answer, "the way back", text, answer);
}

function randomMarks(puzzle) {
  const { kind, cols, clues } = puzzle, marks = texts.emptyMarks(puzzle), dense = pick([0, 0.1, 0.5, 0.9, 1]);
  for (const place of marks.keys()) {
    if (kind !== "sudoku") { marks[place] = random(1000) / 1000 < dense ? 1 : pick([0, 2]); continue; }
    const notes = random(3) ? 0 : 32 * random(1 << 24);
    if (clues[place] === null || random(40) === 0) marks[place] = notes + (random(400) ? 1 + random(cols) : 0);
  }
  if (kind === "nurikabe" && random(2)) clues.forEach((clue, cell) => { if (clue !== null) marks[cell] = 0; });
  return marks;
}

function nearMisses(name) {
  for (const line of readFileSync(`${bench}/${name}`, "utf8").split("\n")) {
    const [text, solution] = line.split(" ");
    if (!solution || !KINDS.includes(text.split("/")[0])) continue;
    const puzzle = texts.readPuzzle(text), whole = texts.readAnswer(puzzle, solution);
    if (!whole) continue;
    for (let changes = random(4); changes > 0; changes--) {
      const place = random(whole.length);
      whole[place] = puzzle.kind === "sudoku" ? 1 + random(puzzle.cols) : 1 - whole[place];
    }
    compareVerdict(puzzle, text, whole);
  }
}

const puzzles = KINDS.flatMap((kind) => Array.from({ length: Number(count) }, () => randomPuzzle(kind)));
const kept = compareReading(puzzles);
puzzles.forEach((puzzle, i) => compareVerdict(puzzle, kept[i], randomMarks(puzzle)));
const real = readdirSync(`${bench}/real`).filter((name) => name.endsWith(".txt")).map((name) => `real/${name}`);
["sudoku.txt", "slither.txt", "nurikabe.txt", ...real].forEach(nearMisses);
console.log(`${well} as wanted, ${ill} not`);
