// What the browser keeps: the key in the tab alone (sessionStorage); drawings, sheets, letters and options beyond it
// (localStorage), for each person and round apart. Where nothing more can be kept, all works on from memory.

import { clock } from "./clock.js";

const DRAWING = "hall.drawing.", LETTER = "hall.letter.", SHEET = "hall.sheet.", DAY = 86400;
const tab = () => sessionStorage, browser = () => localStorage;

// "short": undo isn't kept any more; "shut": nothing is.
export const keeping = new EventTarget();
const tell = (how) => keeping.dispatchEvent(new CustomEvent("trouble", { detail: how }));

const memory = new Map(); // what couldn't be kept; it is younger than what the browser has under the same name

function readText(box, name) {
  if (memory.has(name)) return memory.get(name);
  try { return box().getItem(name); } catch { return null; }
}

function writeText(box, name, text) {
  try {
    if (text === null) box().removeItem(name);
    else box().setItem(name, text);
    memory.delete(name);
    return true;
  } catch {
    memory.set(name, text);
    return false;
  }
}

function parsed(text) {
  try { return JSON.parse(text); } catch { return null; }
}

// --- the key, and options

export const readKey = () => readText(tab, "hall.key");
export function keepKey(key) {
  if (!writeText(tab, "hall.key", key) && key !== null) tell("shut");
}
export const readOption = (name, otherwise) => parsed(readText(browser, `hall.option.${name}`)) ?? otherwise;
export const keepOption = (name, value) => writeText(browser, `hall.option.${name}`, JSON.stringify(value));

// Two people of one browser are told apart by 16 bits of their keys: too few to find a key by.
export function personOf(key) {
  let hash = 2166136261;
  for (const byte of key) hash = Math.imul(hash ^ byte.charCodeAt(0), 16777619) >>> 0;
  return ((hash ^ (hash >>> 16)) & 0xffff).toString(16);
}

// --- drawings: {end: when its round ends, text: the puzzle's, marks, past, future, tries}, as told in board.js

const names = (begin) => {
  try { return Object.keys(browser()).filter((name) => name.startsWith(begin)); } catch { return []; }
};

// Throws away what is of rounds that ended so many seconds ago. Only the hall's clock may say so.
export function sweep(grace = DAY) {
  if (!clock.known) return;
  for (const name of [...names(DRAWING), ...names(SHEET)]) {
    const end = Number(/^\{"end":(\d+)/.exec(readText(browser, name))?.[1] ?? 0);
    if (end + grace < clock.now()) writeText(browser, name, null);
  }
  for (const name of names(LETTER)) {
    if (!(parsed(readText(browser, name))?.made > clock.now() - 30 * DAY)) writeText(browser, name, null);
  }
}

// One kept drawing, as one tab knows it. Two tabs of a person may show the same: each takes over what the other has
// drawn before it draws more (`renewed`), and at once where the browser tells of it (`follow`).
export class Drawing {
  constructor(person, round, number, text, end) {
    Object.assign(this, { name: `${DRAWING}${person}.${round}.${number}`, text, end });
    this.known = readText(browser, this.name);
  }

  get value() {
    const found = parsed(this.known);
    return found?.text === this.text ? found : null;
  }

  // Whether a stroke was drawn.
  get isBegun() { return Boolean(this.known?.includes('"past":[[') && this.value); }

  keep({ marks, past, future, tries }) {
    const whole = this.written({ marks, past, future, tries });
    let kept = writeText(browser, this.name, whole);
    if (!kept) {
      sweep(0);
      kept = writeText(browser, this.name, whole);
    }
    this.known = whole;
    if (kept) return;
    const bare = this.written({ marks, past: [], future: [] });
    kept = writeText(browser, this.name, bare);
    if (kept) this.known = bare;
    tell(kept ? "short" : "shut");
  }

  // `end` goes first, where sweep looks for it.
  written(drawn) { return JSON.stringify({ end: this.end, text: this.text, ...drawn }); }

  // Whether another tab has drawn since this one last read or kept the drawing.
  renewed() {
    const there = readText(browser, this.name);
    if (there === null || there === this.known) return false;
    this.known = there;
    return true;
  }

  follow(signal, f) {
    addEventListener("storage", (event) => { if (event.key === this.name) f(); }, { signal });
  }
}

// --- sheets: {end, round, sheet}, as the hall told them, for a reload while it is away

export function keepSheet(person, round, sheet) {
  const text = JSON.stringify({ end: round.start + 60 * round.minutes, round, sheet });
  const name = `${SHEET}${person}.${round.id}`;
  if (readText(browser, name) !== text) writeText(browser, name, text);
}

// By the names of the rounds.
export function readSheets(person) {
  const kept = names(`${SHEET}${person}.`).map((name) => parsed(readText(browser, name))).filter(Boolean);
  return new Map(kept.map((one) => [one.round.id, one]));
}

// --- letters on their way: see letters.js

const letterName = (person, id) => `${LETTER}${person}.${id}`;

export function readLetters(person) {
  const begin = letterName(person, ""), unkept = [...memory.keys()].filter((name) => name.startsWith(begin));
  return [...names(begin), ...unkept].map((name) => parsed(readText(browser, name))).filter(Boolean);
}

export function keepLetter(person, letter) {
  if (writeText(browser, letterName(person, letter.id), JSON.stringify(letter))) return;
  sweep(0);
  if (!writeText(browser, letterName(person, letter.id), JSON.stringify(letter))) tell("shut");
}

export const dropLetter = (person, id) => writeText(browser, letterName(person, id), null);

// Calls f with the id of each letter that another tab kept or dropped, and the letter or null.
export function followLetters(person, signal, f) {
  const begin = letterName(person, "");
  addEventListener("storage", ({ key, newValue }) => {
    if (key?.startsWith(begin)) f(key.slice(begin.length), parsed(newValue));
  }, { signal });
}
