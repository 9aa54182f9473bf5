// The page's sentences in the reader's language: the chosen one, else the first of the browser's that is here.
// A language is a module of words/, loaded only when wanted; where it can't be loaded, English stands in its place.
// Its other half, in words/later/, is loaded with the pages that have these sentences.
// Only a page that says data-translated is translated.

import { readOption } from "./store.js";

export const LANGUAGES = { en: "English", de: "Deutsch", es: "Español", fr: "Français", hi: "हिन्दी", ja: "日本語",
  zh: "中文" };

const isTranslated = globalThis.document?.documentElement.dataset.translated !== undefined;
const wanted = isTranslated ? [readOption("language", ""), ...navigator.languages] : [];

// The name of a language in LANGUAGES, and the locale by which numbers and times are written: the browser's own one of
// this language, where it has one.
export let language = wanted.map((name) => name.slice(0, 2)).find((name) => Object.hasOwn(LANGUAGES, name)) ?? "en";
const tableOf = (folder = "") => import(`./words/${folder}${language}.js`);
let table;
try {
  table = await tableOf();
} catch {
  language = "en";
  table = await tableOf();
}
export const locale = isTranslated ? wanted.find((name) => name.startsWith(language)) || language : undefined;

const sentences = { ...table.default };
const plural = new Intl.PluralRules(language), number = new Intl.NumberFormat(locale);

// The sentence of this name with the values in its places; numbers are written as the language does.
export function phrase(name, values = {}) {
  const found = sentences[name], text = found[plural.select(values.n)] ?? found.other ?? found;
  return text.replace(/\{(\w+)\}/g, (_, place) =>
    (typeof values[place] === "number" ? number.format(values[place]) : values[place]));
}

// A sentence in parts: what happened, and what to do.
export const parts = (name, values) => phrase(name, values).split("|");

// Loads the sentences of the pages that few open in a round.
export async function loadLater() { Object.assign(sentences, (await tableOf("later/")).default); }

// A list of [keys, what they do].
export function pairs(name) {
  const words = parts(name);
  return words.filter((_, i) => i % 2 === 0).map((keys, i) => [keys, words[2 * i + 1]]);
}
