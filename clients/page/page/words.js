// The hall's codes in sentences for entrants, with what to do. tools/tests/test_page.py compares the codes with
// docs/HTTP.md.

import { parts, phrase } from "./phrases.js";

const CODES = [1, 2, 4, 5, 6, 7, 8, 9, 10, 15, 19];
const NAMES = "A0 U1 U2 U3 U4 S1 S2 S3 S4 S5 N1 N2 N3 N4 N5 N6".split(" ");

export const DENIED = Object.fromEntries(CODES.map((code) => [code, parts(`denied${code}`)]));
export const BROKEN = Object.fromEntries(NAMES.map((name) => [name, phrase(name)]));

// What a reply that isn't ok says, as [sentence, what to do].
export function refusal({ denied, form, field }) {
  if (denied) return DENIED[denied] ?? parts("deniedElse", { number: denied });
  const code = [form, field].filter(Boolean).join(", ");
  return parts(field === "text" ? "notUnderstoodText" : "notUnderstood", { code });
}

// A verdict as {right, reasons}; null where none is told.
export function verdict(text) {
  if (!text) return null;
  const [first, ...names] = text.split(" ");
  return { right: first === "right", reasons: names.map((name) => BROKEN[name] ?? name) };
}

// What stands in the banner while the hall can't be reached, or doesn't know a key that it knew.
export function trouble(status) {
  if (status === 0) return phrase("noConnection");
  if (status === "key") return phrase("keyUnknown");
  if (status === 429) return phrase("tooMany");
  return status >= 500 ? phrase("busy") : phrase("between", { status });
}
