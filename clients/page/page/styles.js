// Styles that are loaded once they are wanted.

import { html } from "./elements.js";

// Resolves when the style is there, or can't be had; one that is asked for twice is added once.
const asked = new Map();
export function styled(href) {
  if (!asked.has(href)) {
    asked.set(href, new Promise((done) => document.head.append(html("link", { rel: "stylesheet", href, onload: done,
      onerror: done }))));
  }
  return asked.get(href);
}
