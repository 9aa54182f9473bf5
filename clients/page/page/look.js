// Light or dark: by the machine, until the reader chooses.

import { phrase } from "./phrases.js";
import { keepOption, readOption } from "./store.js";

const LOOKS = { auto: "◐", light: "☀", dark: "☾" };

// Makes a button change it.
export function chooseLook(button) {
  const set = (name) => {
    document.documentElement.dataset.look = name;
    button.textContent = LOOKS[name];
    button.title = phrase("look", { look: LOOKS[name] });
    button.setAttribute("aria-label", button.title);
  };
  button.addEventListener("click", () => {
    const names = Object.keys(LOOKS), next = names[(names.indexOf(document.documentElement.dataset.look) + 1) % 3];
    set(next);
    keepOption("look", next);
  });
  set(readOption("look", "auto"));
}
