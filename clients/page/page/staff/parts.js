// What several views of staff show alike: notes, chips, fields with what is wrong with them, and a command to copy.

import { html } from "../elements.js";
import { refusal, STATES } from "./words.js";

// What happened, and what to do.
export const note = (look, [what, then], ...more) =>
  html("div", { class: look, role: "alert" }, html("strong", {}, what), " ", then, " ", more);

export const refused = (reply, ...more) => note("note bad", refusal(reply), ...more);

// Changes what is in a box, and puts the focus back on what has the same name there.
export function keepFocus(box, change) {
  const name = box.contains(document.activeElement) && document.activeElement.name;
  change();
  if (name) box.querySelector(`[name="${name}"]`)?.focus({ preventScroll: true });
}

const LOOKS = { one: "good", none: "bad", more: "bad", "gave up": "wait", new: "wait" };
export const stateChip = (state) =>
  html("span", { class: `chip ${LOOKS[state] ?? "wait"}` }, STATES[state]?.[0] ?? state);

let count = 0;

// A labelled field: `input` is its element; `wrong(words)` says below it what is wrong, or nothing.
export function field(label, input, hint = "") {
  const id = `field-${++count}`, said = html("span", { class: "small bad", id: `${id}-said` });
  Object.entries({ id, "aria-describedby": said.id }).forEach(([name, value]) => input.setAttribute(name, value));
  const element = html("div", { class: "field" }, html("label", { for: id }, label), input,
    hint && html("span", { class: "small" }, hint), said);
  const wrong = (words) => {
    if (said.textContent !== words) said.textContent = words;
    if (words) input.setAttribute("aria-invalid", "true");
    else input.removeAttribute("aria-invalid");
  };
  return { element, input, wrong };
}

// What is wrong with a name, a label or an id, or "".
export function wrongName(text, what) {
  if (!text) return `Write ${what}.`;
  return /^[a-z0-9-]{1,24}$/.test(text) ? "" : "1 to 24 of a to z, 0 to 9 and -.";
}

// A command with a button that copies it.
export function command(text) {
  const copy = html("button", { type: "button", class: "quiet", onclick: async () => {
    try {
      await navigator.clipboard.writeText(text);
      copy.textContent = "copied";
    } catch {
      getSelection().selectAllChildren(shown);
    }
  } }, "copy"), shown = html("code", {}, text);
  return html("div", { class: "command" }, shown, copy);
}
