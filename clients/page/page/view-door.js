// The door: a key, asked from the hall once before it is kept for this tab.

import { html } from "./elements.js";
import { phrase } from "./phrases.js";
import { ask } from "./requests.js";
import { refusal } from "./words.js";

// The key in what is pasted: of a slip the word behind `Key:`. Programs of texts make dashes of their own kinds.
const keyIn = (text) =>
  (/Key:\s*(\S+)/i.exec(text)?.[1] ?? text).replace(/\s/g, "").replace(/[\u2010-\u2015\u2212]/g, "-");

export function doorView(app, signal) {
  const field = html("input", { id: "key", type: "password", autocomplete: "off", autocapitalize: "off",
    spellcheck: "false", pattern: "[A-Za-z0-9\\-]{8,64}", required: true, "aria-describedby": "slip",
    title: phrase("keyForm"),
    oninput: () => { if (keyIn(field.value) !== field.value) field.value = keyIn(field.value); },
    onpaste: (event) => { // a line's end would be gone once it is in the field
      event.preventDefault();
      const key = keyIn(event.clipboardData.getData("text"));
      field.setRangeText(key, field.selectionStart, field.selectionEnd, "end");
    } });
  const show = html("button", { type: "button", class: "quiet", onclick: () => {
    field.type = field.type === "text" ? "password" : "text";
    show.textContent = phrase(field.type === "text" ? "hide" : "show");
  } }, phrase("show"));
  const said = html("p", { class: "note bad", role: "alert" });
  const go = html("button", { class: "main" }, phrase("enter"));
  const enter = async (event) => {
    event.preventDefault();
    const key = field.value;
    go.disabled = true;
    said.textContent = "";
    const reply = await ask("GET", "/rounds", { key, isNew: true, signal });
    go.disabled = false;
    if (reply?.ok) app.enter(key, reply.value.rounds);
    else if (reply) said.textContent = refusal(reply).join(" ");
  };
  setTimeout(() => field.focus());
  return html("form", { class: "door", onsubmit: enter }, html("h1", {}, phrase("hall")),
    html("p", { class: "lead" }, phrase("lead")),
    html("label", { for: "key" }, phrase("yourKey")), html("div", { class: "row" }, field, show), said, go,
    html("p", { class: "small", id: "slip" }, phrase("keySlip")));
}
