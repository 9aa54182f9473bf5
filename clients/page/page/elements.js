// Makers of elements: html("p", { class: "x", onclick: f }, "text", child), and svg(..) the same for drawings.
// What is given as text becomes text and never markup: titles and protests are written by people.

export const UNIT = 40; // the side of a cell on every board, in the units of its SVG

function make(element, attributes, children) {
  for (const [name, value] of Object.entries(attributes ?? {})) {
    if (value === null || value === undefined || value === false) continue;
    if (name.startsWith("on")) element.addEventListener(name.slice(2), value);
    else element.setAttribute(name, value === true ? "" : value);
  }
  element.append(...children.flat(3).filter((child) => child !== null && child !== undefined && child !== false));
  return element;
}

export const html = (tag, attributes, ...children) => make(document.createElement(tag), attributes, children);
export const svg = (tag, attributes, ...children) =>
  make(document.createElementNS("http://www.w3.org/2000/svg", tag), attributes, children);

// Gives an element other children, but only where they look otherwise: a screen reader tells again what is put anew.
export function refill(element, ...children) {
  const next = html("div", {}, children);
  if (next.innerHTML !== element.innerHTML) element.replaceChildren(...next.childNodes);
}

// Asks a question in a dialog. `choices` are [label, value]; the promise is the chosen value, "" where the reader
// goes back, and where the signal says that there is nothing to choose any more. The first choice is the one that
// changes nothing, and has the focus.
export function question(title, text, choices, signal) {
  return new Promise((done) => {
    const buttons = choices.map(([label, value], index) =>
      html("button", { class: index ? "" : "main", value, autofocus: !index }, label));
    const box = html("dialog", { "aria-label": title }, html("form", { method: "dialog" },
      html("h2", {}, title), html("p", {}, text), html("div", { class: "row" }, buttons)));
    box.addEventListener("close", () => { box.remove(); done(box.returnValue); });
    signal?.addEventListener("abort", () => box.close());
    document.body.append(box);
    box.showModal();
  });
}
