// A ruling in two clicks: what it is to be, and once more when it was told what it changes and that it stays.

import { clock } from "../clock.js";
import { html, question, refill } from "../elements.js";
import { closeOf, dayAndTime } from "../times.js";
import { refused } from "./parts.js";
import { tableOf } from "./reckon.js";

const MOST = 1000; // points, up or down

const pointsText = (points) => `${points > 0 ? "+" : ""}${points} ${Math.abs(points) === 1 ? "point" : "points"}`;

export const rulingText = ({ ruling, points }) => (ruling === "upheld" ? `upheld, ${pointsText(points)}` : ruling);

// What the ruling changes in the table that is to come: [rank, total] of the entrant before and after, reckoned here.
function lineBefore(sheet, answers, protests, protest, points) {
  const others = protests.filter(({ entrant, token }) => entrant !== protest.entrant || token !== protest.token);
  const lineIn = (list) => tableOf(sheet, answers, list).find(([, entrant]) => entrant === protest.entrant);
  return [lineIn(others), lineIn([...others, { ...protest, ruling: "upheld", points }])];
}

export function effect(sheet, answers, protests, protest, points) {
  if (points === null) return "It changes nothing in the table.";
  if (points === 0) return "Upheld with 0 points, it changes nothing in the table.";
  if (!answers) return `It adds ${pointsText(points)} to the total of ${protest.entrant}.`;
  const [before, after] = lineBefore(sheet, answers, protests, protest, points);
  if (!before) {
    return `${protest.entrant} has no answer in this round, and so no line in its table: these points show nowhere.`;
  }
  const ranks = before[0] === after[0] ? `rank ${before[0]} as before` : `rank ${before[0]} becomes ${after[0]}`;
  return `${protest.entrant} has ${before[2]} points and gets ${after[2]}; ${ranks}. Reckoned by this page.`;
}

// Whether it can be taken back, and what is left where it can't.
export function finality({ entrant, round }, sheet) {
  const close = closeOf(round, sheet), isOpen = clock.now() < close;
  return ["A ruling is given once, and stays: the hall refuses another one.",
    isOpen ? `Until the close, ${dayAndTime(close)}, ${entrant} may protest once more (five times in all), and a `
      + "ruling on that can add the difference." : "The close is past, so nothing can set it right any more."];
}

export class Ruling {
  // `facts()` tells {sheet, answers, protests} as far as they are known.
  constructor(app, protests, protest, facts) {
    Object.assign(this, { app, protests, protest, facts, refusal: "" });
    this.points = html("input", { type: "number", id: "points", min: -MOST, max: MOST, step: 1, value: "0",
      inputmode: "numeric", oninput: () => this.look() });
    this.uphold = html("button", { class: "main uphold", onclick: () => this.rule(true) });
    this.reject = html("button", { class: "reject", onclick: () => this.rule(false) }, "Reject …");
    this.said = html("div", { "aria-live": "polite" });
    this.element = html("section", { class: "ruling", "aria-label": "Ruling" }, html("div", { class: "row" },
      html("label", { for: "points" }, "Points"), this.points, this.uphold, this.reject), this.said);
    this.look();
  }

  get name() { return `ruling ${this.protest.round.id}/${this.protest.entrant}/${this.protest.token}`; }

  given() {
    const points = Number(this.points.value);
    const isRight = this.points.value !== "" && Number.isInteger(points) && Math.abs(points) <= MOST;
    return isRight ? points : null;
  }

  look() {
    const points = this.given(), isSent = this.app.drafts.has(this.name);
    this.uphold.textContent = points === null ? "Uphold …" : `Uphold with ${pointsText(points)} …`;
    this.uphold.disabled = points === null || isSent;
    this.reject.disabled = isSent;
    this.points.toggleAttribute("aria-invalid", points === null);
    refill(this.said, isSent && html("p", { class: "note" }, "On its way: it goes again until the hall replies. "
      + "Leave this tab open."),
    points === null && html("p", { class: "small bad" }, `Whole points, -${MOST} to ${MOST}.`));
  }

  async rule(upheld) {
    const { app, protest } = this, { sheet, answers, protests } = this.facts(), points = upheld ? this.given() : null;
    const title = upheld ? `Uphold it with ${pointsText(points)}?` : "Reject it?";
    const lines = [effect(sheet, answers, protests, protest, points), ...finality(protest, sheet)]
      .map((line) => html("span", { class: "line" }, line));
    if (!await question(title, lines, [["Go back", ""], [upheld ? "Uphold it" : "Reject it", "yes"]])) return;
    app.drafts.set(this.name, true);
    this.look();
    // It isn't ended where the reader goes to another view: it goes again until the hall replies.
    const { id } = protest.round, path = `/rounds/${id}/rulings/${protest.entrant}/${protest.token}`;
    const reply = await app.ask("PUT", path, { body: { points: points ?? 0, upheld } });
    app.drafts.delete(this.name);
    this.look();
    if (reply?.ok) this.protests.learn(protest, reply.value);
    else if (reply) {
      this.refusal = refused(reply); // it stays where the protest turns out to be ruled
      this.said.replaceChildren(this.refusal);
      if (reply.denied === 18) this.protests.renew([protest.round]);
    }
  }
}
