// The protests of the rounds that a referee looks at, with what stands beside them: sheets, solutions, answers.

import { clock } from "../clock.js";
import { endOf } from "../times.js";

export const keyOf = ({ round, entrant, token }) => `${round.id}/${entrant}/${token}`;
const inOrder = (a, b) => (a.ruling !== "open") - (b.ruling !== "open") || a.round.start - b.round.start;

export class Protests {
  // `heard` is called where something came.
  constructor(app, signal, heard) {
    Object.assign(this, { app, signal, heard, listed: new Map(), solutions: new Map(), asking: new Map(),
      refused: new Map() });
  }

  // The rounds whose protests may stand: their end is past. Those that are published have no open one.
  rounds() { return this.app.rounds.filter((round) => round.released && clock.now() >= endOf(round)); }

  // Asks for the protests of these rounds. What is published doesn't change.
  async renew(rounds) {
    await Promise.all(rounds.filter(({ id, published }) => !published || !this.listed.has(id)).map(async ({ id }) => {
      const reply = await this.app.ask("GET", `/rounds/${id}/protests`, { signal: this.signal });
      if (!reply) return;
      if (reply.ok) this.listed.set(id, reply.value.protests);
      this.refused.set(id, reply.ok ? null : reply);
    }));
    this.heard();
  }

  // The protests of these rounds, those that aren't ruled first.
  of(rounds) {
    return rounds.flatMap((round) => (this.listed.get(round.id) ?? []).map((it) => ({ ...it, round }))).sort(inOrder);
  }

  // What was ruled: it is shown at once.
  learn({ round, entrant, token }, { ruled, points }) {
    const found = this.listed.get(round.id)?.find((it) => it.entrant === entrant && it.token === token);
    if (found) Object.assign(found, { ruling: ruled, points });
    this.heard();
  }

  // Asks once for what is kept under a name, until it came.
  once(name, ask) {
    if (!this.asking.has(name)) this.asking.set(name, ask().finally(() => this.asking.delete(name)));
    return this.asking.get(name);
  }

  async solutionsOf(round) {
    if (!this.solutions.has(round.id)) {
      const reply = await this.once(`solutions ${round.id}`,
        () => this.app.ask("GET", `/rounds/${round.id}/solutions`, { signal: this.signal }));
      if (reply?.ok) this.solutions.set(round.id, reply.value.solutions);
    }
    return this.solutions.get(round.id) ?? [];
  }

  // The answers of a round as they stood at its end, or null where they can't be asked for now.
  answersOf(round) {
    const known = this.app.listings.get(round.id);
    return known && known.at >= endOf(round) ? known.answers : null;
  }

  async askAnswers(round) {
    const begun = performance.now();
    const reply = await this.once(`answers ${round.id}`,
      () => this.app.ask("GET", `/rounds/${round.id}/answers`, { signal: this.signal }));
    if (reply?.ok) {
      const took = (performance.now() - begun) / 1000;
      this.app.listings.set(round.id, { answers: reply.value.answers, at: clock.now(), took });
    }
    return reply;
  }
}
