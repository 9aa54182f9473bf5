// Certificates that this tab asked for. The hall searches on whether anybody waits or not, so what is kept over a
// reload is what was asked, and the asking again waits for the same search.

import { network } from "../requests.js";
import { nameOf } from "./puzzles.js";

const PATIENT = 3600; // seconds for a reply
const NAME = "hall.searches";

export class Searches extends EventTarget {
  constructor(app, signal) {
    super();
    Object.assign(this, { app, signal, all: new Map() });
    for (const asked of this.kept()) this.resume(asked);
  }

  kept() {
    try { return JSON.parse(sessionStorage.getItem(NAME)) ?? []; } catch { return []; }
  }

  keep() {
    const text = JSON.stringify([...this.all.values()]);
    try { sessionStorage.setItem(NAME, text); } catch { /* then a reload forgets it */ }
    this.dispatchEvent(new Event("change"));
  }

  forget() {
    this.all.clear();
    this.keep();
  }

  // Whether it was asked for first of those that wait.
  isNext(asked) { return [...this.all.values()].every(({ since }) => since >= asked.since); }

  of(entry) { return this.all.get(nameOf(entry)); }

  // A search that was asked for before a reload: a state that came meanwhile is its end.
  async resume(asked) {
    this.all.set(nameOf(asked), asked);
    const reply = await this.app.ask("GET", `/puzzles/${nameOf(asked)}`, { signal: this.signal });
    if (!reply) return;
    if (reply.ok && reply.value.state === asked.state) await this.wait(asked);
    else this.end(asked, reply);
  }

  // Asks for a certificate; the reply comes once the search has ended.
  begin(entry, budget) {
    const { author, label, state } = entry, asked = { author, label, state, budget, since: Date.now() };
    this.all.set(nameOf(entry), asked);
    this.keep();
    return this.wait(asked);
  }

  async wait(asked) {
    let reply = null;
    while (!reply && !this.signal.aborted) reply = await this.once(asked);
    if (reply) this.end(asked, reply);
    return reply;
  }

  // Asks and waits. null where the hall was away meanwhile: its machine may be gone, and the reply with it.
  async once(asked) {
    const stop = new AbortController(), over = new AbortController(), until = { signal: over.signal };
    let away = false;
    this.signal.addEventListener("abort", () => stop.abort(), until);
    network.addEventListener("trouble", () => { away = true; }, until);
    network.addEventListener("well", () => away && stop.abort(), until);
    const reply = await this.app.ask("POST", `/puzzles/${nameOf(asked)}/certificate`,
      { body: { budget: asked.budget }, patient: PATIENT, signal: stop.signal });
    over.abort();
    return reply;
  }

  end(asked, reply) {
    this.all.delete(nameOf(asked));
    if (reply.ok) this.app.puzzles.learn(asked.author, asked.label, reply.value);
    this.keep();
  }
}
