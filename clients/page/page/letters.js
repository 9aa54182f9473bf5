// Answers and protests on their way: kept with their token before they leave, and sent until the hall replies.
//
// A letter: {id: its token, path, body, round and its start, number, kind: "answer" or "protest", made, reply}.
// Without `reply` it is on its way. Taken ones are dropped; refused ones stay until the reader has seen them. Each has
// a name of its own in the browser's store, so two tabs of one person don't overwrite each other's.

import { clock } from "./clock.js";
import { ask, newToken } from "./requests.js";
import { dropLetter, followLetters, keepLetter, readLetters } from "./store.js";

const OTHER_TAB = 5000; // milliseconds until this tab sends what another one has on its way: that one may be closed

export class Letters extends EventTarget {
  constructor(key, person) {
    super();
    Object.assign(this, { key, person, stop: new AbortController() });
    this.all = new Map(readLetters(person).map((letter) => [letter.id, letter]));
    followLetters(person, this.stop.signal, (id, letter) => this.hear(id, letter));
  }

  // Sends what was kept, once the hall has told of its rounds. What was written to another round of the same name, as
  // of a rehearsal at this address, is thrown away.
  begin(rounds) {
    for (const letter of this.all.values()) {
      const round = rounds.find(({ id }) => id === letter.round);
      if (round && (letter.start ?? round.start) !== round.start) this.drop(letter);
      else this.send(letter);
    }
  }

  answer({ id, start }, number, answer) {
    this.post({ kind: "answer", round: id, start, number, body: { answer } }, (token) => `answers/${number}/${token}`);
  }

  protest({ id, start }, number, text) {
    this.post({ kind: "protest", round: id, start, number, body: { number, text } }, (token) => `protests/${token}`);
  }

  post(content, path) {
    const id = newToken();
    const made = Math.floor(clock.now());
    const letter = { id, path: `/rounds/${content.round}/${path(id)}`, made, ...content };
    this.all.set(id, letter);
    keepLetter(this.person, letter);
    this.tell(letter);
    this.send(letter);
  }

  async send(letter) {
    if (letter.reply) return;
    const reply = await ask("PUT", letter.path, { key: this.key, body: letter.body, signal: this.stop.signal });
    if (!reply || !this.all.has(letter.id)) return;
    letter.reply = reply;
    if (reply.ok) this.drop(letter);
    else {
      keepLetter(this.person, letter);
      this.tell(letter);
    }
  }

  drop(letter) {
    this.all.delete(letter.id);
    dropLetter(this.person, letter.id);
    this.tell(letter);
  }

  // What another tab did. A letter that it dropped was taken, or its refusal was seen.
  hear(id, letter) {
    const known = this.all.get(id);
    if (!letter) this.all.delete(id);
    else if (known) Object.assign(known, letter);
    else {
      this.all.set(id, letter);
      setTimeout(() => this.all.has(id) && this.send(letter), OTHER_TAB);
    }
    this.tell(letter ?? { ...known, reply: { ok: true } });
  }

  tell(letter) { this.dispatchEvent(new CustomEvent("change", { detail: letter })); }

  of(round, kind) { return [...this.all.values()].filter((letter) => letter.round === round && letter.kind === kind); }
  waiting() { return [...this.all.values()].some((letter) => !letter.reply); }
}
