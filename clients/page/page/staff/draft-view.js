// A draft: its form beside what entrants will see, its sheet, and its release.

import { html, question, refill } from "../elements.js";
import { atMoment, DraftForm, startInWords } from "./draft-form.js";
import { note, refused } from "./parts.js";
import { nameOf } from "./puzzles.js";
import { seen } from "./seen.js";
import { emptyDraft, sheetText, startOf, testersOf } from "./sheet.js";
import { standing } from "./standing.js";
import { localOf, own } from "./zones.js";
import { clock } from "../clock.js";

export const NEW = "NEW"; // the word of a draft that has no id yet: no id has such letters
const UNTOLD = "This draft was put from elsewhere, and the hall doesn't tell who tests it: write its testers again, "
  + "or the next put has none.";
const LOST = " Of some puzzles it isn't known whose they are: choose them again.";
const FOR_GOOD = "A released round stays as it is: it can't be moved, stopped or taken back. Read its start aloud: ";

// The draft as the hall tells it. Whose puzzles they are is found by their texts, and who tests it isn't told.
async function draftOf(app, sheet, tell) {
  if (!app.puzzles.list) await app.puzzles.renew();
  tell("Finding whose puzzles these are. The hall tells a draft's texts and not their authors, so up to "
    + `${app.puzzles.list?.length ?? 0} puzzles are asked for …`);
  const found = await app.puzzles.byTexts(sheet.puzzles.map(({ text }) => text));
  const puzzles = sheet.puzzles.map(({ text, points }) =>
    ({ author: found.get(text)?.author ?? "", label: found.get(text)?.label ?? "", points }));
  const untold = UNTOLD + (puzzles.every(({ label }) => label) ? "" : LOST);
  return { ...emptyDraft(), ...sheet, start: localOf(sheet.start, own), zone: own, testers: "", puzzles, untold };
}

class DraftView {
  constructor(app, signal, id, put, draft) {
    Object.assign(this, { app, signal, id, put, kept: `round ${id}` });
    this.form = new DraftForm(app, signal, draft, id === NEW, () => this.changed());
    this.said = html("div", { "aria-live": "polite" });
    this.seen = html("div", {});
    this.text = html("pre", { class: "sheet-text" });
    const button = (label, look, f) => html("button", { type: "button", class: look, onclick: f }, label);
    this.go = button("Put the draft", "main", () => this.send());
    this.free = button("Release …", "", () => this.release());
    const actions = [html("div", { class: "row" }, this.go, this.free,
      button("Download the sheet", "quiet", () => this.download())), this.said,
    html("details", { ontoggle: () => this.tell() }, html("summary", {}, "The sheet as text"), this.text)];
    this.element = html("div", {}, draft.untold && html("p", { class: "note" }, draft.untold),
      html("div", { class: "sides" }, this.form.lay(...actions), this.seen),
      this.form.gallery.element);
    app.puzzles.addEventListener("list", () => this.tell(), { signal });
    this.tell();
    if (put && !draft.untold && !this.isEdited()) this.said.append(note("note good", ["The hall keeps this draft.",
      "Release it once all is as it should be."]));
  }

  changed() {
    this.app.drafts.set(this.kept, this.form.draft);
    this.said.replaceChildren();
    this.tell();
  }

  isEdited() { return this.app.drafts.has(this.kept); }

  tell() {
    this.free.disabled = !this.put || this.isEdited();
    this.free.title = this.put ? (this.isEdited() ? "Put your changes first." : "") : "Put the draft first.";
    refill(this.seen, this.put ? [this.isEdited() && html("p", { class: "note" },
      "You changed something since: this is what the hall keeps."), seen(this.put)]
      : html("p", { class: "small" }, "Once you put the draft, what entrants will see of it stands here."));
    try {
      this.text.textContent = sheetText(this.form.draft);
    } catch {
      this.text.textContent = "The form isn't filled in yet.";
    }
  }

  download() {
    const text = this.form.sheet();
    if (!text) return;
    const link = html("a", { href: URL.createObjectURL(new Blob([text], { type: "application/toml" })),
      download: `${this.form.draft.id}.toml` });
    link.click();
    setTimeout(() => URL.revokeObjectURL(link.href), 1000);
  }

  tellRefusal(reply, ...more) { this.said.replaceChildren(refused(reply, more)); }

  async send() {
    const text = this.form.sheet(), { draft } = this.form, { id } = draft;
    if (!text) {
      this.said.replaceChildren(note("note bad", ["Nothing was sent.", "See what is said at the fields."]));
      return;
    }
    const there = this.id === NEW && this.app.rounds.find((round) => round.id === id);
    if (there && !there.released && !await question(`${id} is a draft already`, "This one takes its place.",
      [["Go back", ""], ["Put this one", "yes"]])) return;
    this.go.disabled = true;
    const reply = await this.app.ask("PUT", `/rounds/${id}`, { body: text });
    this.go.disabled = false;
    if (!reply) return;
    if (!reply.ok) {
      this.tellRefusal(reply, reply.denied === 4 ? this.missing() : "");
      return;
    }
    this.app.drafts.delete(this.kept);
    this.app.put.set(id, { ...structuredClone(draft), untold: "" });
    await this.app.refresh();
    if (this.signal.aborted) return;
    if (this.id === NEW) location.hash = `#/director/${id}`;
    else await this.renew();
  }

  // Shows what the hall keeps now.
  async renew() {
    const reply = await this.app.sheet(this.id, this.signal);
    if (!reply?.ok) return;
    this.put = reply.value;
    this.said.replaceChildren(note("note good", ["The hall keeps this draft.", `It was put at ${atMoment()}.`]));
    this.tell();
  }

  // Which puzzle or tester of the form isn't there.
  missing() {
    const there = new Set(this.app.puzzles.list?.map(nameOf)), { draft } = this.form;
    const lost = draft.puzzles.map(nameOf).filter((name) => !there.has(name));
    return lost.length ? `There is no puzzle ${lost.join(", ")}.`
      : `Not all testers are there as entrants or referees: ${testersOf(draft).join(", ")}.`;
  }

  async release() {
    const lacking = this.form.lacking(), { draft } = this.form, { puzzles } = draft;
    const why = lacking.length ? `No certificate of one solution: ${lacking.map(([name]) => name).join(", ")}.`
      : startOf(draft) <= clock.now() ? "Its start has come already: put it again with a later one." : "";
    if (why) {
      this.said.replaceChildren(note("note bad", ["It can't be released yet.", why]));
      return;
    }
    const sum = puzzles.reduce((total, { points }) => total + Number(points), 0);
    const words = `${FOR_GOOD}${startInWords(draft)}. It has ${puzzles.length} puzzles of ${sum} points in all.`;
    if (!await question(`Release ${draft.title}?`, words, [["Go back", ""], ["Release it", "yes"]])) return;
    this.free.disabled = true;
    const reply = await this.app.ask("POST", `/rounds/${draft.id}/release`);
    await this.app.refresh();
    // Where the first reply was lost, the second one says that the round is no draft any more.
    const isDone = this.app.rounds.some(({ id, released }) => id === draft.id && released);
    if (this.signal.aborted) return;
    if (reply?.ok || isDone) this.app.show();
    else if (reply) this.tellRefusal(reply, reply.denied === 11 ? await this.elsewhere() : "");
    this.free.disabled = false;
  }

  // In which released rounds a puzzle of this one stands.
  async elsewhere() {
    const told = await standing(this.app, this.signal), { draft } = this.form;
    const found = this.put.puzzles.map(({ text }, i) => [nameOf(draft.puzzles[i]), told?.byText.get(text) ?? []])
      .map(([name, ids]) => [name, ids.filter((id) => this.app.sheets.has(id))]).filter(([, ids]) => ids.length);
    return found.map(([name, ids]) => `${name} stands in ${ids.join(", ")}. `).join("");
  }
}

// A draft of the hall's, or a new one; `tell` says what takes long.
export async function draftView(app, signal, id, tell) {
  const kept = app.drafts.get(`round ${id}`);
  if (id === NEW) return new DraftView(app, signal, id, null, kept ?? emptyDraft()).element;
  const reply = await app.sheet(id, signal);
  if (!reply?.ok) return reply ? refused(reply) : "";
  const known = kept ?? (app.put.has(id) ? structuredClone(app.put.get(id)) : null);
  return new DraftView(app, signal, id, reply.value, known ?? await draftOf(app, reply.value, tell)).element;
}
