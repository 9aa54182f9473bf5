// Times for people: in the reader's own zone, as countdowns by the hall's clock, and where a round stands.

import { clock } from "./clock.js";
import { html } from "./elements.js";
import { locale, phrase } from "./phrases.js";

const format = (options) => {
  const made = new Intl.DateTimeFormat(locale, options);
  return (moment) => made.format(moment * 1000);
};
const MINUTE = { hour: "2-digit", minute: "2-digit" };
export const dayAndTime = format({ weekday: "short", day: "numeric", month: "short", ...MINUTE });
export const time = format(MINUTE);
export const exact = format({ ...MINUTE, second: "2-digit" });
export const zone = Intl.DateTimeFormat().resolvedOptions().timeZone;

// 75 seconds are "1:15", three hours "3:00:00", two days "2 d 0:00:00".
export function span(seconds) {
  const whole = Math.max(0, Math.ceil(seconds)), two = (n) => String(n).padStart(2, "0");
  const days = Math.floor(whole / 86400), hours = Math.floor(whole / 3600) % 24, minutes = Math.floor(whole / 60) % 60;
  const head = days || hours ? `${hours}:${two(minutes)}` : String(minutes), time = `${head}:${two(whole % 60)}`;
  return days ? phrase("days", { n: days, time }) : time;
}

// Calls f now and again and again, until the signal; not while a call still waits, as for a hall that is away.
export function every(seconds, signal, f) {
  let waits = false;
  const call = async () => {
    if (waits) return;
    waits = true;
    try { await f(); } finally { waits = false; }
  };
  const timer = setInterval(call, seconds * 1000);
  signal.addEventListener("abort", () => clearInterval(timer));
  call();
}

// Counts down to a moment; calls `after` once, when it is reached. The last two minutes look urgent.
export function countdown(moment, signal, after = () => {}) {
  const element = html("time", { class: "countdown", role: "timer" });
  let done = false;
  every(0.25, signal, () => {
    const left = moment - clock.now();
    if (element.textContent !== span(left)) element.textContent = span(left);
    element.classList.toggle("soon", left < 120);
    if (left > 0 || done) return;
    done = true;
    queueMicrotask(() => signal.aborted || after());
  });
  return element;
}

export const lengthOf = ({ minutes }) => phrase("minutes", { n: minutes });
export const fromTo = (round) => phrase("fromTo", { from: dayAndTime(round.start), to: time(endOf(round)) });
export const endOf = (round) => round.start + 60 * round.minutes;
export const closeOf = (round, sheet) => endOf(round) + 60 * sheet.protest_minutes;

// Where a round stands: before, running, protests, closed or published. Only the sheet tells when it closes; and where
// it was told, the round has begun, whatever the clock says.
export function stage(round, sheet, begun = false) {
  const now = clock.now();
  if (round.published) return "published";
  if (now < round.start && !begun) return "before";
  if (now < endOf(round)) return "running";
  return sheet && now >= closeOf(round, sheet) ? "closed" : "protests";
}
