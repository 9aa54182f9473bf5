// Clocks of the zones that the browser knows: how far they stand east of UTC, and which moment they show.

const formats = new Map();

function format(zone) {
  if (!formats.has(zone)) formats.set(zone, new Intl.DateTimeFormat("en-GB", { timeZone: zone, hourCycle: "h23",
    year: "numeric", month: "numeric", day: "numeric", hour: "numeric", minute: "numeric", second: "numeric" }));
  return formats.get(zone);
}

export const own = Intl.DateTimeFormat().resolvedOptions().timeZone ?? "UTC";
export const zones = () => [...new Set([own, "UTC", ...Intl.supportedValuesOf?.("timeZone") ?? []])];

// What clocks of a zone show at a moment, as if they were UTC's.
function shown(moment, zone) {
  const { year, month, day, hour, minute, second } = Object.fromEntries(
    format(zone).formatToParts(1000 * moment).map(({ type, value }) => [type, Number(value)]));
  return Date.UTC(year, month - 1, day, hour, minute, second) / 1000;
}

// How many minutes they stand east of UTC.
export const offsetAt = (moment, zone) => Math.round((shown(moment, zone) - moment) / 60);

// The moment at which they show a local time as "2026-05-02T11:00"; NaN where it is none. As the hall reads a zone: of
// an hour that they show twice the first, and of one that they pass over the one by the offset before.
export function momentOf(local, zone) {
  const wall = Date.parse(`${local}Z`) / 1000;
  if (Number.isNaN(wall)) return NaN;
  const [before, after] = [-86400, 86400].map((way) => wall - 60 * offsetAt(wall + way, zone));
  return [before, after].find((moment) => shown(moment, zone) === wall) ?? before;
}

// Whether they show it at all.
export const isShown = (local, zone) => shown(momentOf(local, zone), zone) === Date.parse(`${local}Z`) / 1000;

export const localOf = (moment, zone) => new Date(1000 * shown(moment, zone)).toISOString().slice(0, 16);
const two = (n) => String(n).padStart(2, "0");

// An offset as a sheet of version 1 writes it, "+02:00".
export function offsetText(minutes) {
  const far = Math.abs(minutes);
  return `${minutes < 0 ? "-" : "+"}${two(Math.floor(far / 60))}:${two(far % 60)}`;
}

// A zone of one offset as sheets of version 3 write it, "<+0200>-02:00": its sign is the other way round.
export function ruleOf(minutes) {
  const text = offsetText(minutes), turned = (text[0] === "-" ? "+" : "-") + text.slice(1);
  return `<${text.replace(":", "")}>${turned}`;
}

export const utc = (moment) => `${new Date(1000 * moment).toISOString().slice(0, 16).replace("T", " ")} UTC`;
