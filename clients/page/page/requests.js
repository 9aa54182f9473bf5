// Requests to the hall. One job: to get a reply of the hall, whatever the network does.
//
// A request that got none (no network; a proxy's status; the hall's own 503; the page of a stranger between) is sent
// again with growing pauses. That is safe: what reads changes nothing, and what writes carries a token, so that the
// hall does it once and gives the first reply again.

import { clock } from "./clock.js";

const PAUSES = [0.5, 1, 2, 4, 8, 15]; // seconds; the last one from there on
// Seconds without a reply until a request counts as lost: the machine may be gone, and another one in its place. What
// takes longer is waited for twice as long at each try, to the second number.
const PATIENCE = 10, LONGEST_PATIENCE = 40;
const FOR_GOOD = [200, 400, 403, 404]; // the statuses with which the hall answers for good

// Tells the page of trouble: "trouble" with {again: seconds until the next try, status}, and "well" once a reply came.
// "now" asks for a try at once.
export const network = new EventTarget();
const tell = (name, detail) => network.dispatchEvent(new CustomEvent(name, { detail }));

// 120 random bits in the letters of a token.
export function newToken() {
  const bytes = crypto.getRandomValues(new Uint8Array(24));
  return Array.from(bytes, (byte) => "abcdefghijklmnopqrstuvwxyz234567"[byte & 31]).join("");
}

// The hall's reply as {ok: true, value} or {ok: false, denied, form, field}; {lost: true, status} where it isn't the
// hall's. The hall writes JSON, but for a table, which is plain text. A `fault` is the proxy's, or passes.
function understood(status, type, text, isNew) {
  const lost = { lost: true, status };
  if (!FOR_GOOD.includes(status)) return lost;
  if (type.startsWith("text/plain") && status === 200) return { ok: true, value: text };
  if (!type.startsWith("application/json")) return lost;
  const value = JSON.parse(text);
  if (value.fault) return lost;
  // A key is known for good: a hall that doesn't know one that was let in serves another file just now.
  if (value.denied === 1 && !isNew) return { lost: true, status: "key" };
  return status === 200 ? { ok: true, value } : { ...value, ok: false };
}

async function once(method, path, seconds, { key, isNew, body, signal }) {
  const patience = new AbortController(), stop = () => patience.abort();
  const timer = setTimeout(stop, seconds * 1000), sent = performance.now();
  signal?.addEventListener("abort", stop);
  try {
    const isText = typeof body === "string", type = isText ? "text/plain" : "application/json";
    const headers = { ...(key && { "Hall-Key": key }), ...(body && { "Content-Type": type }) };
    const reply = await fetch(path, { method, headers, body: isText ? body : body && JSON.stringify(body),
      signal: patience.signal, cache: "no-store", credentials: "omit", redirect: "error" });
    const text = await reply.text();
    clock.learn(reply.headers.get("Date"), sent, performance.now());
    // Each request beyond a proxy's limit counts too, so its word on when to ask again is kept.
    const after = reply.status === 429 ? Number(reply.headers.get("Retry-After")) || 0 : 0;
    return { ...understood(reply.status, reply.headers.get("Content-Type") ?? "", text, isNew), after };
  } catch {
    // no network, no whole reply, or no JSON: all the same to the sender
    return { lost: true, status: 0, after: 0, late: patience.signal.aborted };
  } finally {
    clearTimeout(timer);
    signal?.removeEventListener("abort", stop);
  }
}

// Waits, or less long where the network comes back, the reader says "now", or the caller stops.
function pause(seconds, signal) {
  return new Promise((done) => {
    const over = new AbortController();
    const end = () => { clearTimeout(timer); over.abort(); done(); };
    const timer = setTimeout(end, seconds * 1000);
    addEventListener("online", end, { signal: over.signal });
    network.addEventListener("now", end, { signal: over.signal });
    signal?.addEventListener("abort", end, { signal: over.signal });
  });
}

// The hall's reply to a request; `isNew` where the key wasn't let in yet. A body is an object, or the text of a sheet.
// `patient` is how many seconds a reply may take that is known to take long. Only a caller's `signal` ends the trying;
// then the reply is null.
export async function ask(method, path, { key, isNew, body, signal, patient = PATIENCE } = {}) {
  for (let tries = 0, patience = patient; !signal?.aborted; tries++) {
    const reply = await once(method, path, patience, { key, isNew, body, signal });
    if (signal?.aborted) break;
    if (!reply.lost) { tell("well"); return reply; }
    if (reply.late) patience = Math.min(2 * patience, Math.max(patient, LONGEST_PATIENCE));
    const least = Math.max(reply.after, PAUSES[Math.min(tries, PAUSES.length - 1)]);
    const again = least * (0.8 + 0.4 * Math.random());
    tell("trouble", { again, status: reply.status });
    await pause(again, signal);
  }
  return null;
}
