// Keeps the files of the page, so that a reload without a network goes on. What the network gives comes first; where
// it fails, what was kept stands in its place. It answers for the page's own files alone, never for the hall.

const KEPT = "page";
const PATIENCE = 4000, QUIET = 10000; // milliseconds: until the network has failed, and until it is asked again
const TYPES = { js: "text/javascript", css: "text/css", "/": "text/html" };
const MARK = "page/main.js"; // what index.html holds, and the page of a stranger between doesn't
let failed = -QUIET;

const isOwn = ({ origin, pathname }) => origin === location.origin
  && (pathname === "/" || pathname.startsWith("/page/") && !pathname.startsWith("/page/staff/"));

// Whether a reply is the file that was asked for.
async function isFile(path, reply) {
  const type = reply.headers.get("Content-Type") ?? "";
  if (reply.status !== 200 || reply.redirected || !type.startsWith(TYPES[path.split(".").at(-1)])) return false;
  return path !== "/" || (await reply.clone().text()).includes(MARK);
}

async function answer(request, path) {
  const cache = await caches.open(KEPT), kept = await cache.match(path);
  if (kept && performance.now() - failed < QUIET) return kept;
  try {
    const reply = await fetch(request, kept ? { signal: AbortSignal.timeout(PATIENCE) } : {});
    if (await isFile(path, reply)) await cache.put(path, reply.clone());
    return kept && reply.status >= 500 ? kept : reply;
  } catch (fault) {
    failed = performance.now();
    if (kept) return kept;
    throw fault;
  }
}

// Keeps what the page had loaded before there was a worker.
async function keepAll(urls) {
  const cache = await caches.open(KEPT);
  for (const path of urls.map((url) => new URL(url)).filter(isOwn).map((url) => url.pathname)) {
    const reply = await cache.match(path) ? null : await fetch(path, { cache: "force-cache" });
    if (reply && await isFile(path, reply)) await cache.put(path, reply);
  }
}

addEventListener("install", () => self.skipWaiting());
addEventListener("activate", (event) => event.waitUntil(self.clients.claim()));
addEventListener("message", (event) => event.waitUntil(keepAll(event.data)));
addEventListener("fetch", (event) => {
  const url = new URL(event.request.url);
  if (event.request.method === "GET" && isOwn(url)) event.respondWith(answer(event.request, url.pathname));
});
