"""What may go wrong: cut starts, late answers, a full or shut browser, strangers between, crowds; and nginx."""
import contextlib
import http.client
import re
import socket
import threading
import time

from harness.checks import holds, tell
from harness.running import free_port
from page_tests.chromium import Browser
from page_tests.place import MINUTES, Place, none, proxies, solved, until

WALLS = ".board .wall"
FILES = {"sl": "slither.txt", "nu": "nurikabe.txt"}
SHUT = """Storage.prototype.setItem = () => { throw new Error('full'); };
Storage.prototype.getItem = () => { throw new Error('shut'); };"""
# A browser in which no more than so much may be kept under one name.
NARROW = """const whole = Storage.prototype.setItem;
Storage.prototype.setItem = function (name, text) {
  if (name.startsWith('hall.drawing.') && text.length > 400) throw new DOMException('full', 'QuotaExceededError');
  whole.call(this, name, text);
};"""
# What a school's filter, or the door of a hotel's network, answers in the hall's place, twice.
STRANGER = """const real = fetch; let left = 2;
window.fetch = (path, ...more) => (path.includes('/answers/') && left-- > 0
  ? Promise.resolve(new Response('<h1>Log in</h1>', { status: 200, headers: { 'Content-Type': 'text/html' } }))
  : real(path, ...more));"""
# A proxy whose limit of an address is passed, once.
CROWDED = """const real = fetch; let left = 1;
const headers = { 'Content-Type': 'application/json', 'Retry-After': '10' };
window.fetch = (path, ...more) => (path.includes('/answers/') && left-- > 0
  ? Promise.resolve(new Response('{"fault":"proxy"}', { status: 429, headers })) : real(path, ...more));"""

ANSWER = re.compile(rb"PUT /rounds/r/answers/1/(\w+) ")

# A proxy that tells no time, before a computer whose clock is two hours ahead.
TIMELESS = """const now = Date.now, get = Headers.prototype.get;
Date.now = () => now() + 7200000;
Headers.prototype.get = function (name) { return name === 'Date' ? null : get.call(this, name); };"""


def trial(program, pictures):
    want = holds
    with Place(program) as place:
        for label, name in FILES.items():
            place.put_puzzle(label, solved(program, name)[0])
        with Browser(place, pictures) as browser:
            begun = time.monotonic()
            browser.enter("eve")
            start = place.soon(begun)
            place.put_round("r", "<b>Odd</b> & 'title'", start, ["nu"])
            place.put_round("e", "Ending", start, ["sl"], mode="sealed", penalty=0)
            browser.reload()
            cut_start(place, browser, want, start)
            too_late(place, browser, want)
            asked_at_the_end(place, browser, want)
            none("the page's code had no fault", browser.faults())
        kept_nothing(place, pictures, want)
        kept_little(place, pictures, want)
        stranger(place, pictures, want)
        crowded(place, pictures, want)
        never_answered(place, pictures, want)
        timeless(place, pictures, want)
        crowd(place, want)
        behind_nginx(place, pictures, want)


def cut_start(place, browser, want, start):
    want("a title is text, never markup", browser.shows("<b>Odd</b>"))
    browser.go("#/r/r")
    browser.shows("come by themselves")
    time.sleep(max(0.0, start - time.time() - 1.5))
    place.kill_proxy()
    want("a start without a connection is told", browser.shows("No connection", "#trouble"))
    time.sleep(max(0.0, start - time.time() + 1))
    browser.picture("start-cut")
    place.start_proxy()
    want("the puzzles come once it is back", browser.shows("Nurikabe", seconds=90))


def too_late(place, browser, want):
    """An answer that couldn't leave before the end."""
    browser.open("e", 1, "Slitherlink")
    browser.chord("\ue008", "\ue014")  # Shift and the arrow to the right
    place.stop_hall()
    browser.hand_in()
    browser.choose(2)
    want("a hall that is away is told", browser.shows("busy, or away", "#trouble"), browser.text("#trouble"))
    browser.picture("away")
    browser.open("r", 1, "Nurikabe")
    want("puzzles may be changed while the hall is away", browser.count(".board .frame") == 1)
    browser.open("e", 1, "Slitherlink")
    # it comes back once the round has ended, and not sooner, since the page sends again by itself
    place.begin_at(time.time() - 60 * MINUTES - 2, "e")
    browser.try_now()
    want("too late is told in words", browser.shows("had ended when this came", ".said"), browser.text(".said"))
    browser.picture("too-late")


def asked(place, browser, left):
    """Whether an unfinished board asks, so many seconds before its round ends."""
    place.begin_at(time.time() - 60 * MINUTES + left, "e")
    browser.reload()
    browser.open("e", 1, "Slitherlink")
    browser.hand_in()
    return browser.shows("Not finished?", "dialog")


def asked_at_the_end(place, browser, want):
    """A question that is still open as its puzzle is left, and one as the round ends: so late that a browser which is
    as quick as the first time has asked well before."""
    begun = time.monotonic()
    want("an unfinished board asks before the end", asked(place, browser, 60 * MINUTES / 2))
    took = time.monotonic() - begun
    browser.go("#/r/e")
    want("a question goes with its puzzle", until(lambda: not browser.count("dialog")))
    want("it asks again", asked(place, browser, 10 + 3 * took))
    want("near the end is told what isn't handed in", browser.shows("The end is near", ".said"), browser.text(".said"))
    want("a question goes at the round's end", until(lambda: not browser.count("dialog"), 60 + 3 * took))
    want("and the end is told in its place", browser.shows("The round is over", "button.hand"))
    want("and nothing is near any more", "The end is near" not in browser.text(".said"), browser.text(".said"))
    want("and nothing was handed in", place.answers("e", "eve") == [], place.answers("e", "eve"))


def kept_nothing(place, pictures, want):
    with Browser(place, pictures) as browser:
        browser.before_load(SHUT)
        browser.enter("gus")
        browser.open("r", 1, "Nurikabe")
        browser.wall()
        want("a browser that keeps nothing says so", browser.shows("keeps nothing more", "#store"))
        browser.picture("shut")
        browser.go("#/r/r")
        browser.shows("begun")
        browser.open("r", 1, "Nurikabe")
        want("and works on from memory", browser.count(WALLS) == 1)
        browser.hand_in()
        browser.choose(2)
        want("and hands in", until(lambda: len(place.answers("r", "gus")) == 1))


def kept_little(place, pictures, want):
    with Browser(place, pictures) as browser:
        browser.before_load(NARROW)
        browser.enter("hal")
        browser.open("r", 1, "Nurikabe")
        browser.wall()
        browser.keys(*" " * 40)
        want("a full browser says that undo isn't kept", browser.shows("undo is lost", "#store"))
        browser.reload()
        browser.ready("1. Nurikabe")
        want("and keeps what is drawn", browser.count(WALLS) == 0 and browser.count(".board .spot") == 1)


def stranger(place, pictures, want):
    with Browser(place, pictures) as browser:
        browser.before_load(STRANGER)
        browser.enter("ida")
        browser.open("r", 1, "Nurikabe")
        browser.wall()
        browser.hand_in()
        browser.choose(2)
        want("the page of a stranger is no reply", browser.shows("Something between", "#trouble"))
        want("and the answer goes again", until(lambda: len(place.answers("r", "ida")) == 1))


def crowded(place, pictures, want):
    with Browser(place, pictures) as browser:
        browser.before_load(CROWDED)
        browser.enter("dan")
        browser.open("r", 1, "Nurikabe")
        browser.wall()
        browser.hand_in()
        browser.choose(2)
        want("a limit that is passed is told", browser.shows("Too many requests", "#trouble"))
        seconds = re.search(r"again in (\d+) s", browser.text("#trouble"))
        want("and kept: asked again when the proxy says", seconds and 8 <= int(seconds[1]) <= 12, seconds)
        browser.try_now()
        want("or where the reader wants it", until(lambda: len(place.answers("r", "dan")) == 1))


@contextlib.contextmanager
def silence(port):
    """Takes connections at the port, reads what comes, and never answers: all the bytes of each. They are held until
    the block ends, also once `close` of the listener lets another one listen there."""
    held = []
    with contextlib.ExitStack() as kept, socket.create_server(("127.0.0.1", port)) as listener:
        def read(line, place):
            with contextlib.suppress(OSError):
                while got := line.recv(65_536):
                    held[place] += got

        def take():
            with contextlib.suppress(OSError):
                while True:
                    line = kept.enter_context(listener.accept()[0])
                    held.append(b"")
                    threading.Thread(target=read, args=(line, len(held) - 1), daemon=True).start()
        threading.Thread(target=take, daemon=True).start()
        yield listener, held


def never_answered(place, pictures, want):
    """A machine that takes an answer and is silent for good, while another one comes in its place."""
    with Browser(place, pictures) as browser:
        browser.enter("hal")
        browser.open("r", 1, "Nurikabe")
        browser.wall()
        place.kill_proxy()
        with silence(place.front) as (listener, held):
            browser.hand_in()
            browser.choose(2)
            sent = until(lambda: next((found[1] for it in held if (found := ANSWER.search(it))), None))
            want("an answer is sent to a machine that is silent", sent)
            listener.shutdown(socket.SHUT_RDWR)
            listener.close()
            place.start_proxy()
            want("and the answer goes again", until(lambda: len(place.answers("r", "hal")) == 1))
            got = [it["token"] for it in place.answers("r", "hal")]
            want("by the same token", got == [sent and sent.decode()], got, sent)
            want("while the first one is still held", any(ANSWER.search(it) for it in held))


def timeless(place, pictures, want):
    with Browser(place, pictures) as browser:
        browser.before_load(TIMELESS)
        browser.enter("fay")
        want("a page that isn't told the time says so", browser.shows("this computer's clock"))
        browser.open("r", 1, "Nurikabe")
        browser.wall()
        browser.hand_in()
        browser.choose(2)
        want("and hands in nevertheless", until(lambda: len(place.answers("r", "fay")) == 1))


def crowd(place, want):
    """Many loads of the page from one address don't count; the hall's own paths do."""
    line = http.client.HTTPConnection("127.0.0.1", place.front, timeout=60)

    def status(path):
        line.request("GET", path)
        told = line.getresponse()
        told.read()
        return told.status
    pages = {status(path) for _ in range(300) for path in ("/", "/page/main.js", "/page/board.js")}
    want("900 requests for the page from one address are answered", pages == {200}, pages)
    want("and the hall is still asked", status("/rounds") == 403)
    asked = next((k for k in range(3000) if status("/rounds") == 429), None)
    want("but not without end", asked, asked)
    line.close()


def behind_nginx(place, pictures, want):
    try:
        open(proxies.NGINX, "rb").close()
    except OSError:
        tell("page: not installed, so that it wasn't tried: nginx")
        return
    front = free_port()
    server = proxies.our_nginx(front, place.back, place.room)
    try:
        place.wait(front)
        with Browser(place, pictures) as browser:
            browser.enter("hal", f"http://127.0.0.1:{front}/")
            browser.go("#/r/r")
            want("behind nginx it is the same", browser.shows("Nurikabe"))
    finally:
        server.terminate()
        server.wait()
