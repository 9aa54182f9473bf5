"""Plays a small round from its list to its table, against a hall of its own on a spare port: what a director will do on
the day, with the replies."""
import contextlib
import io
import os
import tempfile
import time
from pathlib import Path

from . import told
from .local_hall import program, run, serving, spare_port
from .printing import sheet_moment
from .wire import Hall

PEOPLE = [("dora", "director"), ("bob", "author"), ("rex", "referee"), ("eve", "entrant"), ("fay", "entrant")]
PUZZLES = [("p1", "sudoku/4/4/123434122143432g", 40), ("p2", "https://puzz.link/p?slitherlink/v:/2/2/222c", 30)]
RIGHT, WRONG, LOOP = "1234341221434321", "1234341221434312", "110011/101101"
# Fay: 40 and 30. Eve: 40 less a penalty of 5, and 3 points of a protest. Nobody has a whole minute left.
TABLE = [{"rank": 1, "name": "fay", "total": 70}, {"rank": 2, "name": "eve", "total": 38}]
BEFORE, MINUTE = 10, 60


def sheet(start):
    puzzles = "".join(f'[[puzzle]]\nauthor = "bob"\nlabel = "{label}"\npoints = {points}\n'
                      for label, _, points in PUZZLES)
    return (f'version = 1\ntitle = "Rehearsal"\nstart = "{sheet_moment(start)}"\nminutes = 1\nprotest_minutes = 1\n'
            f'mode = "instant"\npenalty = 5\nbonus = 2\n{puzzles}')


class Rehearsal:
    """A rehearsal: its folder, its hall, and how many steps went otherwise than they should."""

    def __init__(self, room, url, call, out):
        self.room, self.url, self.call, self.out, self.wrong = room, url, call, out, 0

    def key(self, name):
        return f"rehearsal-{name}"

    def say(self, *lines):
        self.out.say(*lines)

    def hallctl(self, name, *words):
        """Runs a command as this person would."""
        path = f"{self.room}/{name}.key"
        if not os.path.exists(path):
            Path(path).touch(mode=0o600)
            Path(path).write_text(self.key(name), encoding="ascii")
        self.say("", f"{name}$ hallctl {' '.join(words)}")
        with contextlib.redirect_stdout(io.StringIO()) if self.out.is_json else contextlib.nullcontext():
            status = self.call(["--url", self.url, "--key-file", path, *words])
        if status != told.DONE:
            self.wrong += 1
            self.say(f"This ended with {status} and not with 0.")

    def entrant(self, name, path, body, wanted):
        """Sends an entrant's request, which the page or another client sends on the day."""
        reply = Hall(self.url, self.key(name)).put(path, body)
        self.say("", f"{name}, by the page: {path}", f"{reply}")
        if reply != wanted:
            self.wrong += 1
            self.say(f"This should have been {wanted}.")

    def wait(self, moment, what):
        self.say("", f"(waiting for {what}, {max(0, moment - time.time()):.0f} s)")
        time.sleep(max(0.0, moment - time.time()) + 0.3)

    def before(self):
        """What is done before the start, which is reckoned once the puzzles are ready, however long they took."""
        for label, text, _ in PUZZLES:
            self.hallctl("bob", "puzzle", "put", f"bob/{label}", text)
        self.hallctl("bob", "puzzle", "certify", "bob/p1", "bob/p2")
        start = int(time.time()) + BEFORE
        Path(f"{self.room}/noon.toml").write_text(sheet(start), encoding="ascii")
        self.hallctl("dora", "round", "put", "noon", f"{self.room}/noon.toml")
        self.hallctl("dora", "--yes", "round", "release", "noon")
        return start

    def running(self):
        """What is done while the round runs."""
        at = "/rounds/noon/answers"
        self.entrant("eve", f"{at}/1/first", {"answer": WRONG}, {"received": 1, "verdict": "wrong U2 U4"})
        self.entrant("eve", f"{at}/1/second", {"answer": RIGHT}, {"received": 2, "verdict": "right"})
        self.entrant("fay", f"{at}/1/mine", {"answer": RIGHT}, {"received": 1, "verdict": "right"})
        self.entrant("fay", f"{at}/2/loop", {"answer": LOOP}, {"received": 1, "verdict": "right"})
        self.hallctl("dora", "answers", "noon")

    def after(self, close):
        """What is done from the end on."""
        body = {"number": 1, "text": "The third row is unclear."}
        self.entrant("eve", "/rounds/noon/protests/why", body, {"protest": "why"})
        self.hallctl("rex", "protests", "noon")
        self.hallctl("rex", "--yes", "rule", "noon", "eve", "why", "upheld", "--points", "3")
        self.wait(close, "the close")
        self.hallctl("dora", "--yes", "publish", "noon")
        self.hallctl("dora", "table", "noon")
        self.hallctl("dora", "archive", f"{self.room}/archive")

    def play(self):
        start = self.before()
        # Past the first second, so that nobody has a whole minute left.
        self.wait(start + 1, "the start")
        self.running()
        self.wait(start + MINUTE, "the end")
        self.after(start + 2 * MINUTE)
        lines = Hall(self.url, None).done("GET", "/rounds/noon/table").body.decode().split()
        if lines != [str(value) for it in TABLE for value in it.values()]:
            self.wrong += 1


def rehearse(args, _, out, call):
    """Plays it; `call` runs a command of hallctl."""
    path, port = program(args.program), args.port or spare_port()
    with tempfile.TemporaryDirectory(prefix="hallctl-rehearsal-") as room:
        people = [f"{name},rehearsal-{name},{role}\n" for name, role in PEOPLE]
        Path(f"{room}/people.csv").write_text("name,key,roles\n" + "".join(people), encoding="ascii")
        run(path, ["init", "--db", f"{room}/hall.db", "--people", f"{room}/people.csv"])
        out.say(f"A hall in {room} on port {port}; both go at the end. This takes a little over two minutes.")
        with serving(path, f"{room}/hall.db", port):
            it = Rehearsal(room, f"http://127.0.0.1:{port}", call, out)
            it.play()
    ended = "The rehearsal went as it should." if not it.wrong else f"Steps that went otherwise: {it.wrong}."
    out.say("", ended)
    out.value({"wrong": it.wrong})
    return told.OTHERWISE if it.wrong else told.DONE
