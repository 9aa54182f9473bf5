"""Two machines that serve one hall by turns, and what its people reach of them: HAProxy on this system, with
haproxy.cfg and between.cfg, as on the machine that docs/SECOND.md puts before both; hallctl, and entrants who ask as it
does."""
import contextlib
import json
import os
import random
import sqlite3
import subprocess
import sys
import threading
import time
from typing import NamedTuple

from harness import proxies
from harness.checks import check, must_be
from harness.pair import Served, text_of, written
from harness.running import ROOT, free_port, wait_for, with_people
from harness.volume import waited

sys.path.append(f"{ROOT}/clients/hallctl")
from hall_client.wire import Hall, NoReply, Refused, as_json  # noqa: E402

HALLCTL = f"{ROOT}/clients/hallctl/hallctl"
OTHER = {"one": "two", "two": "one"}
# So many answers to a puzzle the hall takes of an entrant.
MOST = 50


class Place:
    def __init__(self, volume, program, room, director):
        self.volume, self.program, self.room, self.copies = volume, program, room, 0
        self.front, between = free_port(), free_port()
        self.url = f"http://127.0.0.1:{self.front}/"
        first = written(f"{room}/first.csv", director)
        self.pair = Served(volume, program, with_people(program, f"{room}/hall.db", first), volume.switch.plug())
        self.serves = "one"
        text = text_of("between.cfg").replace("127.0.0.1:8080", f"127.0.0.1:{between}")
        for number, name in enumerate(OTHER, 1):
            text = text.replace(f"192.0.2.{number}:8080", f"{volume[name].address}:80")
        self.proxy = proxies.our_haproxy(self.front, between, room, more=[written(f"{room}/between.cfg", text)])

    def __enter__(self):
        wait_for(self.front)
        return self

    def __exit__(self, *_):
        self.proxy.kill()
        self.proxy.wait()

    # --- hallctl

    def begun(self, who, *words):
        """hallctl as it runs, under somebody's key."""
        key = f"{self.room}/{who}.key"
        with open(os.open(key, os.O_WRONLY | os.O_CREAT | os.O_TRUNC, 0o600), "w", encoding="ascii") as file:
            file.write(f"{who}-key-1\n")
        words = [sys.executable, HALLCTL, "--url", self.url, "--key-file", key, "--yes", *words]
        return subprocess.Popen(words, stdout=subprocess.PIPE, stderr=subprocess.PIPE, text=True, cwd=self.room)

    def ended(self, it, name):
        out, beside = it.communicate(timeout=400)
        must_be(f"hallctl {name}", (it.returncode, beside if it.returncode else ""), (0, ""))
        return out

    def hallctl(self, who, *words):
        """What it writes."""
        return self.ended(self.begun(who, *words), " ".join(words))

    def data(self, who, *words):
        return json.loads(self.hallctl(who, "--json", *words))

    # --- the machines

    def hall_of(self, name):
        """The process that a machine's unit runs, as that machine counts it."""
        with open(f"{self.volume[name].folder}/pid", encoding="ascii") as file:
            return int(file.read())

    def lives(self, name, pid):
        return self.volume[name].run("kill", "-0", str(pid)).returncode == 0

    def asked(self, name, path, *words):
        """The status of a request that is made on a machine itself, past the proxy; 0 where none came in 4 seconds."""
        told = self.volume[name].run("curl", "-s", "-o", "/dev/null", "-w", "%{http_code}", "-m", "4", *words,
                                     f"http://127.0.0.1:8080{path}")
        return int(told.stdout or 0)

    def copied(self):
        """A copy of the file, which the machine that serves makes by backup.sh while it serves."""
        self.copies += 1
        folder = f"{self.room}/copy{self.copies}"
        words = [f"{ROOT}/examples/running/backup.sh", self.pair.path(self.serves), folder, self.program]
        made = self.volume[self.serves].run(*words)
        must_be("a copy is made", (made.returncode, made.stderr if made.returncode else ""), (0, ""))
        return f"{folder}/hall.db"

    def earlier(self, seconds):
        """Rewrites the file while nobody serves it, as if the rounds had begun and answers come so much earlier."""
        name, path = self.serves, f"{self.room}/earlier.db"
        machine, own = self.volume[name], self.pair.path(name)
        machine.end_unit()
        waited("nobody has the file", lambda: machine.run(self.program, "check", "--db", own).returncode != 3)
        for ending in ("", "-wal"):
            machine.run("sh", "-c", f"if [ -e {own}{ending} ]; then cp {own}{ending} {path}{ending}; fi", check=True)
        with contextlib.closing(sqlite3.connect(path)) as rows, rows:
            rows.execute("update rounds set start = start - ?", (seconds,))
            rows.execute("update answers set moment = moment - ?", (seconds,))
        machine.run("sh", "-c", f"rm -f {own}-wal && cp {path} {own}", check=True)
        self.pair.begin_hall(name)
        waited("it serves again", lambda: self.asked(name, "/rounds") == 403)


class Told(NamedTuple):
    """What an entrant was told of an answer, after how long, and the moment."""
    name: str
    number: int
    token: str
    n: int
    body: bytes
    took: float
    moment: float
    tries: int


class Steady(threading.Thread):
    """Hands in a wrong answer each `pause` seconds or so while `going` is set, each until it is taken, as hallctl asks.
    `said` are the moments at which it said that it asks again."""

    def __init__(self, url, name, wrong, going, over):
        super().__init__(daemon=True)
        self.told, self.said, self.fault, self.waits, self.pause = [], [], None, False, 1
        self.hall = Hall(url, f"{name}-key-1", say=lambda _: self.said.append(time.time()))
        self.name_of, self.wrong, self.going, self.over = name, wrong, going, over
        self.start()

    def run(self):
        while not self.over.wait(self.pause * random.uniform(0.7, 1.3)):
            if self.going.is_set() and len(self.told) < MOST * len(self.wrong):
                self.waits = True
                try:
                    self.hand_in(len(self.told))
                except (NoReply, Refused, ValueError, KeyError) as fault:
                    self.fault = f"{self.name_of}: {fault!r}"
                    return
                self.waits = False

    def asked(self, number, token):
        return self.hall.done("PUT", f"/rounds/day/answers/{number}/{token}", as_json({"answer": self.wrong[number]}))

    def hand_in(self, place):
        number, token, began = place % len(self.wrong) + 1, f"s{place}", time.time()
        got = self.asked(number, token)
        now = time.time()
        self.told.append(Told(self.name_of, number, token, got.data()["received"], got.body, now - began, now,
                              got.tries))

    def again(self):
        """How many of the answers that were told are told in other words, when they are sent once more."""
        return sum(self.asked(it.number, it.token).body != it.body for it in self.told)


def rows_of(path):
    """The answers of a file: whose, place, token, `n`, text."""
    with contextlib.closing(sqlite3.connect(path)) as conn:
        check("SQLite's own check", conn.execute("PRAGMA integrity_check").fetchall(), [("ok",)])
        return conn.execute("SELECT entrant, number, token, n, answer FROM answers WHERE round = 'day'").fetchall()
