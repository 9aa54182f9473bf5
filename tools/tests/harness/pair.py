"""Two machines with a volume of GlusterFS, one of which serves, as examples/running/pair sets them up; and its
crowds."""
import contextlib
import json
import os
import sqlite3
import sys
import time

import pytest

from . import machines, running
from .checks import check, must_be, need
from .volume import waited

PAIR = f"{running.ROOT}/examples/running/pair"


def text_of(name):
    with open(f"{PAIR}/{name}", encoding="ascii") as file:
        return file.read()


def written(path, text):
    with open(path, "w", encoding="ascii") as file:
        file.write(text)
    return path


def need_parts():
    """Skips the test where a volume of GlusterFS can't be made."""
    need("glusterd", "gluster", "glusterfs", "haproxy", "curl", "pgrep", *machines.NEEDED)
    if not os.path.exists("/dev/fuse") or not machines.can_be_made():
        pytest.skip("only root can make machines, where the system lets it and has /dev/fuse")


class Served:
    """A hall that is served from a volume by `one`, while `two` waits for its lock; and its crowds."""

    def __init__(self, volume, program, db, before=None):
        """`before` is the address of who reaches both; where there is none, a machine `outside` is added for that."""
        self.volume, self.program, self.journals, self.places = volume, program, [], {}
        for name in ("one", "two"):
            self.mount(name)
        self.outside = None if before else volume.switch.add("outside")
        self.before = before or self.outside.address
        volume["one"].run("sh", "-c", f"cp {db}* {self.places['one']}", check=True)
        self.begin("one")
        waited("one serves", lambda: self.answers("one"))
        self.begin("two")

    def mount(self, name):
        self.places[name] = self.volume.mount(name)
        waited("a mount speaks to all copies", lambda: self.volume.is_linked(name))

    def path(self, name):
        return f"{self.places[name]}/hall.db"

    def begin(self, name):
        """The hall as its unit begins it, and a way to it from outside."""
        self.begin_hall(name)
        machine = self.volume[name]
        front = text_of("behind.cfg").replace("192.0.2.1:8080", f"{machine.address}:80")
        front = front.replace("192.0.2.3", self.before).replace("    user haproxy\n    group haproxy\n", "")
        machine.begin("haproxy.log", "haproxy", "-db", "-f", written(f"{machine.folder}/behind.cfg", front))

    def begin_hall(self, name):
        words = (self.program, "serve", "--db", self.path(name), "--port", "8080")
        self.volume[name].begin_unit("hall.log", *words)

    def back(self, name):
        """A machine that died is started again, and healed: how long that took after its start."""
        began = time.monotonic()
        self.volume[name].boot()
        self.volume.begin_glusterd(self.volume[name])
        healed = self.volume.healed()
        # A mount that was made before its own machine's copy was up once didn't speak to all three in two minutes.
        self.mount(name)
        self.begin(name)
        return f"{time.monotonic() - began:.0f} s, of which healing took {healed}"

    def answers(self, name):
        asked = ("curl", "-s", "-o", "/dev/null", "-m", "5", "http://127.0.0.1:8080/rounds")
        return self.volume[name].run(*asked).returncode == 0

    def crowd(self, machine, seconds, first, *addresses, whom=0):
        """Ten entrants on a machine, from this one on, who write down what they are told."""
        self.journals.append(f"{machine.folder}/journal{first}")
        words = [sys.executable, f"{running.HERE}/crowd.py", str(seconds), str(whom), str(first), self.journals[-1]]
        return machine.begin("crowd.log", *words, *addresses)

    def outer(self, seconds):
        """Entrants outside, who ask whoever answers."""
        return self.crowd(self.outside, seconds, 0, *(self.volume[it].address for it in ("one", "two")))

    def told(self, journal):
        """The answers that were taken, as entrants were told: whose, place, token, `n`, and the moment."""
        with open(journal, encoding="ascii") as file:
            return [(who, place, token, n, moment) for who, place, token, moment, n in map(json.loads, file)]

    def end(self):
        """Ends both halls, and waits until nobody has the file."""
        for name in self.places:
            if self.volume[name].first.poll() is None:
                self.volume[name].end_unit()
        waited("nobody has the file", lambda: "open: end it" not in self.checked("two").stderr)

    def checked(self, name):
        """`hall check` of the file, as this machine sees it."""
        return self.volume[name].run(self.program, "check", "--db", self.path(name))

    def stands(self, name):
        """The answers that stand in the file, as this machine sees it: whose, place, token, `n`."""
        room = self.volume.switch.room
        self.volume[name].run("sh", "-c", f"rm -f {room}/hall.db*; cp {self.path(name)}* {room}", check=True)
        with contextlib.closing(sqlite3.connect(f"{room}/hall.db")) as conn:
            return conn.execute("SELECT entrant, number, token, n FROM answers WHERE round = 'now'").fetchall()

    def all_told(self):
        """All that entrants were told, without the moments."""
        told = {it[:4] for journal in self.journals for it in self.told(journal)}
        must_be("whether entrants were told anything", bool(told), True)
        return told

    def lost(self):
        """How many answers were told and don't stand, once both halls are ended; it sees too that none stands twice."""
        self.end()
        check("hall check", self.checked("two").returncode, 0)
        rows, told = self.stands("two"), self.all_told()
        must_be("answers that stand twice", len(rows) - len({it[:3] for it in rows}), 0)
        return len(told - set(rows)), len(told)


def after(told, moment):
    """How long after a moment the first of these was told."""
    return min((it[4] - moment for it in told if it[4] > moment + 0.3), default=None)
