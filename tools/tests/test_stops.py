"""The built program is stopped at each call that writes, and its files and streams fail, by a library (devices.c)
before the C library.

Asked so are `init`, `table` and `migrate`, each in the ways that it may end, and `serve` with each of the nine actions
that write. At a call that writes to a file or a stream the process is killed: before the call, in the midst of it, and
with all lost that wasn't synced. Then the file is opened by SQLite's own library and by the program, and holds the
world before or after each request; after it where that was answered. Or the call fails, once or for good, for a full
disk too, or moves one byte: then a reply is the usual one or 503, and what was answered is kept. The gate asks some of
the calls (EACH), --all asks each, --every N one in so many of those that the gate asks.
"""
import os
import socket
import sqlite3
import time

import pytest
from harness.checks import Ways
from harness.commands import KILLED, ask_commands, commands
from harness.database import SUDOKU
from harness.running import PATIENCE, PEOPLE, Beside, bytes_of, connected, content_of, copied, is_whole, read_off
from harness.running import serving, told
from harness.wire import request

# What is done at a call, which calls count, and of how many calls the gate changes one.
EACH = [
    ("end", "wfs", 3), ("lose", "wfs", 3), ("torn", "wfs", 7), ("fail", "wf", 7), ("fail", "rf", 11),
    ("dead", "rwf", 11), ("full", "wf", 11), ("fail", "rws", 7), ("short", "rwfs", 13),
]
MOST = 100_000
OTHER, MANY = "sudoku/4/4/123434122143g32g", "sudoku/4/4/v"

# A round that runs, one whose protests are taken and one that may be published; {now} is the moment.
ROUNDS = f"""
INSERT INTO puzzles VALUES ('bob', 'p1', '{SUDOKU}', 1, '1234341221434321'),
    ('bob', 'p2', '{OTHER}', 1, '1234341221434321'), ('ada', 'q1', 'nurikabe/2/2/1i', 1, '.###');
INSERT INTO rounds VALUES ('run', 'Run', {{now}} - 600, 60, 30, 0, 5, 2, 1, 0),
    ('over', 'Over', {{now}} - 4200, 60, 60, 1, 0, 0, 1, 0), ('done', 'Done', {{now}} - 7200, 60, 30, 0, 5, 2, 1, 0);
INSERT INTO round_puzzles VALUES ('run', 1, 'bob', 'p1', 40), ('over', 1, 'bob', 'p2', 30),
    ('done', 1, 'ada', 'q1', 20);
INSERT INTO answers VALUES ('eve', 'done', 1, 'a', 1, {{now}} - 7000, '.###', 0);
INSERT INTO protests VALUES ('eve', 'done', 'w0', 1, 'unclear', 0, 0);
"""
SHEET = """version = 3
title = "{title}"
start = "2099-05-02T09:00:00"
zone = "UTC0"
minutes = 60
protest_minutes = 30
mode = "instant"
penalty = 5
bonus = 2
testers = {testers}
puzzle = [{puzzles}]
"""
PLACE = '{{author = "bob", label = "{}", points = 40}}'.format
DRAFT = SHEET.format(title="Draft", testers='["fay", "rex"]', puzzles=f"{PLACE('p3')}, {PLACE('p1')}")
FINAL = SHEET.format(title="Final", testers='["fay"]', puzzles=PLACE("p3"))
RIGHT, WRONG = '{"answer":"1234341221434321"}', '{"answer":"1234341221434312"}'
# Each of the nine actions that write, and some of them over what stands there already.
STEPS = [
    ("dora-key", "POST", "/people", "name,key,roles\nhal,hal-key-1,entrant\nivy,ivy-key-1,entrant\n", '{"added":2}'),
    ("bob-key-1", "PUT", "/puzzles/bob/p3", f'{{"text":"{MANY}"}}', f'{{"state":"new","text":"{MANY}"}}'),
    ("bob-key-1", "PUT", "/puzzles/bob/p3", f'{{"text":"{SUDOKU}"}}', f'{{"state":"new","text":"{SUDOKU}"}}'),
    ("bob-key-1", "POST", "/puzzles/bob/p3/certificate", '{"budget":200000}', '{"state":"one"}'),
    ("dora-key", "PUT", "/rounds/new", DRAFT, '{"round":"new"}'),
    ("dora-key", "PUT", "/rounds/new", FINAL, '{"round":"new"}'),
    ("dora-key", "POST", "/rounds/new/release", "", '{"released":"new"}'),
    ("eve-key-1", "PUT", "/rounds/run/answers/1/k1", WRONG, '{"received":1,"verdict":"wrong U2 U4"}'),
    ("eve-key-1", "PUT", "/rounds/run/answers/1/k2", RIGHT, '{"received":2,"verdict":"right"}'),
    ("eve-key-1", "PUT", "/rounds/run/protests/w1", '{"number":1,"text":"early"}', '{"denied":9}'),
    ("fay-key-1", "PUT", "/rounds/over/protests/w1", '{"number":1,"text":"unclear"}', '{"protest":"w1"}'),
    ("rex-key-1", "PUT", "/rounds/done/rulings/eve/w0", '{"points":3,"upheld":true}', '{"points":3,"ruled":"upheld"}'),
    ("dora-key", "POST", "/rounds/done/publish", "", '{"published":"done"}'),
]
NOTHING = ("dora-key", "GET", "/nothing", "", '{"form":"F6"}')
UNAVAILABLE = '{"fault":"hall"}'


def world_in(path):
    """What the file holds, without the moments of answers."""
    found = content_of(path)
    return found | {"answers": sorted((*row[:5], *row[6:]) for row in found.get("answers", []))}


class Session:
    """A server that is asked all steps, and then how it is."""

    def __init__(self, program, room):
        self.program, self.first = program, f"{room}/first.db"
        self.path, self.other = f"{room}/served.db", f"{room}/other.db"
        program.run(["init", "--db", self.first, "--people", PEOPLE])
        conn = sqlite3.connect(self.first)
        conn.executescript(ROUNDS.format(now=int(time.time())))
        conn.close()
        self.usual = self.run(0)
        self.worlds = {frozenset(): (self.usual[0], world_in(self.path))}

    def run(self, number, left_out=(), path=None):
        """The replies to the steps, each over a connection of its own, and to a last client; the server's status."""
        asked = [NOTHING if place in left_out else step for place, step in enumerate(STEPS)] + [NOTHING]
        path, env = copied(self.first, path or self.path), self.program.env(number)
        with serving(path, len(asked), self.program.path, env) as it:
            bodies = [self.told(*it, step) for step in asked]
            return bodies, it[0].wait(PATIENCE)

    def told(self, server, port, step):
        """The body of the reply; None where none came whole."""
        client = connected(server, port)
        if client is None:
            return None
        with client:
            try:
                client.sendall(request(*step[:4]).encode())
                client.shutdown(socket.SHUT_WR)
            except OSError:
                pass
            reply = read_off(client)
        return told(reply)[1] if is_whole(reply) else None

    def world_without(self, left_out):
        """The replies and the world where these steps aren't asked."""
        if left_out not in self.worlds:
            bodies, _ = self.run(0, left_out, self.other)
            self.worlds[left_out] = bodies, world_in(self.other)
        return self.worlds[left_out]

    def placed(self, bodies):
        return enumerate(bodies[:-1])

    def is_without(self, bodies, left, refused, left_out):
        """Whether this is what is told and left where these steps weren't asked."""
        others, world = self.world_without(left_out)
        return left == world and all(place in refused or body == others[place] for place, body in self.placed(bodies))

    def way(self, got):
        """How the run ended: the steps without a reply weren't made, but for the first of them, which may have been."""
        bodies, status = got
        goes_on = bodies[-1] == NOTHING[-1] or "s" in self.program.told["DEVICE_WHICH"]
        if status not in (0, 3, KILLED) or status == 0 and not goes_on:
            return None
        if status and not any(bodies) and bytes_of(self.path) == bytes_of(self.first):
            return "ended before any write"
        left = world_in(self.path)
        if not self.opens_with(left):
            return None
        refused = frozenset(place for place, body in self.placed(bodies) if body in (None, UNAVAILABLE))
        how = {KILLED: "killed", 3: "ended", 0: "503" if UNAVAILABLE in bodies else "hung up"}[status]
        if self.is_without(bodies, left, refused, refused):
            return f"{how}, and a request wasn't made" if refused else "as usual"
        made = refused - {min(refused, default=None)}
        return f"{how}, and a request was made" if self.is_without(bodies, left, refused, made) else None

    def opens_with(self, left):
        """Whether the program opens what is left, and finds in it what SQLite's own library did."""
        got = self.program.run(["init", "--db", self.path, "--people", PEOPLE])
        return got == (b"added 0\n", 0) and world_in(self.path) == left

    def change_each(self, numbers, ways):
        """Changes these calls in turn, to the first that isn't made."""
        if self.usual != ([body for *_, body in [*STEPS, NOTHING]], 0):
            ways.add(None, "with no call changed", self.usual)
        for number in numbers:
            got = self.run(number)
            if not self.program.was_met():
                break
            ways.add(self.way(got), number, got)


@pytest.fixture(params=EACH, ids=lambda it: f"{it[0]}-{it[1]}")
def changed(request, program, room):
    """The program with the calls that are changed, and one in how many of them is."""
    how, which, step = request.param
    step = 1 if request.config.option.all else step * request.config.option.every
    return Beside(program, room, "devices", DEVICE_HOW=how, DEVICE_WHICH=which), step, f"{how} {which}"


def test_commands(changed, room):
    beside, step, what = changed
    os.mkdir(f"{room}/files")
    ways = Ways(f"{what}, commands")
    asked = commands(beside, f"{room}/files")
    ask_commands(asked, beside, f"{room}/files", lambda place: range(1 + place % step, MOST, step), ways)
    ways.end()


def test_a_served_file(changed, room):
    beside, step, what = changed
    ways = Ways(f"{what}, a served file")
    Session(beside, room).change_each(range(1, MOST, step), ways)
    ways.end()
