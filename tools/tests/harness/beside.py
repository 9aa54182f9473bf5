"""Entrants who read a round and hand in answers beside a long request, and how long each of their requests waits.

With the hall that they ask: its people, rounds and puzzles. A wait is told in seconds, and in seconds of a processor
that the hall worked meanwhile: the second says little of how busy the machine was.
"""
import asyncio
import contextlib
import time
from typing import NamedTuple

from . import database
from .clients import Client, body, scheduled, status
from .database import RIGHT
from .running import ROOT
from .wire import compact, request

ENTRANTS, AUTHORS, PUZZLES = 20, 9, 25
ROUND, DIRECTOR = "now", "dora-key"
# How long an entrant pauses after a reply, and when it gives up waiting for one.
PAUSE, PATIENCE = 0.02, 10
# A hall ends a connection after 1,000 requests, and takes 50 answers to a puzzle.
MOST_ASKED, MOST_ANSWERS = 900, 50
# A search of it gives up, after as many visits as it may make.
HARD = "nurikabe/31/31/zzzy-26zzzzzu-26zzzzq-26zzzzzzzi-26s-26zi-26zzzzzzzn-26n-26zzm-26zm-26zzzzzzzzzzzzw"


def hard(number):
    """Such a puzzle for each number below 16: its last clue but some is another."""
    return HARD.replace("-26zm-26", f"-26zm-2{number:x}")


def board(name):
    """A board of bench/waits.txt, whose search takes long."""
    with open(f"{ROOT}/bench/waits.txt", encoding="ascii") as file:
        return dict(line.split() for line in file)[name]


def real(name, place):
    """A board of bench/real."""
    with open(f"{ROOT}/bench/real/{name}.txt", encoding="ascii") as file:
        return file.read().split()[place]


def author(number):
    return f"author-key-{number}"


def entrant(number):
    return f"entrant-key-{number}"


def written(path, puzzles, *scripts):
    """A file with a round that runs now, its entrants and authors, and these puzzles (author's number, label, text) of
    which no search was made."""
    now = int(time.time())
    people = [("dora", DIRECTOR, 1), ("bob", "bob-key-1", 2)]
    people += [(f"a{k}", author(k), 2) for k in range(AUTHORS)] + [(f"e{k}", entrant(k), 8) for k in range(ENTRANTS)]
    rows = [("people", row) for row in people]
    rows += [("puzzles", ("bob", f"p{k}", database.SUDOKU, 1, RIGHT)) for k in range(1, PUZZLES + 1)]
    rows += [("puzzles", (f"a{number}", label, text, 0, "")) for number, label, text in puzzles]
    rows += [("rounds", (ROUND, "Now", now - 600, 1440, 0, 0, 5, 2, 1, 0))]
    rows += [("round_puzzles", (ROUND, k, "bob", f"p{k}", 40)) for k in range(1, PUZZLES + 1)]
    made = "".join(f"INSERT INTO {table} VALUES {row};" for table, row in rows)
    return database.written(path, database.TABLES, made, *scripts)


def read_round(number):
    return request(entrant(number), "GET", f"/rounds/{ROUND}").encode()


def submit(number, place, token, answer=RIGHT, of=ROUND):
    asked = compact({"answer": answer})
    return request(entrant(number), "PUT", f"/rounds/{of}/answers/{place}/{token}", asked).encode()


def certify(number, label, budget, key=None):
    path = f"/puzzles/a{number}/{label}/certificate"
    return request(key or author(number), "POST", path, '{"budget":%d}' % budget).encode()


async def told(client, sent, patience=PATIENCE):
    """(status, body) of the reply; (0, b"") where none came whole in so many seconds."""
    await client.send(sent)
    try:
        reply = await asyncio.wait_for(client.reply(), patience)
    except TimeoutError:
        return 0, b""
    return status(reply), body(reply)


def processor_time(pid):
    """The seconds of a processor that a process has taken."""
    return scheduled(pid)[0]


class Wait(NamedTuple):
    """Of a request: when it was sent, how long it took until its reply was whole, and how long the hall worked then."""
    since: float
    took: float
    worked: float


class Entrants:
    """Entrants each of whom asks one request after another, in turn a ReadRound and a Submit of a further answer."""

    def __init__(self, port, hall, patience=PATIENCE):
        self.port, self.hall, self.patience = port, hall, patience
        self.over, self.answers, self.waits, self.faults = False, 0, [], []
        self.handed_in = [0] * ENTRANTS

    def asked(self, number, turn):
        """A request, and what is answered: of a ReadRound nothing is looked at but its status."""
        done = self.handed_in[number]
        if turn % 2 or done == PUZZLES * MOST_ANSWERS:
            return read_round(number), None
        self.handed_in[number] += 1
        n, place = divmod(done, PUZZLES)
        want = compact({"received": n + 1, "verdict": "right"}).encode()
        return submit(number, place + 1, f"t{n}"), want

    async def ask(self, client, number, turn):
        """Whether it was answered, and rightly."""
        sent, want = self.asked(number, turn)
        before = processor_time(self.hall)
        got, reply = await told(client, sent, self.patience)
        self.waits.append(Wait(client.since, client.took(), processor_time(self.hall) - before))
        self.answers += got == 200 and want is not None
        if got != 200 or want not in (None, reply):
            self.faults.append((got, reply or "no reply"))
        return got == 200

    async def one(self, number):
        while not self.over:
            async with Client(self.port) as client:
                for turn in range(MOST_ASKED):
                    if self.over:
                        break
                    if not await self.ask(client, number, turn):
                        return
                    await asyncio.sleep(PAUSE)

    @contextlib.asynccontextmanager
    async def asking(self):
        """They ask as long as the block lasts; what was measured before is forgotten."""
        self.over, self.waits, self.faults = False, [], []
        tasks = [asyncio.create_task(self.one(number)) for number in range(ENTRANTS)]
        try:
            yield self
        finally:
            self.over = True
            await asyncio.gather(*tasks)

    def waits_beside(self, begun, ended):
        """Those of the requests that were under way at some moment between these two."""
        return [it for it in self.waits if it.since < ended and it.since + it.took > begun]


def within(times, part):
    """Within which time this part of them is."""
    return sorted(times)[min(len(times) - 1, int(len(times) * part))] if times else 0.0


def line(waits):
    def of(times):
        return " / ".join(f"{1e3 * within(times, part):6.1f}" for part in (0.5, 0.99, 1))

    return (f"{len(waits):6,} requests: waited {of([it.took for it in waits])} ms, "
            f"the hall worked {of([it.worked for it in waits])} ms")
