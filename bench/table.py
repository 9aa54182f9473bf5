#!/usr/bin/env python3
"""Measures the table of a round of `hall replay`, where so many entrants have 50 answers each.

    python3 bench/table.py [PROGRAM] [--entrants N..]

PROGRAM is the built `hall`, by default the one in crates/hall/out. The round has 25 puzzles of 4 by 4, and each entrant
a wrong and a right answer to each of them; one entrant in ten has an upheld protest. A run is kept waiting between two
requests, so what one request alone takes is read from the process: the processor time of the first request, and the
least of nine that come after it, which find a table's copy; its memory is how far the first one drives the resident
memory over what it was before, so what an earlier request gave back is not counted. Beside it stands the listing of all
these answers, which holds each row.
The script checks that every reply is 200 and that the table has a line for each entrant.
"""
import argparse
import subprocess
import sys
import tempfile
import time

from lent import PROGRAM
from harness.database import RIGHT, SUDOKU, WRONG
from harness.wire import record, request

RUNS = 9
# Records sent at once: they and their replies fit the pipes.
BATCH = 150
BEFORE, START, END, CLOSE = 1777700000, 1777712400, 1777716000, 1777717800
STAFF = "name,key,roles\ndora,dora-key,director\nbob,bob-key-1,author\nrex,rex-key-1,referee\n"
PUZZLES = range(1, 26)
SHEET = """version = 1
title = "Morning"
start = "2026-05-02T09:00:00Z"
minutes = 60
protest_minutes = 30
mode = "instant"
penalty = 5
bonus = 2
"""


class Hall:
    """A running replay that is asked one request after another."""

    def __init__(self, program, people):
        words = [program, "replay", "--people", people]
        self.process = subprocess.Popen(words, stdin=subprocess.PIPE, stdout=subprocess.PIPE)

    def reply(self):
        """The body of the next reply."""
        status = self.process.stdout.readline()
        if not status.startswith(b"HTTP/1.1 200 "):
            self.process.kill()
            rest = self.process.stdout.read(200)
            sys.exit(f"a reply is {status + rest}")
        length = 0
        while (line := self.process.stdout.readline()) != b"\r\n":
            name, _, value = line.partition(b": ")
            if name == b"Content-Length":
                length = int(value)
        return self.process.stdout.read(length)

    def ask(self, records):
        """The bodies of the replies."""
        bodies = []
        for place in range(0, len(records), BATCH):
            batch = records[place : place + BATCH]
            self.process.stdin.write("".join(batch).encode())
            self.process.stdin.flush()
            bodies += [self.reply() for _ in batch]
        return bodies

    def seconds(self):
        """The processor time so far, once it waits for the next request."""
        time.sleep(0.002)
        with open(f"/proc/{self.process.pid}/schedstat", encoding="ascii") as file:
            return int(file.read().split()[0]) / 1e9

    def memory(self, field):
        """Kilobytes that are resident (VmRSS), or the most that were (VmHWM)."""
        with open(f"/proc/{self.process.pid}/status", encoding="ascii") as file:
            return next(int(line.split()[1]) for line in file if line.startswith(field))

    def forget_peak(self):
        """Begins the most that was resident anew."""
        with open(f"/proc/{self.process.pid}/clear_refs", "w", encoding="ascii") as file:
            file.write("5")

    def measure(self, asked):
        """The last body, the processor time of the first request and the least of the others, and the kilobytes that
        the first one takes more."""
        self.forget_peak()
        before, spent = self.memory("VmRSS"), self.seconds()
        body = self.ask([asked])[0]
        first = self.seconds() - spent
        grown = self.memory("VmHWM") - before
        least = None
        for _ in range(RUNS):
            spent = self.seconds()
            body = self.ask([asked])[0]
            spent = self.seconds() - spent
            least = spent if least is None else min(least, spent)
        return body, (first, least), grown

    def close(self):
        self.process.stdin.close()
        if self.process.wait():
            sys.exit(f"the replay ended with status {self.process.returncode}")


def staff_requests():
    """Puts and certifies the puzzles, and puts and releases the round."""
    sheet = SHEET
    for place in PUZZLES:
        path = f"/puzzles/bob/p{place}"
        yield record(BEFORE, request("bob-key-1", "PUT", path, '{"text":"%s"}' % SUDOKU))
        yield record(BEFORE, request("bob-key-1", "POST", f"{path}/certificate", '{"budget":200000}'))
        sheet += f'[[puzzle]]\nauthor = "bob"\nlabel = "p{place}"\npoints = 40\n'
    yield record(BEFORE, request("dora-key", "PUT", "/rounds/r1", sheet))
    yield record(BEFORE, request("dora-key", "POST", "/rounds/r1/release"))


def imports(entrants):
    """The entrants, in lists of 500."""
    for first in range(0, entrants, 500):
        lines = [f"entrant-{place},key-of-{place},entrant\n" for place in range(first, min(first + 500, entrants))]
        yield record(BEFORE, request("dora-key", "POST", "/people", "name,key,roles\n" + "".join(lines)))


def answers(entrants):
    """A wrong and a right answer of each entrant to each puzzle."""
    for place in range(entrants):
        for number in PUZZLES:
            for token, answer in [("a", WRONG), ("b", RIGHT)]:
                path = f"/rounds/r1/answers/{number}/{token}"
                moment = START + (place + number) % (END - START)
                yield record(moment, request(f"key-of-{place}", "PUT", path, '{"answer":"%s"}' % answer))


def protests(entrants):
    """A protest of one entrant in ten, each upheld."""
    for place in range(0, entrants, 10):
        body = '{"number":1,"text":"The third row is unclear."}'
        yield record(END, request(f"key-of-{place}", "PUT", "/rounds/r1/protests/w1", body))
        path = f"/rounds/r1/rulings/entrant-{place}/w1"
        yield record(END, request("rex-key-1", "PUT", path, '{"points":3,"upheld":true}'))


def measure(program, entrants):
    with tempfile.NamedTemporaryFile("w", suffix=".csv") as file:
        file.write(STAFF)
        file.flush()
        hall = Hall(program, file.name)
        for records in [staff_requests(), imports(entrants), answers(entrants), protests(entrants)]:
            hall.ask(list(records))
        hall.ask([record(CLOSE, request("dora-key", "POST", "/rounds/r1/publish"))])
        told = []
        for what in ["table", "answers"]:
            body, seconds, grown = hall.measure(record(CLOSE, request("dora-key", "GET", f"/rounds/r1/{what}")))
            rows = body.count(b"\n") if what == "table" else body.count(b'{"answer":')
            if rows != (entrants if what == "table" else entrants * 2 * len(PUZZLES)):
                sys.exit(f"the {what} of {entrants} entrants has {rows} rows")
            told.append(f"{what}: {1e3 * seconds[0]:9.2f} ms, then {1e3 * seconds[1]:9.2f} ms, {grown:7} kB more")
        resident = hall.memory("VmRSS")
        hall.close()
    print(f"{entrants:5} entrants   {'   '.join(told)}   resident at the end: {resident} kB", flush=True)


def main():
    parser = argparse.ArgumentParser(description=__doc__, formatter_class=argparse.RawDescriptionHelpFormatter)
    parser.add_argument("program", nargs="?", default=PROGRAM)
    parser.add_argument("--entrants", type=int, nargs="+", default=[100, 1000, 5000], metavar="N")
    args = parser.parse_args()
    for entrants in args.entrants:
        measure(args.program, entrants)


if __name__ == "__main__":
    main()
