#!/usr/bin/env python3
"""Measures imports and listings of `hall replay`: lists of people, listings of puzzles and of rounds.

    python3 bench/lists.py [PROGRAM]

PROGRAM is the built `hall`, by default the one in crates/hall/out. Each is measured at a tenth of its size and at all
of it; the time is the processor time of a run with what is measured, less that of a run without it: the least of nine
runs of each.
An import is by `--people`, into an empty world, and then by the same list's requests in parts, which add nobody. The
script checks that all replies are as wanted.
"""
import resource
import subprocess
import sys
import tempfile

from lent import PROGRAM
from harness.wire import record, replies, request

RUNS = 9
MOMENT = 1777700000
HEAD = "name,key,roles\n"
STAFF = ["dora,dora-key,director\n", "ada,ada-key-1,author+entrant\n"]
SHEET = """version = 1
title = "Morning"
start = "2026-05-02T09:00:00Z"
minutes = 60
protest_minutes = 30
mode = "instant"
penalty = 5
bonus = 2
[[puzzle]]
author = "ada"
label = "p0"
points = 40
"""


def people(count):
    """Entrants, so many people with the staff."""
    return [f"entrant-{place},key-of-{place},entrant\n" for place in range(count - len(STAFF))]


def run(program, lines, records):
    """The replies that are written, and the seconds of processor time."""
    with tempfile.NamedTemporaryFile("w", suffix=".csv") as file:
        file.write(HEAD + "".join(lines))
        file.flush()
        before = resource.getrusage(resource.RUSAGE_CHILDREN)
        words = [program, "replay", "--people", file.name]
        done = subprocess.run(words, input="".join(records).encode(), capture_output=True, check=False)
        after = resource.getrusage(resource.RUSAGE_CHILDREN)
    if done.returncode:
        sys.exit(f"the replay ended with status {done.returncode}")
    return replies(done.stdout), after.ru_utime + after.ru_stime - before.ru_utime - before.ru_stime


def spent(program, lines, records, status=b"HTTP/1.1 200 "):
    """The least time of such a run."""
    least = None
    for _ in range(RUNS):
        written, time = run(program, lines, records)
        wrong = [reply for reply in written if not reply.startswith(status)]
        if wrong or len(written) != len(records):
            sys.exit(f"{len(written)} replies to {len(records)} requests, {len(wrong)} of them wrong: {wrong[:1]}")
        least = time if least is None else min(least, time)
    return least


def ask(key, method, path, body=""):
    return record(MOMENT, request(key, method, path, body))


def import_time(program, count):
    """An import of so many people, by the option."""
    return spent(program, STAFF + people(count), []) - spent(program, STAFF, [])


def again_time(program, count):
    """The same list by requests of 500 people, where all of them are known."""
    lines = people(count)
    parts = [HEAD + "".join(lines[at : at + 500]) for at in range(0, len(lines), 500)]
    records = [ask("dora-key", "POST", "/people", part) for part in parts]
    return spent(program, STAFF + lines, records) - spent(program, STAFF + lines, [])


def puzzle(place):
    return ask("ada-key-1", "PUT", f"/puzzles/ada/p{place}", '{"text":"sudoku/4/4/123434122143432g"}')


def puzzles_time(program, count):
    """A hundred listings of so many puzzles."""
    stored = [puzzle(place) for place in range(count)]
    asked = [ask("dora-key", "GET", "/puzzles")] * 100
    return (spent(program, STAFF, stored + asked) - spent(program, STAFF, stored)) / 100


def rounds_time(program, count):
    """A hundred listings of so many rounds."""
    stored = [puzzle(0)] + [ask("dora-key", "PUT", f"/rounds/r{place}", SHEET) for place in range(count)]
    asked = [ask("dora-key", "GET", "/rounds")] * 100
    return (spent(program, STAFF, stored + asked) - spent(program, STAFF, stored)) / 100


def drafts_time(program, count):
    """So many rounds that are put."""
    rounds = [ask("dora-key", "PUT", f"/rounds/r{place}", SHEET) for place in range(count)]
    return spent(program, STAFF, [puzzle(0)] + rounds) - spent(program, STAFF, [puzzle(0)])


# What is measured, and at which sizes.
MEASURES = [
    ("an import of people", import_time, (500, 5000)),
    ("the same people again", again_time, (500, 5000)),
    ("a listing of puzzles", puzzles_time, (50, 500)),
    ("a listing of rounds", rounds_time, (20, 200)),
    ("rounds that are put", drafts_time, (20, 200)),
]


def main():
    program = sys.argv[1] if len(sys.argv) > 1 else PROGRAM
    for name, time, sizes in MEASURES:
        for size in sizes:
            took = time(program, size)
            print(f"{name:24}{size:6,}{1e3 * took:10.2f} ms{1e6 * took / size:10.2f} us each", flush=True)


if __name__ == "__main__":
    main()
