#!/usr/bin/env python3
"""Measures a hall of a hundred thousand people: a round that has ended, with ten answers of each, and one that runs.

    python3 bench/large.py [--people N,N..] [--program PATH] [--folder FOLDER]

For each number of people: what sqlite3's own checks take, and `hall check` with its memory; an open; ReadRounds and
Submits one after another on a kept connection; the publication, the first table, a table after an answer to the other
round, and all answers as a director asks for them, each with what another waits meanwhile; and the hall's memory.
Seconds are of a processor, where it isn't said otherwise.
"""
import argparse
import http.client
import os
import sqlite3
import subprocess
import tempfile
import time

from check import checked
from entrants import boards, wrong
from lent import PROGRAM, sized
from olympiad import Beside
from harness.clients import scheduled
from harness.database import RIGHT, SUDOKU, TABLES
from harness.running import PATIENCE, ROOT, connected, serving
from harness.wire import compact

ASKED = 5000


def fill(path, people):
    """A sane file: the round `then` is over and to be published, and `now` has a puzzle that nobody has answered."""
    now, found = int(time.time()), list(boards())
    conn = sqlite3.connect(path)
    conn.executescript("PRAGMA synchronous = OFF;" + TABLES)
    names = [(f"e{who:06}", f"key-of-{who:06}", 8) for who in range(people)]
    staff = [("bob", "bob-key-1", 2), ("dora", "dora-key-1", 1)]
    conn.executemany("INSERT INTO people VALUES (?, ?, ?)", [*staff, *names])
    conn.executemany("INSERT INTO puzzles VALUES ('bob', ?, ?, 1, ?)",
                     [(f"p{k}", *it) for k, it in enumerate([*found, (SUDOKU, RIGHT)])])
    conn.executemany("INSERT INTO rounds VALUES (?, 'A round', ?, ?, 0, 0, 5, 2, 1, 0)",
                     [("now", now - 600, 1440), ("then", now - 100_000, 60)])
    places = [("now", 1, len(found)), *(("then", k + 1, k) for k in range(len(found)))]
    conn.executemany("INSERT INTO round_puzzles VALUES (?, ?, 'bob', 'p' || ?, 40)", places)
    conn.executemany("INSERT INTO answers VALUES (?, 'then', ?, 't0', 1, ?, ?, 0)",
                     ((name, k + 1, now - 99_000, found[k][1]) for name, _, _ in names for k in range(len(found))))
    conn.commit()
    conn.close()


def own_checks(path):
    """What sqlite3's two checks of the file take, which find nothing."""
    conn, begun = sqlite3.connect(path), time.process_time()
    told = [conn.execute(f"PRAGMA {name}").fetchall() for name in ("integrity_check", "foreign_key_check")]
    took = time.process_time() - begun
    conn.close()
    if told != [[("ok",)], []]:
        raise ValueError(told)
    return took


def kept(pid, name):
    """Megabytes of the memory of a process, as the kernel tells them under this name."""
    with open(f"/proc/{pid}/status", encoding="ascii") as file:
        return int(next(line for line in file if line.startswith(name)).split()[1]) / 1024


def rate(tool, port, people, method, path, body=None):
    """Requests a second, of entrants in turn on one connection."""
    text = "".join(sized(method, path, f"key-of-{k % people:06}", body) for k in range(ASKED))
    ran = subprocess.run([tool, str(port)], input=text.encode(), stdout=subprocess.PIPE, check=True)
    return ASKED * 1e9 / int(ran.stdout)


def told(port, key, method, path, body=""):
    """The bytes of a reply of 200, however long it takes."""
    line = http.client.HTTPConnection("127.0.0.1", port, timeout=PATIENCE)
    line.request(method, path, body, {"Hall-Key": key})
    reply = line.getresponse()
    text = reply.read()
    line.close()
    if reply.status != 200:
        raise ValueError(reply.status)
    return text


def requests(tool, port, people, pid):
    """What is asked, and what came of it."""
    yield "memory once open", f"{kept(pid, 'VmRSS'):.0f} MB, at most {kept(pid, 'VmHWM'):.0f}"
    body = compact({"answer": wrong(RIGHT)})
    yield "ReadRounds", f"{rate(tool, port, people, 'GET', '/rounds/now'):.0f} a second"
    yield "Submits", f"{rate(tool, port, people, 'PUT', '/rounds/now/answers/1/t0', body):.0f} a second"
    for what, method, path in (("publication", "POST", "then/publish"), ("first table", "GET", "then/table"),
                               ("a table after a Submit", "GET", "then/table"), ("all answers", "GET", "then/answers")):
        if "Submit" in what:
            told(port, "key-of-000000", "PUT", "/rounds/now/answers/1/t9", body)
        beside, worked = Beside(port), scheduled(pid)[0]
        beside.start()
        time.sleep(0.3)
        begun = time.monotonic()
        size = len(told(port, "dora-key-1", method, f"/rounds/{path}"))
        took, beside.over = time.monotonic() - begun, True
        beside.join()
        yield what, (f"{took:.2f} s by the clock, {size / 1e6:.1f} MB; the hall worked {scheduled(pid)[0] - worked:.2f}"
                     f" s; another waited {1e3 * beside.longest:.0f} ms at most; memory at most "
                     f"{kept(pid, 'VmHWM'):.0f} MB")


def measure(args, tool, people, room):
    path = f"{room}/hall.db"
    fill(path, people)
    print(f"{people:,} people, {10 * people:,} answers, {os.path.getsize(path) / 1e6:.0f} MB; load "
          f"{os.getloadavg()[0]:.1f}\nsqlite3's own checks: {own_checks(path):.2f} s", flush=True)
    (_, status), took, most = checked(args.program, path)
    print(f"hall check: {took:.1f} s with {most:.0f} MB, status {status}", flush=True)
    begun = time.monotonic()
    with serving(path, 1_000_000, args.program) as (hall, port):
        connected(hall, port).close()
        print(f"open: {scheduled(hall.pid)[0]:.2f} s, {time.monotonic() - begun:.2f} by the clock", flush=True)
        for what, found in requests(tool, port, people, hall.pid):
            print(f"{what}: {found}", flush=True)


def main():
    parser = argparse.ArgumentParser(description=__doc__, formatter_class=argparse.RawDescriptionHelpFormatter)
    parser.add_argument("--people", default="10000,100000")
    parser.add_argument("--program", default=PROGRAM, type=os.path.abspath)
    parser.add_argument("--folder")
    args = parser.parse_args()
    for people in map(int, args.people.split(",")):
        with tempfile.TemporaryDirectory(prefix="hall-large-", dir=args.folder) as room:
            subprocess.run(["gcc", "-O2", "-o", f"{room}/ask", f"{ROOT}/bench/ask.c"], check=True)
            measure(args, f"{room}/ask", people, room)


if __name__ == "__main__":
    main()
