#!/usr/bin/env python3
"""Measures what others wait beside a long request to `hall serve`: twenty entrants, each on a kept connection, who in
turn read a round of 25 puzzles and hand in an answer.

    python3 bench/waits.py [--program PATH] [--folder FOLDER] [--seconds N] [--times N]
        [--patience N] [NAME..]

It does so beside each long request whose name begins with one of the NAMEs. A search is looked at for so many SECONDS,
and then the hall is ended; of any other request the waits while it was under way are taken, in each of so many TIMES.
For each row it prints how long the entrants' requests waited, from the sending to the whole reply, and how long the
hall worked meanwhile: median, 99th of a hundred and greatest, in milliseconds. What the machine, its other work and
the clients add is in the first; the row `nothing` tells it. Each row has a hall over a file of its own.
"""
import argparse
import asyncio
import concurrent.futures
import contextlib
import os
import socket
import sqlite3
import sys
import tempfile
import time
from dataclasses import dataclass

from lent import PROGRAM
from harness import beside
from harness.beside import DIRECTOR, ENTRANTS, HARD, Entrants, board, certify, hard, real
from harness.clients import allow_many_files
from harness.running import connected, serving
from harness.wire import REPLY, request

MOST_VISITS = 1_000_000
# Beside a request that isn't a search, how long the entrants ask before it and after it.
AROUND = 0.3
THEN = "then"
SHEET = """version = 1
title = "Many"
start = "2090-05-02T09:00:00Z"
minutes = 60
protest_minutes = 30
mode = "instant"
penalty = 5
bonus = 2
"""


def answers(count):
    """So many answers to a published round of 25 puzzles, of entrants with 50 each."""
    def fill(path):
        now, puzzles, each = int(time.time()), range(1, beside.PUZZLES + 1), 50
        conn = sqlite3.connect(path)
        conn.execute("PRAGMA synchronous = OFF")
        conn.executemany("INSERT INTO people VALUES (?, ?, 8)",
                         [(f"c{k}", f"key-of-c{k}") for k in range(count // each)])
        conn.execute("INSERT INTO rounds VALUES (?, 'Then', ?, 60, 0, 0, 5, 2, 1, 1)", (THEN, now - 100_000))
        conn.executemany("INSERT INTO round_puzzles VALUES (?, ?, 'bob', ?, 40)",
                         [(THEN, k, f"p{k}") for k in puzzles])
        conn.executemany("INSERT INTO answers VALUES (?, ?, ?, ?, ?, ?, ?, 20)",
                         [(f"c{c}", THEN, k % 25 + 1, f"t{k}", k // 25 + 1, now - 99_000, "1234341221434312")
                          for c in range(count // each) for k in range(each)])
        conn.commit()
        conn.close()
    return fill


def people(turn):
    """A list that fits a request, of some 2,900 people."""
    text = "name,key,roles\n"
    for k in range(100_000):
        line = f"x{turn}{k},{turn}{k:07},entrant\n"
        if len(text) + len(line) > 65_536:
            return text
        text += line


def sheet(turn):
    puzzles = "".join(f'[[puzzle]]\nauthor = "a0"\nlabel = "w{k}"\npoints = {40 + turn}\n' for k in range(40))
    return SHEET + puzzles


def nothing(_path):
    """No more than the entrants' own round."""


class Search:
    """Searches of boards, each certified by an author of its own; the waits beside them."""

    def __init__(self, name, texts, budget=MOST_VISITS):
        self.name, self.texts, self.budget = name, texts, budget

    def file(self, path):
        beside.written(path, [(k, "board", text) for k, text in enumerate(self.texts)])

    async def measure(self, port, pool, args, entrants):
        loop = asyncio.get_running_loop()
        asked = [loop.run_in_executor(pool, ask, port, certify(k, "board", self.budget))
                 for k in range(len(self.texts))]
        await asyncio.sleep(0.5)
        async with entrants.asking():
            if asked:
                await asyncio.wait(asked, timeout=args.seconds)
            else:
                await asyncio.sleep(args.seconds)
        took = [it.result().seconds() for it in asked if it.done()]
        more = f"more than {args.seconds} s for {len(asked) - len(took)}" if len(took) < len(asked) else ""
        return entrants.waits, ", ".join([f"{it:.1f} s" for it in took] + [more] * bool(more))


class Once:
    """A request that is made some times, each time after Submits of the entrants; the waits while it was under way."""

    def __init__(self, name, fill, asked):
        self.name, self.fill, self.asked = name, fill, asked

    def file(self, path):
        beside.written(path, [(0, f"w{k}", real("slither31", 0)) for k in range(40)])
        self.fill(path)

    async def measure(self, port, pool, args, entrants):
        loop, waits, told = asyncio.get_running_loop(), [], []
        await loop.run_in_executor(pool, ask, port, beside.read_round(0))
        for turn in range(args.times):
            async with entrants.asking():
                await asyncio.sleep(AROUND)
                told.append(await loop.run_in_executor(pool, ask, port, self.asked(turn)))
                await asyncio.sleep(AROUND)
            if told[-1].status != 200 or entrants.faults:
                break
            waits += entrants.waits_beside(told[-1].begun, told[-1].ended)
        if told[-1].status != 200:
            sys.exit(f"{self.name}: {told[-1].status}")
        return waits, ", ".join(f"{it.seconds():.2f} s" for it in told) + f", {max(it.size for it in told):,} bytes"


@dataclass
class Told:
    """When a request was sent, when its reply was whole, its status (0 where none came) and its bytes."""
    begun: float
    ended: float
    status: int
    size: int

    def seconds(self):
        return self.ended - self.begun


def ask(port, sent):
    """Asks in a process of its own."""
    begun, read = time.monotonic(), bytearray()
    with contextlib.suppress(ConnectionError), socket.create_connection(("127.0.0.1", port)) as line:
        line.sendall(sent)
        while not (head := REPLY.match(read)) or len(read) < head.end() + int(head[1]):
            if not (piece := line.recv(1 << 20)):
                return Told(begun, time.monotonic(), 0, len(read))
            read += piece
        return Told(begun, time.monotonic(), int(read[9:12]), len(read))
    return Told(begun, time.monotonic(), 0, len(read))


def by_director(method, path, made=lambda _: ""):
    """The director's request in each turn, whose body is made."""
    return lambda turn: request(DIRECTOR, method, path, made(turn)).encode()


def rows():
    """What is measured beside."""
    yield Search("nothing", [])
    yield Search("Certify of a Nurikabe 31 by 31", [HARD])
    yield Search("Certify of a Sudoku 25 by 25", [board("long25")])
    yield Search("Certify of a Slitherlink 40 by 25", [board("long40")])
    yield Search("eight Certifies", [hard(k) for k in range(8)])
    listing, table = by_director("GET", f"/rounds/{THEN}/answers"), by_director("GET", f"/rounds/{THEN}/table")
    for count in (50_000, 250_000):
        yield Once(f"listing of {count:,} answers", answers(count), listing)
        yield Once(f"first table after a change, {count:,} answers", answers(count), table)
    yield Once("import of 2,900 people", nothing, by_director("POST", "/people", people))
    yield Once("PutRound of 40 puzzles 31 by 31", nothing, by_director("PUT", "/rounds/many", sheet))


async def measure(row, server, port, pool, args):
    entrants = Entrants(port, server.pid, args.patience)
    waits, took = await row.measure(port, pool, args, entrants)
    if entrants.faults:
        sys.exit(f"{row.name}: {entrants.faults[:3]}")
    print(f"{row.name:44} {beside.line(waits)}{'; took ' + took if took else ''}", flush=True)


def main():
    parser = argparse.ArgumentParser(description=__doc__, formatter_class=argparse.RawDescriptionHelpFormatter)
    parser.add_argument("--program", default=PROGRAM)
    parser.add_argument("--folder")
    parser.add_argument("--seconds", type=int, default=30)
    parser.add_argument("--times", type=int, default=3)
    parser.add_argument("--patience", type=int, default=600)
    parser.add_argument("names", nargs="*", default=[""])
    args = parser.parse_args()
    allow_many_files()
    print(f"{ENTRANTS} entrants; {os.cpu_count()} processors, of which others keep some {os.getloadavg()[0]:.1f} busy")
    for row in rows():
        if not any(row.name.startswith(name) for name in args.names):
            continue
        with tempfile.TemporaryDirectory(prefix="hall-waits-", dir=args.folder) as room:
            row.file(f"{room}/hall.db")
            with concurrent.futures.ProcessPoolExecutor(10) as pool, \
                    serving(f"{room}/hall.db", 1_000_000, os.path.abspath(args.program)) as (server, port):
                connected(server, port).close()
                asyncio.run(measure(row, server, port, pool, args))
                server.kill()


if __name__ == "__main__":
    main()
