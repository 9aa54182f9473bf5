#!/usr/bin/env python3
"""Measures what a request costs as bytes, beside what the desk alone takes for it.

    python3 bench/answer.py [DESK [HALL]]

DESK is built from the sources in bench/desk; without it, bench/desk_program.py builds it. HALL is the built `hall`, by
default the one in crates/hall/out. The first table has, for a request of 10,000 of a kind, the processor time of

- the desk: a plan and its commit (as bench/desk.py measures them);
- `replay` over records in memory;
- `serve` over connections of 500 requests in memory, at most 4,096 bytes or one byte a read;
- `hall replay` over a pipe, with the people and rounds of bench/replay.py, as that measures it: of its hand-ins all but
  250 are denied.

The second has the time of one request that comes a byte a read. All are the least of ten runs, of `hall replay` of
five.
"""
import argparse
import subprocess
import sys

import lent
from desk_program import build
from harness.database import RIGHT
from harness.wire import record, request

RUNS = 10
COUNT = 10000
STORED = 10
DURING = 1777714300
ENTRANTS = 200
CONNECTION = 500
CHUNK = 4096
HAND_IN = '{"answer":"%s"}' % RIGHT


def hand_in(place):
    """The hand-in at this place, by the entrants in turn."""
    return request(f"key-of-e{place % ENTRANTS}", "PUT", f"/rounds/r0/answers/1/t{place}", HAND_IN)


def reading(_place):
    return request("key-of-e0", "GET", "/rounds/r0")


def listing(_place):
    return request("key-of-e0", "GET", "/rounds/r0/answers")


# What is measured, the desk's word for it, the rows of entrant e0, the request at a place, and the same of a replay.
KINDS = [
    ("rounds read", "read", 0, reading, lambda _: request("eve-key-1", "GET", "/rounds/r1"), 4),
    ("hand-ins", "submit", 0, hand_in, None, 0),
    ("listings of 50 own rows", "own", 50, listing, lambda _: request("eve-key-1", "GET", "/rounds/r1/answers"), 250),
]


def answer(program, front, rows, piece, streams, served):
    """The nanoseconds of processor time that the streams took; so many replies are to be 200."""
    words = [program, front, str(STORED), str(rows), str(piece), *[str(len(stream)) for stream in streams]]
    done = subprocess.run(words, input="".join(streams), capture_output=True, text=True, check=False)
    if done.returncode:
        sys.exit(f"{' '.join(words[:5])} ended with status {done.returncode}")
    replies, spent = map(int, done.stdout.split())
    if replies != served:
        sys.exit(f"{' '.join(words[:5])}: {replies} of {served} replies were 200")
    return spent


def fronts(program, word, rows, requests):
    """What measures each column of the first table, in nanoseconds."""
    records = "".join(record(DURING, asked) for asked in requests)
    connections = ["".join(requests[at : at + CONNECTION]) for at in range(0, COUNT, CONNECTION)]
    return {
        "desk alone": lambda: lent.run_desk(program, word, STORED, rows, COUNT),
        "replay": lambda: answer(program, "replay", rows, CHUNK, [records], COUNT),
        "serve": lambda: answer(program, "serve", rows, CHUNK, connections, COUNT),
        "a byte a read": lambda: answer(program, "serve", rows, 1, connections, COUNT),
    }


def replayed(hall, word, made, stored):
    """The microseconds of a request of `hall replay`."""
    opening = lent.opening(stored)
    if word == "submit":
        requests = [lent.submit(place) for place in range(COUNT)]
    else:
        requests = [record(lent.DURING, made(place)) for place in range(COUNT)]
    return 1e6 * (lent.least_time(hall, opening + requests) - lent.least_time(hall, opening)) / COUNT


def measure_kind(program, hall, kind):
    name, word, rows, made, replay_made, stored = kind
    columns = fronts(program, word, rows, [made(place) for place in range(COUNT)])
    least = {}
    for _ in range(RUNS):
        for column, spend in columns.items():
            spent = spend() / 1000 / COUNT
            least[column] = min(spent, least.get(column, spent))
    least["hall replay"] = replayed(hall, word, replay_made, stored)
    print(f"{name:25}" + "".join(f"{spent:12.2f} us" for spent in least.values()), flush=True)


def long_request(head, body, name=""):
    """A request of so many bytes of head and of body. The head is filled up by the value of a header, or by its
    name."""
    start = f"POST /nothing HTTP/1.1\r\nContent-Length: {body}\r\n"
    filling = "x" * (head - len(start) - len("A: b\r\n\r\n"))
    if filling:
        start += f"{name}{filling}: b\r\n" if name else f"A: b{filling}\r\n"
    return start + "\r\n" + "x" * body


# Bytes of head and of body, and how the head is filled up: by a value where no name begins it.
LONG = [
    (0, 32768, ""),
    (0, 65536, ""),
    (2048, 0, ""),
    (4096, 0, ""),
    (8192, 0, ""),
    (8192, 32768, ""),
    (8192, 65536, ""),
    (8192, 0, "A"),
    (8192, 65536, "A"),
]


def measure_long(program):
    for head, body, name in LONG:
        asked = long_request(head, body, name)
        spent = min(answer(program, "serve", 0, 1, [asked], 0) for _ in range(RUNS)) / 1000
        filled = "a name" if name else "a value"
        print(
            f"head of {len(asked) - body:5,} ({filled:7}), body of {body:6,}"
            f"{spent:12,.0f} us{1000 * spent / len(asked):10,.0f} ns a byte",
            flush=True,
        )


def main():
    parser = argparse.ArgumentParser(description=__doc__, formatter_class=argparse.RawDescriptionHelpFormatter)
    parser.add_argument("desk", nargs="?")
    parser.add_argument("hall", nargs="?", default=lent.PROGRAM)
    args = parser.parse_args()
    program = args.desk or build()
    names = ["desk alone", "replay", "serve", "a byte a read", "hall replay"]
    print(" " * 25 + "".join(f"{name:>15}" for name in names))
    for kind in KINDS:
        measure_kind(program, args.hall, kind)
    print()
    measure_long(program)


if __name__ == "__main__":
    main()
