#!/usr/bin/env python3
"""Measures a request of `hall replay`: hand-ins, retries, reads of a round and listings of its answers.

    python3 bench/replay.py [PROGRAM] [--stored N ..]

PROGRAM is the built `hall`, by default the one in crates/hall/out. Each measure is made where N
answers are stored, by default 10, 100 and 250, the most that the rounds take: 50 by each
entrant to each puzzle, from ada, eve and fay in r1 and from eve and fay in r2, whose puzzle is ada's.

The time is the processor time of a run over the list that stores the answers and then makes the
requests, less that of a run over the first part alone: the least of five runs of each. The script
checks the status of each reply.
"""
import argparse
import sys

from lent import DURING, MOST, PROGRAM, least_time, opening, run_replay, submit
from harness.wire import record, request

RECEIVED, LIMITED, SERVED = b'{"received":', b'{"denied":19}', b"{"


def measure(program, stored, name, requests, begins):
    """Prints the time of a request, and how many replies begin with each of these."""
    records = opening(stored)
    written, _ = run_replay(program, records + requests)
    bodies = [reply.partition(b"\r\n\r\n")[2] for reply in written[len(records) :]]
    wrong = [reply for reply in written[: len(records)] if not reply.startswith(b"HTTP/1.1 200 ")]
    wrong += [body for body in bodies if not body.startswith(tuple(begins))]
    if wrong or len(bodies) != len(requests):
        sys.exit(f"{name}: {len(bodies)} replies to {len(requests)} requests, {len(wrong)} of them wrong: {wrong[:1]}")
    spent = least_time(program, records + requests) - least_time(program, records)
    counts = ", ".join(f"{sum(body.startswith(it) for body in bodies)} {words}" for it, words in begins.items())
    print(f"{stored:4} stored  {name:12} {1e6 * spent / len(requests):9.2f} us a request  {counts}", flush=True)


def measure_all(program, stored):
    taken, limited, served = {RECEIVED: "received"}, {LIMITED: "denied 19"}, {SERVED: "served"}
    hand_ins = [submit(stored + place) for place in range(10000)]
    if stored < MOST:
        measure(program, stored, "hand-ins", hand_ins[: MOST - stored], taken)
    measure(program, stored, "hand-ins", hand_ins, taken | limited)
    if stored:
        measure(program, stored, "retries", [submit(place % stored) for place in range(10000)], taken)
    measure(program, stored, "rounds read", [record(DURING, request("eve-key-1", "GET", "/rounds/r1"))] * 10000, served)
    listing = record(DURING, request("dora-key", "GET", "/rounds/r1/answers"))
    measure(program, stored, "listings", [listing] * 1000, served)


def main():
    parser = argparse.ArgumentParser(description=__doc__, formatter_class=argparse.RawDescriptionHelpFormatter)
    parser.add_argument("program", nargs="?", default=PROGRAM)
    parser.add_argument("--stored", type=int, nargs="+", default=[10, 100, MOST], metavar="N")
    args = parser.parse_args()
    if not all(0 <= stored <= MOST for stored in args.stored):
        sys.exit(f"0 to {MOST} answers can be stored")
    for stored in args.stored:
        measure_all(args.program, stored)


if __name__ == "__main__":
    main()
