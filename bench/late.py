#!/usr/bin/env python3
"""Measures a crowd that hands in answers on a slow disk, and in the last second of a round: the clients of crowd.c,
straight and through both proxies of examples/running.

    python3 bench/late.py [--program PATH] [--clients N] [--each N] [--limit SECONDS] [--syncs MS,..]
        [--addresses N] [--folder FOLDER] [NAME..]

In each setting whose name begins with one of the NAMEs, and with each sync of the disk so many milliseconds longer
(strace; where it isn't there, the disk's own alone): N clients hand in so many answers each, one after another, in a
round that goes on; and three each within the last second of one. Told are Submits a second, the waits of them (median,
greatest), the syncs that were made, the processor time of the hall for a Submit; and how many of those whose last byte
was sent before the end weren't taken, and how long before the end the first of these was sent.
"""
import argparse
import contextlib
import json
import os
import shutil
import sqlite3
import subprocess
import sys
import tempfile
import time

import crowd
from lent import PROGRAM
from harness import proxies
from harness.beside import within
from harness.clients import scheduled
from harness.database import WRONG
from harness.running import ROOT, connected, free_port, serving, traced, wait_for

NAMES = ["straight, kept", "HAProxy of examples/running", "nginx of examples/running"]
# How long before the end of its round a crowd begins, within how long all have, and how much each hands in.
LAST, SPREAD, HANDED_IN = 1.0, 900, 3
# The seconds until a round ends that is made now.
ENDS = 4


def submits(clients, each, round):
    """So many answers of each client, to the 25 puzzles in turn."""
    for k in range(clients):
        for n in range(each):
            path = f"/rounds/{round}/answers/{n % 25 + 1}/t{n}"
            yield k, ("PUT", path, f"c{k}-key-1", json.dumps({"answer": WRONG}))


def ending(path, seconds):
    """A round that ends in so many seconds, and its end."""
    end = int(time.time()) + seconds
    conn = sqlite3.connect(path)
    conn.execute("INSERT INTO rounds VALUES ('ends', 'Ends', ?, 60, 60, 1, 5, 2, 1, 0)", (end - 3600,))
    conn.executemany("INSERT INTO round_puzzles VALUES ('ends', ?, 'bob', ?, 40)",
                     [(k + 1, f"p{k}") for k in range(25)])
    conn.commit()
    conn.close()
    return end


@contextlib.contextmanager
def served(args, setting, room, slow):
    """A hall over the file of the folder, whose syncs take so many milliseconds longer: its process, and the port at
    which the crowd comes."""
    program = os.path.abspath(args.program)
    if shutil.which("strace"):
        delayed = ["-e", f"inject=fdatasync:delay_enter={1000 * slow}"] if slow else []
        program = traced(program, room, "-e", "trace=fdatasync", *delayed)
    with serving(f"{room}/hall.db", 1_000_000, program) as (server, back), contextlib.ExitStack() as those:
        connected(server, back).close()
        if not setting.proxy:
            yield server, back
            return
        front = free_port()
        proxy = setting.proxy(front, back, room)
        those.callback(proxy.wait)
        those.callback(proxy.terminate)
        wait_for(front)
        yield server, front


def syncs(room):
    """How many were made, where they were counted."""
    path = f"{room}/calls"
    if not os.path.exists(path):
        return None
    with open(path, encoding="ascii") as file:
        return sum("fdatasync(" in line for line in file)


def rate(args, client, setting, slow):
    """A crowd in a round that goes on."""
    with tempfile.TemporaryDirectory(prefix="hall-late-", dir=args.folder) as room:
        crowd.fill(f"{room}/hall.db", args.clients)
        with served(args, setting, room, slow) as (server, port):
            before, worked = syncs(room), scheduled(server.pid)[0]
            asked = submits(args.clients, args.each, "many")
            spent, found = crowd.ran(client, port, asked, setting.keep, args.limit, addresses=args.addresses)
            took = [it.took / 1e6 for it in found if it.status == 200]
            made, worked = syncs(room), scheduled(server.pid)[0] - worked
        refused = sum(it.refused for it in found)
        return (f"{len(took) / spent:5.0f} Submits a second, waits {within(took, 0.5):.3f} s, {within(took, 1):.3f} s, "
                f"{'?' if made is None else made - before} syncs for {len(took)}, "
                f"{1e3 * worked / max(1, len(took)):.2f} ms each, {len(found) - len(took)} not answered, "
                f"{refused} tries refused")


def last_second(args, client, setting, slow):
    """A crowd as a round ends."""
    with tempfile.TemporaryDirectory(prefix="hall-late-", dir=args.folder) as room:
        crowd.fill(f"{room}/hall.db", args.clients)
        end = ending(f"{room}/hall.db", ENDS)
        with served(args, setting, room, slow) as (_, port):
            time.sleep(max(0, end - LAST - time.time()))
            asked = submits(args.clients, HANDED_IN, "ends")
            _, found = crowd.ran(client, port, asked, setting.keep, args.limit, SPREAD, args.addresses)
    sent = [end - it.sent / 1e6 for it in found if it.sent]
    late = [end - it.sent / 1e6 for it in found if it.sent and it.sent / 1e6 < end and it.status != 200]
    taken = sum(it.status == 200 for it in found)
    earliest = f", sent up to {max(late):.3f} s before the end" if late else ""
    return f"{taken} taken, {len(late)} of {sum(it > 0 for it in sent)} sent before the end weren't{earliest}"


def main():
    parser = argparse.ArgumentParser(description=__doc__, formatter_class=argparse.RawDescriptionHelpFormatter)
    parser.add_argument("--program", default=PROGRAM)
    parser.add_argument("--clients", type=int, default=300)
    parser.add_argument("--each", type=int, default=20)
    parser.add_argument("--limit", type=int, default=20)
    parser.add_argument("--syncs", default="0,1,5,20")
    parser.add_argument("--addresses", type=int, default=0)
    parser.add_argument("--folder")
    parser.add_argument("names", nargs="*", default=[""])
    args = parser.parse_args()
    if not shutil.which("strace"):
        args.syncs = "0"
        print("strace isn't there: the disk's own syncs alone, and they aren't counted")
    with tempfile.TemporaryDirectory(prefix="hall-late-") as tools:
        subprocess.run(["gcc", "-O2", "-o", f"{tools}/crowd", f"{ROOT}/bench/crowd.c"], check=True)
        for name, setting in crowd.settings():
            if name not in NAMES or not any(name.startswith(one) for one in args.names):
                continue
            for slow in map(int, args.syncs.split(",")):
                for measure in (rate, last_second):
                    told = measure(args, f"{tools}/crowd", setting, slow)
                    print(f"{name}; +{slow} ms; {told}; load {os.getloadavg()[0]:.1f}", flush=True)


if __name__ == "__main__":
    sys.exit(main())
