#!/usr/bin/env python3
"""Counts the instructions that `hall serve` takes for a request on a kept connection, by callgrind: the difference of a
server that is asked so many requests more, on any machine, busy or not; in all, and outside of the kit's sqlite.

    python3 bench/instructions.py [--requests N] [--top N] [PROGRAM ..]

For a round of 25 puzzles where others have stored 1,000 answers, as bench/serve.py makes it. Without PROGRAM it is the
proved one. With --top the functions outside of sqlite that take the most are told.
"""
import argparse
import re
import subprocess
import tempfile
from collections import Counter

from lent import PROGRAM
from harness.filled import fill, requests
from harness.running import connected, free_port, is_whole
from harness.wire import request

FEW = 20
KINDS = ("ReadRound", "Submit")
# The kit's database, and what it calls of the hall's to reach the disk.
SQLITE = re.compile(r"sqlite|hall_sql::(losable|served_files|system_files)\b")
ALL, OUTSIDE = "in all", "outside of sqlite"


def read_profile(path):
    """The instructions of a profile: in all, outside of sqlite, and of each function there by itself. What sqlite calls
    is a part of it, so it is counted by the calls of the hall's functions into it."""
    own, inside, name, called = Counter(), 0, "", None
    with open(path, encoding="utf-8") as lines:
        for line in map(str.rstrip, lines):
            word, _, rest = line.partition("=")
            if word == "fn":
                name = rest
            elif word == "cfn":
                called = rest
            elif line[:1].isdigit():
                cost = int(line.split()[1])
                if called is None:
                    own[name] += cost
                elif name.startswith("hall") and not SQLITE.match(name) and SQLITE.match(called):
                    inside += cost
                called = None
    total = sum(own.values())
    outside = Counter({name: cost for name, cost in own.items() if name.startswith("hall") and not SQLITE.match(name)})
    return Counter({ALL: total, OUTSIDE: total - inside}) + outside


def instructions(program, path, kind, count):
    """How many a server takes that is asked so often and then ends: as `read_profile` tells them."""
    fill(path, 1000)
    port = free_port()
    told = f"{path}.told"
    profile = ["--tool=callgrind", f"--callgrind-out-file={told}", "--compress-strings=no", "--compress-pos=no"]
    words = ["valgrind", *profile, program, "serve", "--db", path, "--port", str(port), "--connections", "1"]
    with subprocess.Popen(words, stderr=subprocess.PIPE, text=True) as server:
        client = connected(server, port)
        if client is None:
            raise SystemExit(f"{program} doesn't serve")
        with client:
            for method, where, key, body in requests(kind, count):
                client.sendall(request(key, method, where, body or "").encode())
                reply = b""
                while not is_whole(reply):
                    reply += client.recv(1 << 16)
        server.communicate()
    return read_profile(told)


def main():
    parser = argparse.ArgumentParser(description=__doc__, formatter_class=argparse.RawDescriptionHelpFormatter)
    parser.add_argument("--requests", type=int, default=200)
    parser.add_argument("--top", type=int, default=0)
    parser.add_argument("programs", nargs="*", default=[PROGRAM], metavar="PROGRAM")
    asked = parser.parse_args()
    for program in asked.programs:
        for kind in KINDS:
            with tempfile.TemporaryDirectory(prefix="hall-bench-") as room:
                few, many = (instructions(program, f"{room}/{count}.db", kind, count)
                             for count in (FEW, FEW + asked.requests))
            more = Counter({name: (many[name] - few[name]) / asked.requests for name in many})
            for name, count in more.most_common():
                if name in (ALL, OUTSIDE):
                    print(f"{program}: {kind} {count:12,.0f} instructions {name}")
            for name, count in [it for it in more.most_common() if it[0] not in (ALL, OUTSIDE)][: asked.top]:
                print(f"{count:12,.0f} {name}")


if __name__ == "__main__":
    main()
