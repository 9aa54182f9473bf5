#!/usr/bin/env python3
"""Measures `./hall serve`: requests a second on one kept connection, beside a plain Python server over SQLite's own
library, asked by the same client (ask.c).

    python3 bench/serve.py [--requests N] [--answers N,N..] [--program PATH]

For each number of answers that others have stored: ReadRound, Submit, Answers (an entrant's own, 10 rows and 50) and
Table, over a file on the disk and one in memory (/dev/shm). The plain server reads and writes the same rows, with a
sync for each answer, and judges nothing. Told too are the time of opening the file, and that of the first table after a
Submit: the least of nine.
"""
import argparse
import http.server
import socket
import sqlite3
import subprocess
import tempfile
import threading
import time

from lent import Plain, sized
from harness.filled import fill, requests
from harness.running import ROOT, free_port, wait_for


def spent(client, port, kind, count, first=0):
    """The nanoseconds of so many requests; each is answered 200."""
    asked = "".join(sized(*request) for request in requests(kind, count, first))
    ran = subprocess.run([client, str(port)], input=asked.encode(), stdout=subprocess.PIPE, check=True)
    return int(ran.stdout)


def rate(client, port, kind, count):
    """Requests a second."""
    return count * 1e9 / spent(client, port, kind, count)


KINDS = ["ReadRound", "Answers", "50 Answers", "Table", "Submit"]
FIRST_TABLES = 9


def first_table(client, port, submits):
    """The least seconds of a table after one Submit more than so many."""
    least = None
    for place in range(submits, submits + FIRST_TABLES):
        spent(client, port, "Submit", 1, place)
        took = spent(client, port, "Table", 1) / 1e9
        least = took if least is None else min(least, took)
    return least


def of_hall(program, client, path, counts):
    port = free_port()
    begun = time.perf_counter()
    server = subprocess.Popen([program, "serve", "--db", path, "--port", str(port)])
    try:
        wait_for(port)
        opened = time.perf_counter() - begun
        rates = [rate(client, port, kind, count) for kind, count in zip(KINDS, counts)]
        return opened, first_table(client, port, counts[-1]), rates
    finally:
        server.terminate()
        server.wait()


def of_plain(client, path, counts):
    Plain.conn = sqlite3.connect(path, check_same_thread=False)
    Plain.conn.execute("PRAGMA synchronous = FULL")
    server = http.server.HTTPServer(("127.0.0.1", 0), Plain)
    server.socket.setsockopt(socket.IPPROTO_TCP, socket.TCP_NODELAY, 1)
    threading.Thread(target=server.serve_forever, daemon=True).start()
    rates = [rate(client, server.server_port, kind, count) for kind, count in zip(KINDS, counts)]
    server.shutdown()
    server.server_close()
    Plain.conn.close()
    return rates


def measure(program, client, where, folder, answers, count):
    counts = [count, count, count, max(20, count // 10), count]
    with tempfile.TemporaryDirectory(prefix="hall-bench-", dir=folder) as room:
        fill(f"{room}/hall.db", answers)
        fill(f"{room}/plain.db", answers)
        opened, table, ours = of_hall(program, client, f"{room}/hall.db", counts)
        plain = of_plain(client, f"{room}/plain.db", counts)
        rates = zip(KINDS, ours, plain)
        told = ", ".join(f"{kind} {one:.0f} ({one / other:.1f} times {other:.0f})" for kind, one, other in rates)
        first = f"opened in {opened:.2f} s, a first table in {1e3 * table:.1f} ms"
        print(f"{where}, {answers} answers: {first}; a second: {told}", flush=True)


def main():
    parser = argparse.ArgumentParser()
    parser.add_argument("--requests", type=int, default=1000)
    parser.add_argument("--answers", default="100,10000,100000")
    parser.add_argument("--program", default=f"{ROOT}/hall")
    args = parser.parse_args()
    with tempfile.TemporaryDirectory(prefix="hall-bench-") as tools:
        client = f"{tools}/ask"
        subprocess.run(["gcc", "-O2", "-o", client, f"{ROOT}/bench/ask.c"], check=True)
        for where, folder in (("disk", None), ("memory", "/dev/shm")):
            for answers in map(int, args.answers.split(",")):
                measure(args.program, client, where, folder, answers, args.requests)


if __name__ == "__main__":
    main()
