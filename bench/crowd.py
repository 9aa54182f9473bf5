#!/usr/bin/env python3
"""Measures a crowd at `hall serve`: 1,000 clients at once (crowd.c), beside the plain server of serve.py.

    python3 bench/crowd.py [--program PATH] [--clients N] [--each N] [--limit SECONDS] [--folder FOLDER]
        [--rounds one,many] [--kinds KIND,..] [--addresses N] [--stalling] [NAME..]

It does so in each setting whose name begins with one of the NAMEs, straight, through HAProxy and through nginx, over
rounds of 1 and of 25 puzzles. The kinds: a ReadRound of each client at the same moment (start); ReadRounds one after
another; Submits, the first of each client sent twice with its token; Answers; and Table. For each it tells requests a
second, the time to the whole reply (median, 99th of a hundred, greatest), how many were lost and how many never
answered: within LIMIT seconds. With --stalling 20 clients more trickle, stall, or never read meanwhile. A client whose
try is lost, or refused by the proxy, tries again after a pause, and its time goes on.
"""
import argparse
import http.server
import itertools
import json
import os
import resource
import signal
import socket
import sqlite3
import subprocess
import tempfile
import threading
import time
from dataclasses import dataclass, field
from typing import NamedTuple

from lent import Plain, sized
from harness import proxies
from harness.database import RIGHT, SUDOKU, TABLES, WRONG
from harness.running import PROGRAM, ROOT, free_port, wait_for

PUZZLES = {"one": 1, "many": 25}


def fill(path, clients):
    """A round of each size that runs now, and one that is published, with an answer of each client."""
    now = int(time.time())
    conn = sqlite3.connect(path)
    conn.executescript("PRAGMA journal_mode = DELETE;" + TABLES)
    people = [("bob", "bob-key-1", 2), *((f"c{k}", f"c{k}-key-1", 8) for k in range(clients))]
    conn.executemany("INSERT INTO people VALUES (?, ?, ?)", people)
    conn.executemany("INSERT INTO puzzles VALUES ('bob', ?, ?, 1, ?)",
                     [(f"p{k}", SUDOKU, RIGHT) for k in range(25)])
    for name, size in PUZZLES.items():
        rounds = [(name, now - 600, 1440, 0), (f"{name}-then", now - 100_000, 60, 1)]
        conn.executemany("INSERT INTO rounds VALUES (?, 'Crowd', ?, ?, 0, 0, 5, 2, 1, ?)", rounds)
        conn.executemany("INSERT INTO round_puzzles VALUES (?, ?, 'bob', ?, 40)",
                         [(round[0], k + 1, f"p{k}") for round in rounds for k in range(size)])
        conn.executemany("INSERT INTO answers VALUES (?, ?, ?, 't', 1, ?, ?, 20)",
                         [(f"c{k}", f"{name}-then", k % size + 1, now - 99_000, WRONG) for k in range(clients)])
    conn.commit()
    conn.close()


def asked(kind, round, client, each):
    """What a client asks, one request after another."""
    key = f"c{client}-key-1"
    for k in range(each):
        if kind in ("start", "ReadRound"):
            yield "GET", f"/rounds/{round}", key, None
        elif kind == "Answers":
            yield "GET", f"/rounds/{round}/answers", key, None
        elif kind == "Table":
            yield "GET", f"/rounds/{round}-then/table", key, None
        else:
            # The second one is the first again.
            place, token = (k // 2 if k < 2 else k) % PUZZLES[round] + 1, 0 if k < 2 else k
            yield "PUT", f"/rounds/{round}/answers/{place}/m{token}", key, json.dumps({"answer": WRONG})


# What is asked, how often by each client as a part of --each, and at least.
KINDS = {"start": (0, 1), "ReadRound": (1, 1), "Submit": (0.5, 2), "Answers": (0.2, 1), "Table": (0, 1)}


@dataclass
class Told:
    """What came of the requests of a crowd."""
    spent: float
    busy: float
    took: list = field(default_factory=list)
    lost: int = 0
    refused: int = 0
    never: int = 0
    wrong: int = 0

    def line(self):
        took = sorted(self.took) or [0]
        at = [took[min(len(took) - 1, int(len(took) * part))] / 1e6 for part in (0.5, 0.99)]
        return (f"{len(self.took) / self.spent:7.0f} a second; "
                f"median {at[0]:.3f} s, 99th {at[1]:.3f} s, greatest {took[-1] / 1e6:.3f} s; "
                f"lost {self.lost}, refused {self.refused}, never answered {self.never}, answered wrong {self.wrong}; "
                f"clients busy {self.busy / self.spent:.0%}")


class Asked(NamedTuple):
    """What crowd.c tells of a request."""
    took: int
    status: int
    lost: int
    refused: int
    body: int
    sent: int


def ran(client, port, requests, keep, limit, spread=0, addresses=0):
    """The seconds that it took clients to make these requests, each after its client's number, and what came of
    each."""
    texts = [(k, sized(*request)) for k, request in requests]
    text = "".join(f"{k} {text if keep else closing(text)}" for k, text in texts)
    words = [client, str(port), str(int(keep)), str(spread), str(limit), str(addresses or len(texts))]
    told = subprocess.run(words, input=text.encode(), stdout=subprocess.PIPE, check=True).stdout.decode()
    first, *lines = told.split("\n")[:-1]
    return int(first) / 1e9, [Asked(*map(int, line.split())) for line in lines]


def crowd(client, port, kind, round, args, each, keep):
    """Has the crowd ask, and tells what came of it: each is to be answered 200, a repeated Submit as the first was."""
    requests = [(k, request) for k in range(args.clients) for request in asked(kind, round, k, each)]
    before = processor_time()
    spent, found = ran(client, port, requests, keep, args.limit, addresses=args.addresses)
    told, before = Told(spent, processor_time() - before), None
    for place, it in enumerate(found):
        told.lost, told.refused = told.lost + it.lost, told.refused + it.refused
        if it.status == 0:
            told.never += 1
        else:
            told.took.append(it.took)
            again = kind == "Submit" and place % each == 1 and before
            told.wrong += it.status != 200 or (again and again != it.body)
        before = it.body if it.status == 200 else None
    return told


def processor_time():
    """What the processes took that this one waited for."""
    used = resource.getrusage(resource.RUSAGE_CHILDREN)
    return used.ru_utime + used.ru_stime


def closing(text):
    """The same record, of a request with the header `Connection: close`."""
    request = text.split("\n", 1)[1].replace("\r\nHost:", "\r\nConnection: close\r\nHost:", 1)
    return f"{len(request)}\n{request}"


TRICKLED = (b"PUT /rounds/one/answers/1/trickle HTTP/1.1\r\nHost: a\r\nHall-Key: c0-key-1\r\nContent-Length: 29\r\n\r\n"
            b'{"answer":"1234341221434312"}')
UNREAD = b"GET /rounds/many-then/table HTTP/1.1\r\nHost: a\r\n\r\n" * 50


class Stalling(threading.Thread):
    """Clients that trickle, stall, or never read, each on a new connection where one ended."""

    def __init__(self, port, count=20):
        super().__init__(daemon=True)
        self.port, self.count, self.over, self.lines = port, count, threading.Event(), {}

    def open(self, who):
        line = socket.socket()
        line.setsockopt(socket.SOL_SOCKET, socket.SO_RCVBUF, 2048)
        line.bind((f"127.2.0.{who + 1}", 0))
        line.settimeout(0.2)
        try:
            line.connect(("127.0.0.1", self.port))
            line.setblocking(False)
            kind = who % 3
            if kind == 1:
                line.send(TRICKLED[:40])
            elif kind == 2:
                line.send(UNREAD)
        except OSError:
            line.close()
            return
        self.lines[who] = [line, 0]

    def run(self):
        while not self.over.wait(0.5):
            for who in range(self.count):
                if who not in self.lines:
                    self.open(who)
                    continue
                line, sent = self.lines[who]
                try:
                    if who % 3 == 0:
                        self.lines[who][1] += line.send(TRICKLED[sent:sent + 1])
                    ended = sent >= len(TRICKLED) or (who % 3 != 2 and line.recv(4096) is not None)
                except BlockingIOError:
                    ended = False
                except OSError:
                    ended = True
                if ended:
                    line.close()
                    del self.lines[who]
        for line, _ in self.lines.values():
            line.close()


@dataclass
class Setting:
    """How the crowd comes to the server: whether clients keep connections, and the proxy of two ports and a folder."""
    keep: bool
    proxy: object = None
    plain: bool = False


CLOSING = "option http-server-close"


def haproxy(options, most):
    def made(front, back, room):
        with open(f"{room}/haproxy.cfg", "w", encoding="ascii") as file:
            file.write(f"""global
    maxconn 5000
defaults
    mode http
    timeout connect 10s
    timeout client 60s
    timeout server 60s
    timeout queue 60s
    {options}
frontend front
    bind 127.0.0.1:{front}
    default_backend hall
backend hall
    server hall 127.0.0.1:{back} {f'maxconn {most}' if most else ''}
""")
        return proxies.haproxy(f"{room}/haproxy.cfg")
    return made


def nginx(kept, most=0, version="1.0"):
    def made(front, back, room):
        lines = f"proxy_http_version {version}; proxy_set_header Connection '';" if kept else ""
        with open(f"{room}/fragment.conf", "w", encoding="ascii") as file:
            file.write(f"""upstream hall {{
    server 127.0.0.1:{back} {f'max_conns={most}' if most else ''};
    {f'keepalive {kept};' if kept else ''}
}}
server {{
    listen 127.0.0.1:{front};
    location / {{ proxy_pass http://hall; {lines} }}
}}
""")
        return proxies.nginx(f"{room}/fragment.conf", room)
    return made


def settings():
    yield "straight, a connection a request", Setting(False)
    yield "straight, kept", Setting(True)
    yield "HAProxy of examples/running", Setting(True, proxies.our_haproxy)
    for name, options in (("http-server-close", CLOSING), ("default", ""), ("http-reuse always", "http-reuse always")):
        for most in (0, 100, 4, 1):
            yield f"HAProxy {name}, maxconn {most or 'none'}", Setting(True, haproxy(options, most))
    yield "nginx of examples/running", Setting(True, proxies.our_nginx)
    for most in (0, 100, 4, 1):
        yield f"nginx default, max_conns {most or 'none'}", Setting(True, nginx(0, most))
    for kept in (100, 4, 1):
        yield f"nginx keepalive {kept}", Setting(True, nginx(kept, version="1.1"))
    yield "plain, straight, a connection a request", Setting(False, plain=True)
    yield "plain, HAProxy http-server-close, maxconn 4", Setting(True, haproxy(CLOSING, 4), plain=True)


def plain_server(path, port):
    """The plain server, in a process of its own, with the hall's queue."""
    made = os.fork()
    if made:
        return made
    os.dup2(os.open(os.devnull, os.O_WRONLY), 2)
    Plain.conn = sqlite3.connect(path)
    Plain.conn.execute("PRAGMA synchronous = FULL")
    http.server.HTTPServer.request_queue_size = 128
    server = http.server.HTTPServer(("127.0.0.1", port), Plain)
    server.socket.setsockopt(socket.IPPROTO_TCP, socket.TCP_NODELAY, 1)
    server.serve_forever()
    os._exit(0)


def measure(tools, name, setting, args):
    with tempfile.TemporaryDirectory(prefix="hall-crowd-", dir=args.folder) as room:
        fill(f"{room}/hall.db", args.clients)
        back = front = free_port()
        if setting.plain:
            server = plain_server(f"{room}/hall.db", back)
        else:
            words = [args.program, "serve", "--db", f"{room}/hall.db", "--port", str(back)]
            server = subprocess.Popen(words, stderr=subprocess.DEVNULL).pid
        proxy = stalling = None
        try:
            wait_for(back)
            if setting.proxy:
                front = free_port()
                proxy = setting.proxy(front, back, room)
                wait_for(front)
            if args.stalling:
                stalling = Stalling(front)
                stalling.start()
                time.sleep(2)
            for round, kind in itertools.product(args.rounds.split(","), args.kinds.split(",")):
                part, least = KINDS[kind]
                each = max(least, int(args.each * part))
                told = crowd(f"{tools}/crowd", front, kind, round, args, each, setting.keep)
                print(f"{name}; {PUZZLES[round]} puzzles; {kind:9} {told.line()}", flush=True)
        finally:
            if stalling:
                stalling.over.set()
                stalling.join()
            if proxy:
                proxy.terminate()
                proxy.wait()
            os.kill(server, signal.SIGTERM)
            os.waitpid(server, 0)


def main():
    parser = argparse.ArgumentParser()
    parser.add_argument("--program", default=PROGRAM)
    parser.add_argument("--clients", type=int, default=1000)
    parser.add_argument("--each", type=int, default=10)
    parser.add_argument("--limit", type=int, default=60)
    parser.add_argument("--rounds", default=",".join(PUZZLES))
    parser.add_argument("--kinds", default=",".join(KINDS))
    parser.add_argument("--addresses", type=int, default=0)
    parser.add_argument("--folder")
    parser.add_argument("--stalling", action="store_true")
    parser.add_argument("names", nargs="*", default=[""])
    args = parser.parse_args()
    with tempfile.TemporaryDirectory(prefix="hall-crowd-") as tools:
        subprocess.run(["gcc", "-O2", "-o", f"{tools}/crowd", f"{ROOT}/bench/crowd.c"], check=True)
        for name, setting in settings():
            proxy = proxies.HAPROXY if "HAProxy" in name else proxies.NGINX if "nginx" in name else None
            if not any(name.startswith(one) for one in args.names):
                continue
            if proxy and not os.path.exists(proxy):
                print(f"{name}: not run, since {proxy} isn't there")
            else:
                measure(tools, name, setting, args)


if __name__ == "__main__":
    main()
