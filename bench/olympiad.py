#!/usr/bin/env python3
"""Rehearses an olympiad: entrants in lists of 5,000, a round of ten puzzles, protests and rulings, its publication, the
table, and an archive by hallctl, through HAProxy with the file of examples/running.

    python3 bench/olympiad.py [--people N] [--minutes M] [--connections N] [--program PATH] [--folder FOLDER]

Each entrant (entrants.py, olympiad.c) asks what the page asks, on a kept connection: the rounds as they come in and
each 30 seconds; the rounds, the round and their answers, all within a minute of the start; the rounds and their answers
as they open a puzzle, and these again after each answer, at the end and after it. Each hands in ten answers in ten
minutes, the tenth within the last ten seconds. With --minutes 1 all of this goes ten times as fast. The hall is started
again a second after it ends, as its unit does. Told are the waits, what was denied though it was sent in time, memory,
and whether the table is what the rules make of the answers that were taken. It ends with 1 where it isn't.
"""
import argparse
import contextlib
import math
import os
import random
import subprocess
import sys
import tempfile
import threading
import time
from collections import defaultdict

from entrants import (AFTER, BONUS, ID, LENGTH, LOBBY, PENALTY, POINTS, Crowd, boards, day, faults_of, late, texts_of,
                      totals, waits)
from lent import PROGRAM
from harness import proxies
from harness.clients import scheduled
from harness.running import ROOT, free_port, wait_for

sys.path.append(f"{ROOT}/clients/hallctl")
from hall_client.wire import Hall  # noqa: E402

IN_LIST, STAFF = 5000, {"dora": "director", "bob": "author", "rex": "referee"}
# One in so many entrants looks at the table.
LOOKS = 200
# A process may have so many connections. Where more come, there are as many proxies as that takes, and clients of each.
MOST = 15_000


class Serving(threading.Thread):
    """The hall, started again a second after it ends: how often, its greatest memory by what goes on (kB), and its
    processor time."""

    def __init__(self, program, path, port, connections):
        super().__init__(daemon=True)
        self.words = [program, "serve", "--db", path, "--port", str(port), "--connections", str(connections)]
        self.over, self.doing, self.worked, self.memory = threading.Event(), "before", [], defaultdict(int)

    def run(self):
        while not self.over.is_set():
            with subprocess.Popen(self.words, stderr=subprocess.DEVNULL) as hall:
                self.worked.append(0.0)
                while hall.poll() is None:
                    self.look(hall.pid)
                    if self.over.wait(0.1):
                        hall.terminate()
                        hall.wait()
            self.over.wait(1)

    def look(self, pid):
        with contextlib.suppress(OSError, StopIteration), open(f"/proc/{pid}/status", encoding="ascii") as file:
            self.worked[-1] = scheduled(pid)[0]
            kept = int(next(line for line in file if line.startswith("VmRSS")).split()[1])
            self.memory[self.doing] = max(self.memory[self.doing], kept)


class Beside(threading.Thread):
    """An entrant who asks for the rounds, straight, a hundred times a second: the longest wait."""

    def __init__(self, port):
        super().__init__(daemon=True)
        self.hall, self.over, self.longest = Hall(f"http://127.0.0.1:{port}", "key-of-000000"), False, 0.0

    def run(self):
        while not self.over:
            begun = time.monotonic()
            self.hall.get("/rounds")
            self.longest = max(self.longest, time.monotonic() - begun)
            time.sleep(0.01)


def made_proxy(number, of, back, room, size):
    """(port, process) of HAProxy by its file, with room for so many connections; several share the hall's places."""
    def change(text):
        for line, other in [("    maxconn 3000\n", f"    maxconn {size + 500}\n    no strict-limits\n"
                             + "    nbthread 1\n" * (of > 1)), ("maxconn 380", f"maxconn {380 // of}")]:
            if text.count(line) != 1:
                raise ValueError(line)
            text = text.replace(line, other)
        return text
    os.makedirs(f"{room}/proxy{number}")
    port = free_port()
    made = proxies.our_haproxy(port, back, f"{room}/proxy{number}", change=change)
    wait_for(port)
    return port, made


def imported(args, path, room):
    """Makes the file of the staff and all lists, each by an import; the seconds that it took."""
    lists = [[(name, f"{name}-key-1", role) for name, role in STAFF.items()]]
    lists += [[(f"e{who:06}", f"key-of-{who:06}", "entrant") for who in range(k, min(k + IN_LIST, args.people))]
              for k in range(0, args.people, IN_LIST)]
    begun = time.monotonic()
    for people in lists:
        with open(f"{room}/list.csv", "w", encoding="ascii") as file:
            file.write("name,key,roles\n" + "".join(",".join(it) + "\n" for it in people))
        words = [args.program, "init", "--db", path, "--people", f"{room}/list.csv"]
        subprocess.run(words, stdout=subprocess.DEVNULL, check=True)
    return time.monotonic() - begun


def released(url, found, minutes):
    """Puts and certifies the boards, and puts and releases the round; the second of its start."""
    bob, dora = Hall(url, "bob-key-1"), Hall(url, "dora-key-1")
    for number, (text, _) in enumerate(found, 1):
        bob.put(f"/puzzles/bob/p{number}", {"text": text})
        bob.done("POST", f"/puzzles/bob/p{number}/certificate", b'{"budget":200000}')
    # Time for the plans to be handed over, and for the entrants to come.
    start = math.ceil(time.time()) + 10 + LOBBY * minutes // 10
    sheet = f"""version = 1
title = "Olympiad"
start = "{time.strftime("%Y-%m-%dT%H:%M:%SZ", time.gmtime(start))}"
minutes = {minutes}
protest_minutes = {math.ceil(AFTER / LENGTH * minutes)}
mode = "instant"
penalty = {PENALTY}
bonus = {BONUS}
""" + "".join(f'[[puzzle]]\nauthor = "bob"\nlabel = "p{k}"\npoints = {POINTS}\n' for k in range(1, len(found) + 1))
    dora.done("PUT", f"/rounds/{ID}", sheet.encode())
    dora.done("POST", f"/rounds/{ID}/release")
    return start


def ruled(url):
    """Rules on all protests, every second one upheld; the points of each who protested."""
    rex, points = Hall(url, "rex-key-1"), {}
    for k, it in enumerate(rex.get(f"/rounds/{ID}/protests")["protests"]):
        points[it["entrant"]] = 3 * (k % 2)
        rex.put(f"/rounds/{ID}/rulings/{it['entrant']}/{it['token']}", {"points": 3 * (k % 2), "upheld": k % 2 == 1})
    return points


class Step:
    """Prints how long something took, and how long an entrant waited beside it at most."""

    def __init__(self, serving, port):
        self.serving, self.port = serving, port

    def __call__(self, name, made):
        self.serving.doing, beside, begun = name, Beside(self.port), time.monotonic()
        beside.start()
        time.sleep(0.5)
        begun, told = time.monotonic(), made()
        took, beside.over = time.monotonic() - begun, True
        beside.join()
        print(f"{name}: {took:.2f} s, another waited {1e3 * beside.longest:.0f} ms at most", flush=True)
        return told


def after(crowd, step, url, room, end, taken):
    """Protests are ruled, the round is published, the table is told and looked at, and all is kept by hallctl. Whether
    the table and the archive are as the answers make them."""
    dora = Hall(url, "dora-key-1")
    upheld = step("rulings", lambda: ruled(url))
    wanted = dict(totals(crowd, end, upheld))
    step("publication", lambda: dora.done("POST", f"/rounds/{ID}/publish"))
    table = step("first table", lambda: dora.done("GET", f"/rounds/{ID}/table")).body.decode()
    wrong_lines = list(faults_of(table, wanted))
    print(f"table: {table.count(chr(10)):,} lines, {len(wrong_lines)} not as the answers make them {wrong_lines[:3]}")
    crowd.plan(1, lambda who: [(0, "rounds"), (0, "table")] if who % LOOKS == 0 else [])
    step("looks at the table, two seconds before them too", lambda: crowd.ask(math.ceil(time.time()) + 2, 600))
    print("\n".join(waits(crowd)))
    with open(f"{room}/key", "w", encoding="ascii", opener=lambda *it: os.open(*it, 0o600)) as file:
        file.write("dora-key-1\n")
    words = [f"{ROOT}/clients/hallctl/hallctl", "--url", url, "--key-file", f"{room}/key", "archive", f"{room}/kept"]
    step("archive", lambda: subprocess.run(words, stdout=subprocess.DEVNULL, check=True))
    with open(f"{room}/kept/{ID}/answers.csv", encoding="utf-8") as file:
        kept = sum(1 for _ in file) - 1
    print(f"archive: {kept:,} answers of {taken:,} that were taken")
    return not wrong_lines and kept == taken


def held(args, tool, room):
    """Holds the olympiad in a folder, and tells of it; whether all was as it ought to be."""
    path, back, found = f"{room}/hall.db", free_port(), list(boards())
    print(f"{args.people:,} people imported in {imported(args, path, room):.1f} s", flush=True)
    serving = Serving(args.program, path, back, args.connections)
    texts, of = texts_of(found), math.ceil(args.people / MOST)
    serving.start()
    wait_for(back)
    made = [made_proxy(k, of, back, room, math.ceil(args.people / of)) for k in range(of)]
    try:
        crowd, url = Crowd(tool, [port for port, _ in made], args.people, texts), f"http://127.0.0.1:{made[0][0]}"
        chance = random.Random(args.people)
        crowd.plan(10 / args.minutes, lambda who: day(chance, who))
        start = released(url, found, args.minutes)
        begin, end, serving.doing = start - LOBBY * args.minutes // 10, start + 60 * args.minutes, "round"
        before = sum(serving.worked)
        crowd.ask(begin, math.ceil((LOBBY + LENGTH + 4 * AFTER) * args.minutes / 10))
        over = time.time() - begin
        print(f"the round with its protests: {over:.0f} s, the hall worked {sum(serving.worked) - before:.0f} s of them"
              f", the clients {crowd.spent:.0f} s; {len(serving.worked) - 1} times the hall was started again")
        taken, told = late(crowd, begin, end)
        print("\n".join([*waits(crowd), told]), flush=True)
        time.sleep(max(0, end + 60 * math.ceil(AFTER / LENGTH * args.minutes) + 1 - time.time()))
        is_right = after(crowd, Step(serving, back), url, room, end, taken)
    finally:
        for _, proxy in made:
            proxy.terminate()
            proxy.wait()
        serving.over.set()
        serving.join()
    print("memory of the hall, MB: " + ", ".join(f"{it} {kB / 1024:.0f}" for it, kB in serving.memory.items()))
    print("file, MB: " + ", ".join(f"{os.path.getsize(path + it) / 1e6:.1f}" for it in ("", "-wal")))
    checked = subprocess.run([args.program, "check", "--db", path], capture_output=True, text=True, check=False)
    print(checked.stdout + checked.stderr, end="")
    return is_right and checked.returncode == 0


def main():
    parser = argparse.ArgumentParser(description=__doc__, formatter_class=argparse.RawDescriptionHelpFormatter)
    parser.add_argument("--people", type=int, default=1000)
    parser.add_argument("--minutes", type=int, default=1)
    parser.add_argument("--connections", type=int, default=1_000_000, help="of the hall until it is started again")
    parser.add_argument("--program", default=PROGRAM, type=os.path.abspath)
    parser.add_argument("--folder")
    args = parser.parse_args()
    print(f"{args.people:,} people, {args.minutes} minutes, load {os.getloadavg()[0]:.1f}", flush=True)
    with tempfile.TemporaryDirectory(prefix="hall-olympiad-", dir=args.folder) as room:
        os.chmod(room, 0o755)
        subprocess.run(["gcc", "-O2", "-o", f"{room}/olympiad", f"{ROOT}/bench/olympiad.c"], check=True)
        is_right = held(args, f"{room}/olympiad", room)
    print(f"load {os.getloadavg()[0]:.1f}")
    sys.exit(not is_right)


if __name__ == "__main__":
    main()
