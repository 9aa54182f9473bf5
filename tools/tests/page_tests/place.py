"""What the trials of the page stand on: a hall behind HAProxy, and rounds in it."""
import contextlib
import http.client
import json
import os
import re
import shutil
import sqlite3
import subprocess
import tempfile
import time

from harness import proxies
from harness.checks import holds
from harness.running import ROOT, free_port, with_people

ENTRANTS = ("dan", "eve", "fay", "gus", "hal", "ida")
PEOPLE = "name,key,roles\n" + "".join(f"{name},{name}-key-1,{role}\n" for name, role in [
    ("dora", "director"), ("bob", "author"), ("rex", "referee"), *((name, "entrant") for name in ENTRANTS)])
MINUTES = 30  # how long the rounds run, and then how long protests are taken
BUDGET = 1_000_000


def none(name, found):
    """Sees that nothing of a kind is found."""
    holds(name, not found, found)


def until(f, seconds=60):
    """What f gives once it gives something; None where that takes longer, as it may on a machine that has much else to
    do. What f raises counts as nothing.
    """
    end = time.monotonic() + seconds
    while time.monotonic() < end:
        with contextlib.suppress(Exception):
            if got := f():
                return got
        time.sleep(0.05)
    return None


def solved(program, name):
    """The first puzzle of a file of bench/ that has exactly one solution, and that."""
    with open(f"{ROOT}/bench/{name}", encoding="ascii") as file:
        texts = [found[0] for line in file if (found := re.match(r"(?:slither|nurikabe|sudoku)/\d+/\d+/\S*", line))]
    for text in texts:
        told = subprocess.run([program, "solve", "--budget", str(BUDGET)], input=text, text=True, capture_output=True,
                              check=False).stdout.split()
        if told[0] == "one":
            return text, told[1]
    raise ValueError(f"no puzzle with one solution in {name}")


class Place:
    """A hall with people and rounds, and the HAProxy before it."""

    def __init__(self, program):
        self.program, self.room = program, tempfile.mkdtemp(prefix="page-")
        os.chmod(self.room, 0o755)
        self.back, self.front = free_port(), free_port()
        self.database, self.hall, self.proxy = f"{self.room}/hall.db", None, None
        self.url = f"http://127.0.0.1:{self.front}/"
        with open(f"{self.room}/people.csv", "w", encoding="ascii") as file:
            file.write(PEOPLE)
        with_people(program, self.database, file.name)

    def __enter__(self):
        self.start_hall()
        self.proxy = proxies.our_haproxy(self.front, self.back, self.room)
        self.wait(self.front)
        return self

    def __exit__(self, *_):
        for one in (self.proxy, self.hall):
            if one and one.poll() is None:
                one.kill()
                one.wait()
        shutil.rmtree(self.room, ignore_errors=True)

    # --- the processes

    def start_hall(self):
        self.hall = subprocess.Popen([self.program, "serve", "--db", self.database, "--port", str(self.back)],
                                     stdout=subprocess.DEVNULL, stderr=subprocess.DEVNULL)
        self.wait(self.back)

    def stop_hall(self):
        self.hall.terminate()
        self.hall.wait()

    def start_proxy(self):
        self.proxy = proxies.haproxy(f"{self.room}/haproxy.cfg")
        self.wait(self.front)

    def kill_proxy(self):
        self.proxy.kill()
        self.proxy.wait()

    @staticmethod
    def wait(port):
        def answers():
            line = http.client.HTTPConnection("127.0.0.1", port, timeout=5)
            line.request("GET", "/rounds")
            return line.getresponse().read()
        if not until(answers):
            raise OSError(f"nothing answers at port {port}")

    def holds_requests(self):
        """Whether bytes wait that a hall which stands still hasn't read: so many of each connection as its fifth column
        says behind the colon."""
        with open("/proc/net/tcp", encoding="ascii") as file:
            rows = [line.split() for line in file.readlines()[1:]]
        own = f":{self.back:04X}"
        return any(row[1].endswith(own) and int(row[4].partition(":")[2], 16) for row in rows)

    # --- the hall's own matters, asked past the proxy

    def ask(self, method, path, who, body=None):
        line = http.client.HTTPConnection("127.0.0.1", self.back, timeout=200)
        line.request(method, path, json.dumps(body) if isinstance(body, dict) else body, {"Hall-Key": f"{who}-key-1"})
        text = line.getresponse().read().decode()
        line.close()
        return json.loads(text) if text.startswith("{") else text

    def answers(self, round_id, who):
        return self.ask("GET", f"/rounds/{round_id}/answers", who)["answers"]

    @staticmethod
    def soon(begun):
        """A moment to begin a round at: so far ahead that a browser as quick as since `begun` is there before."""
        return int(time.time() + 5 + 3 * (time.monotonic() - begun))

    def put_puzzle(self, label, text, author="bob"):
        """The text by which the hall keeps the puzzle, which has exactly one solution."""
        kept = self.ask("PUT", f"/puzzles/{author}/{label}", author, {"text": text})["text"]
        told = self.ask("POST", f"/puzzles/{author}/{label}/certificate", author, {"budget": BUDGET})
        if told != {"state": "one"}:
            raise ValueError(f"{label}: {told}")
        return kept

    def put_round(self, round_id, title, start, labels, author="bob", **sheet):
        """A released round of an author's puzzles, of 40 points, 50, and so on."""
        fields = {"version": 1, "title": title, "minutes": MINUTES, "protest_minutes": MINUTES, "mode": "instant",
                  "start": time.strftime("%Y-%m-%dT%H:%M:%SZ", time.gmtime(start)), "penalty": 5, "bonus": 2, **sheet}
        lines = [f"{name} = {json.dumps(value)}" for name, value in fields.items()]
        lines += [f'[[puzzle]]\nauthor = "{author}"\nlabel = "{label}"\npoints = {40 + 10 * i}'
                  for i, label in enumerate(labels)]
        self.ask("PUT", f"/rounds/{round_id}", "dora", "\n".join(lines))
        told = self.ask("POST", f"/rounds/{round_id}/release", "dora")
        if told != {"released": round_id}:
            raise ValueError(f"{round_id}: {told}")

    def put_begun_round(self, round_id, title, labels, **sheet):
        """The same of a round that has begun, however long the hall took to release it."""
        self.put_round(round_id, title, time.time() + 3600, labels, **sheet)
        self.begin_at(time.time() - 1, round_id)

    def begin_at(self, start, round_id=None):
        """Rewrites the file while nothing serves it, as if the rounds had begun at another moment, or began then."""
        self.stop_hall()
        with contextlib.closing(sqlite3.connect(self.database)) as rows, rows:
            rows.execute("update rounds set start = ? where ? is null or id = ?", (int(start), round_id, round_id))
        self.start_hall()
