"""The entrants of an olympiad: what each asks and when, what came of it, and what the rules make of their answers."""
import math
import os
import struct
import subprocess
import sys
import time
from array import array
from collections import Counter, defaultdict
from typing import NamedTuple

from lent import sized
from harness.beside import within
from harness.rows import EXAMPLES, Table
from harness.wire import compact

ID, ANSWERS, PENALTY, BONUS, POINTS = "olympiad", 10, 5, 2, 40
# How many boards of each kind: the longest of examples/lines, but for a Sudoku of 25 by 25.
KINDS, LONGEST_BOARD = {"sudoku": 4, "slither": 3, "nurikabe": 3}, 300
# Seconds of an olympiad whose round has ten minutes: before the start, of reading, between two looks at the rounds, of
# the round, of its last answers, and of what comes after it.
LOBBY, READING, REFRESH, LENGTH, LAST, AFTER = 60, 60, 30, 600, 10, 120
# One in so many entrants protests.
PROTESTS = 500
TOLD = struct.Struct("<IIHHq")


class Text(NamedTuple):
    """A request: its kind, the number and whether the answer is right where it is one, and its bytes."""
    kind: str
    number: int
    right: bool
    bytes: bytes


def boards():
    """(text, solution) of ten boards that examples/lines solves."""
    for kind, count in KINDS.items():
        found = {row.cells[1].strip(): row.cells[3][4:].strip() for row in Table(EXAMPLES / f"lines/{kind}.rows").rows
                 if row.cells[3].startswith(b"one ") and len(row.cells[1]) < LONGEST_BOARD}
        for text in sorted(found, key=len)[-count:]:
            yield text.decode(), found[text].decode()


def wrong(solution):
    """No solution: its first sign is another, and each board has one solution."""
    return {"1": "2" if "/" not in solution else "0", "0": "1", "#": ".", ".": "#"}.get(solution[0], "1") + solution[1:]


def texts_of(found):
    """All requests that entrants make, by a name each."""
    path, texts = f"/rounds/{ID}", {}
    for kind, where in (("rounds", "/rounds"), ("round", path), ("own", f"{path}/answers"), ("table", f"{path}/table"),
                        ("solutions", f"{path}/solutions"), ("protests", f"{path}/protests")):
        texts[kind] = (kind, 0, False, "GET", where, None)
    body = compact({"number": 1, "text": "The third row is unclear."})
    texts["protest"] = ("protest", 0, False, "PUT", f"{path}/protests/why", body)
    for number, (_, solution) in enumerate(found, 1):
        for n in range(ANSWERS):
            for right in (False, True):
                body = compact({"answer": solution if right else wrong(solution)})
                texts[number, n, right] = ("answer", number, right, "PUT", f"{path}/answers/{number}/t{n}", body)
    return {name: Text(*it[:3], sized(it[3], it[4], "key-of-000000", it[5]).split("\n", 1)[1].encode())
            for name, it in texts.items()}


def day(chance, who):
    """What an entrant asks: (second since the beginning, name of the text)."""
    come, start, end = chance.uniform(0, 0.9 * LOBBY), LOBBY, LOBBY + LENGTH
    yield from [(come, "rounds")] * 3
    read = start + chance.uniform(0, READING)
    yield from ((read, name) for name in ("rounds", "round", "own"))
    moments = sorted(chance.uniform(read, end - LAST) for _ in range(ANSWERS - 1)) + [chance.uniform(end - LAST, end)]
    place, n, before = chance.randrange(ANSWERS), 0, read
    for moment in moments:
        if n == 0:
            opened = before + (moment - before) / 10
            yield from [(opened, "rounds"), (opened, "own")]
        right = chance.random() < 0.8
        yield from [(moment, (place % sum(KINDS.values()) + 1, n, right)), (moment, "own")]
        place, n, before = (place + 1, 0, moment) if right else (place, n + 1, moment)
    yield end + chance.random(), "own"
    after = end + chance.uniform(1, AFTER / 2)
    yield from ((after, name) for name in ("rounds", "own", "solutions"))
    if who % PROTESTS == 0:
        yield from ((after, name) for name in ("protests", "protest", "protests"))
    while (come := come + REFRESH) < end + AFTER:
        yield come, "rounds"


def planned(people, places, speed, make):
    """The requests of these people, as olympiad.c reads them."""
    plan = array("I")
    for who in people:
        for at, name in sorted(make(who), key=lambda it: it[0]):
            plan.extend((who, int(1000 * at / speed), places[name]))
    return plan


class Crowd:
    """The entrants, in groups that have a proxy and a process of clients each."""

    def __init__(self, tool, ports, people, texts):
        self.tool, self.ports, self.texts, self.names = tool, ports, list(texts.values()), list(texts)
        self.places = {name: k for k, name in enumerate(texts)}
        size = math.ceil(people / len(ports))
        self.groups = [range(k, min(k + size, people)) for k in range(0, people, size)]
        self.plans, self.found, self.spent = [], [], 0.0

    def plan(self, speed, make):
        self.plans = [planned(group, self.places, speed, make) for group in self.groups]

    def ask(self, begin, limit):
        """Has all that is planned asked, from the second of the beginning on."""
        running = []
        for port, group, plan in zip(self.ports, self.groups, self.plans):
            words = [self.tool, str(port), str(group[0]), str(begin * 1000), str(limit)]
            it = subprocess.Popen(words, stdin=subprocess.PIPE, stdout=subprocess.PIPE)
            running.append(it)
            it.stdin.write(f"{len(self.texts)} {len(plan) // 3}\n".encode())
            for text in self.texts:
                it.stdin.write(f"{len(text.bytes)} {text.bytes.index(b'000000')}\n".encode() + text.bytes)
            it.stdin.write(plan.tobytes())
            it.stdin.close()
        if time.time() > begin:
            sys.exit("the clients were ready after the beginning: the machine is too busy")
        self.found = [it.stdout.read() for it in running]
        for it in running:
            _, status, used = os.wait4(it.pid, 0)
            self.spent, it.returncode = self.spent + used.ru_utime + used.ru_stime, status
        if any(it.returncode for it in running):
            sys.exit("the clients failed")

    def all(self):
        """(whose, its text, when it came due, microseconds, microseconds behind, status, tries before, when its last
        byte was first sent) of each request that was made."""
        for plan, found in zip(self.plans, self.found):
            for k, it in enumerate(TOLD.iter_unpack(found)):
                yield plan[3 * k], self.texts[plan[3 * k + 2]], plan[3 * k + 1], *it


def waits(crowd):
    """Lines of the waits by kind, and how many replies came in the busiest second."""
    took, denied, tries, seconds = defaultdict(lambda: array("I")), Counter(), Counter(), Counter()
    latest = defaultdict(int)
    for _, text, _, micro, behind, status, before, sent in crowd.all():
        if status == 0:
            denied[text.kind, "never answered"] += 1
            continue
        took[text.kind].append(micro)
        tries[text.kind] += before
        latest[text.kind] = max(latest[text.kind], behind)
        seconds[(sent + micro) // 1_000_000] += 1
        if status != 200:
            denied[text.kind, f"denied {status - 1000}" if status > 1000 else f"status {status}"] += 1
    for kind in dict.fromkeys([*took, *(kind for kind, _ in denied)]):
        ordered = sorted(took[kind])
        yield (f"{kind:9} {len(ordered):9,}: median {within(ordered, 0.5) / 1e3:.1f} ms, 99th "
               f"{within(ordered, 0.99) / 1e3:.1f} ms, greatest {within(ordered, 1) / 1e3:.1f} ms; begun up to "
               f"{latest[kind] / 1e6:.1f} s behind their moments; sent again {tries[kind]:,}"
               + "".join(f"; {what} {count:,}" for (of, what), count in denied.items() if of == kind))
    yield f"{sum(seconds.values()):,} replies, in the busiest second {max(seconds.values()):,}"


def late(crowd, begin, end):
    """How many answers were taken; and a line of those that came due, or were sent, before the end and weren't."""
    counts, earliest = Counter(), 0.0
    for _, text, due, _, _, status, _, sent in crowd.all():
        if text.kind == "answer":
            in_time = 0 < sent < end * 1_000_000
            counts["taken"] += status == 200
            counts["sent"] += in_time
            counts["due"] += begin + due / 1e3 < end
            if in_time and status != 200:
                counts["denied"] += 1
                earliest = max(earliest, end - sent / 1e6)
    return counts["taken"], (
        f"answers taken {counts['taken']:,}; came due before the end {counts['due']:,}, sent before it "
        f"{counts['sent']:,}; of these not taken {counts['denied']:,}, sent up to {earliest:.2f} s before it")


def totals(crowd, end, upheld):
    """The least and the greatest total of each entrant by the rules of points: when the hall heard an answer is known
    to lie between its sending and its reply."""
    found = defaultdict(lambda: ({}, Counter(), [0, 0]))
    for who, text, _, micro, _, status, _, sent in crowd.all():
        given, faults, moment = found[who] if text.kind == "answer" and status == 200 else ({0: 0}, None, None)
        if faults is None or text.number in given:
            continue
        if not text.right:
            faults[text.number] += 1
            continue
        given[text.number] = max(0, POINTS - PENALTY * faults[text.number])
        moment[:] = max(moment[0], sent), max(moment[1], sent + micro)
    for who, (given, _, moment) in found.items():
        points = sum(given.values()) + upheld.get(f"e{who:06}", 0)
        left = [BONUS * ((end - it // 1_000_000) // 60) * (len(given) == sum(KINDS.values())) for it in moment]
        yield f"e{who:06}", (points + left[1], points + left[0])


def faults_of(table, wanted):
    """What of the table isn't as the answers make it."""
    lines = [(int(rank), name, int(total)) for rank, name, total in (line.split() for line in table.splitlines())]
    ranks, last = {}, None
    for place, total in enumerate(sorted((total for _, _, total in lines), reverse=True), 1):
        if total != last:
            ranks[total], last = place, total
    yield from set(wanted) ^ {name for _, name, _ in lines}
    yield from (it for it in lines if it[0] != ranks[it[2]])
    yield from (it for it in lines if it[1] in wanted and not wanted[it[1]][0] <= it[2] <= wanted[it[1]][1])
    if lines != sorted(lines, key=lambda it: (-it[2], it[1])):
        yield "the order"
