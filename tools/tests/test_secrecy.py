"""Random lists of requests, each asked a second time with what an entrant must not learn taken out or changed: the
requests of other entrants, which of two texts is the answer in a sealed round, the puzzles of rounds that haven't
started. The entrant's replies must be the same bytes, with the two texts exchanged too where answers to the round are
listed. --seed N asks others."""
import json
import random
import re
import subprocess
import sys
from pathlib import Path

import pytest
from harness.checks import holds, tell
from harness.running import ROOT
from harness.wire import record, replies, request

sys.path.append(f"{ROOT}/examples/rounds")
from setting import SHEET, compact  # noqa: E402

# So many lists for each thing that is hidden.
LISTS = 30
START = 1777712400
MINUTE = 60
# Name, key and roles; the last two come by a request of the list.
PEOPLE = [
    ("dora", "dora-key", "director"), ("rex", "rex-key-1", "referee"), ("ada", "ada-key-1", "author+entrant"),
    ("bob", "bob-key-1", "author"),
    ("eve", "eve-key-1", "entrant"), ("fay", "fay-key-1", "entrant"), ("gil", "gil-key-1", "entrant"),
]
LATER = [("hal", "hal-key-1", "entrant"), ("kim", "kim-key-1", "referee+entrant")]
KEYS = [key for _, key, _ in PEOPLE + LATER]
ALONE = [key for _, key, roles in PEOPLE + LATER if roles == "entrant"]
# Puzzles with one solution, and answers to them, the first of which is right.
BOARDS = [
    ("sudoku/4/4/123434122143432g", ["1234341221434321", "1234341221434312", "1234341221434", "hello"]),
    ("nurikabe/2/2/1i", [".###", ".##.", "####", "#"]),
    ("sudoku/4/4/12343412214343g1", ["1234341221434321", "1234341221434312", "4321", ""]),
    ("nurikabe/1/2/1j", [".#", "#.", "..", "##"]),
]
LABELS = ["p1", "p2", "p3", "p4"]
# Id, minutes from the first start, minutes, mode, and the place of its puzzle among the boards. r4 starts last.
ROUNDS = [
    ("r1", 0, 60, "instant", 0), ("r2", 30, 60, "sealed", 1), ("r3", 90, 30, "sealed", 2),
    ("r4", 600, 30, "instant", 3),
]
TOKENS = ["t1", "t2", "t3"]
BEFORE = START - 1000
# One list in so many has a crowd of answers.
CROWDED = 5


def people_csv(people):
    return "".join(f"{line}\n" for line in ["name,key,roles", *(",".join(person) for person in people)])


def sheet(minutes, mode, label, title="Morning"):
    hours, rest = divmod(9 * 60 + minutes, 60)
    fields = {"title": title, "start": f"2026-05-02T{hours:02}:{rest:02}:00Z", "mode": mode, "penalty": 5, "bonus": 2}
    return SHEET.format(**fields, author="bob", label=label, points=40)


def put(label, text):
    return BEFORE, "bob-key-1", "PUT", f"/puzzles/bob/{label}", compact({"text": text})


def answer_of(text):
    return compact({"answer": text})


def certify(label):
    return BEFORE, "bob-key-1", "POST", f"/puzzles/bob/{label}/certificate", compact({"budget": 1000})


def opening(boards):
    """The puzzles, put and certified, and the rounds, released."""
    asked = []
    for label, (text, _) in zip(LABELS, boards, strict=True):
        asked += [put(label, text), certify(label)]
    for name, start, minutes, mode, place in ROUNDS:
        text = sheet(start, mode, LABELS[place]).replace("\nminutes = 60", f"\nminutes = {minutes}")
        asked.append((BEFORE, "dora-key", "PUT", f"/rounds/{name}", text))
        asked.append((BEFORE, "dora-key", "POST", f"/rounds/{name}/release", ""))
    return asked


def crowd(key, seed):
    """Answers of the others who are entrants alone, together more than one entrant may give to a puzzle of a round, and
    then one under the key."""
    name, start, _, _, place = random.Random(f"crowd {seed}").choice(ROUNDS)
    answers = [(other, f"c{n}") for n in range(20) for other in ALONE if other != key] + [(key, "last")]
    moment, body = START + MINUTE * start, answer_of(BOARDS[place][1][0])
    submits = [(moment, caller, "PUT", f"/rounds/{name}/answers/1/{token}", body) for caller, token in answers]
    return [(BEFORE, "dora-key", "POST", "/people", people_csv(LATER)), *submits]


class Maker:
    """Random requests: of each caller, about rounds that are there and others, at moments round their starts and
    ends."""

    def __init__(self, seed, latest=None):
        self.random, self.latest = random.Random(seed), latest

    def moment(self):
        at = START + MINUTE * self.random.choice([0, 30, 60, 90, 120, 150]) + self.random.choice([-1, 0, 1, 600])
        return min(at, self.latest) if self.latest is not None else at

    def request(self, publishes):
        pick = self.random.choice
        name, _, _, _, place = pick(ROUNDS)
        key, token, text = pick(KEYS), pick(TOKENS), pick(BOARDS[place][1])
        submit = ("PUT", f"/rounds/{name}/answers/{pick('1112')}/{token}", answer_of(text))
        protest = ("PUT", f"/rounds/{name}/protests/{token}", compact({"number": 1, "text": pick(["No.", "Unclear."])}))
        ruled = f"/rounds/{name}/rulings/{pick(['eve', 'fay', 'gil', 'hal'])}/{token}"
        ruling = ("PUT", ruled, compact({"points": pick([0, 3]), "upheld": True}))
        puzzle = ("PUT", f"/puzzles/{pick(['bob', 'ada'])}/{pick(LABELS + ['x1'])}", compact({"text": pick(BOARDS)[0]}))
        certify = ("POST", f"/puzzles/bob/{pick(LABELS)}/certificate", compact({"budget": pick([1, 1000])}))
        draft = ("PUT", f"/rounds/{pick(['r2', 'r8', 'r9'])}", sheet(120, "instant", pick(LABELS + ["x1"])))
        paths = ["/rounds", "/puzzles", f"/puzzles/bob/{pick(LABELS)}", f"/rounds/{name}", f"/rounds/{name}/table"]
        reads = [("GET", path, "") for path in paths]
        lists = [("GET", f"/rounds/{name}/{what}", "") for what in ["answers", "protests", "solutions"]]
        people = ("POST", "/people", people_csv(LATER))
        others = [ruling, puzzle, certify, draft, people, ("POST", f"/rounds/{pick(['r2', 'r8', 'r9'])}/release", "")]
        if publishes:
            others.append(("POST", f"/rounds/{pick(['r1', 'r3'])}/publish", ""))
        kind = pick([[submit], [submit], [protest], reads, lists, lists, others])
        return self.moment(), key, *pick(kind)

    def requests(self, count, publishes=False):
        return [self.request(publishes) for _ in range(count)]


class Program:
    """The program, and an entry list in a folder."""

    def __init__(self, path, room):
        self.path, self.people = path, Path(room) / "people.csv"
        self.people.write_text(people_csv(PEOPLE), encoding="ascii")

    def told(self, key, asked):
        """The replies to the requests under the key, each after the path that was asked."""
        given = "".join(record(moment, request(*rest)) for moment, *rest in asked).encode()
        words = [self.path, "replay", "--people", self.people]
        ran = subprocess.run(words, input=given, capture_output=True, timeout=120, check=True)
        whole = replies(ran.stdout)
        assert len(whole) == len(asked), "a reply to each request"
        return [(path, reply) for (_, other, _, path, _), reply in zip(asked, whole, strict=True) if other == key]


def without_others(key, asked):
    """The list without the requests of others who are entrants alone."""
    return [one for one in asked if one[1] == key or one[1] not in ALONE]


def exchanged(name, texts, asked):
    """The list in which each of the two texts stands for the other in the round."""
    bodies = {answer_of(one): answer_of(other) for one, other in texts.items()}
    answers = f"/rounds/{name}/answers/"
    return [(*one[:4], bodies.get(one[4], one[4])) if one[3].startswith(answers) else one for one in asked]


def exchanged_reply(name, texts, path, reply):
    """The reply, with each of the two texts for the other where it lists answers to the round."""
    head, body = reply.split(b"\r\n\r\n", 1)
    if path != f"/rounds/{name}/answers" or not body.startswith(b'{"answers":'):
        return reply
    lines = [line | {"answer": texts.get(line["answer"], line["answer"])} for line in json.loads(body)["answers"]]
    body = compact({"answers": lines}).encode()
    return re.sub(rb"Content-Length: \d+", b"Content-Length: %d" % len(body), head) + b"\r\n\r\n" + body


class Compared:
    """How many replies were compared, and how many of them tell more than a denial."""

    def __init__(self):
        self.replies = self.telling = 0

    def check(self, what, lists, one, other):
        """The two lists differ, and the replies don't."""
        self.replies += len(one)
        self.telling += sum(reply.startswith(b"HTTP/1.1 200") for _, reply in one)
        holds(f"{what}: the second list is the first", lists[0] != lists[1])
        unlike = (n for n, pair in enumerate(zip(one, other)) if pair[0] != pair[1])
        place = next(unlike, min(len(one), len(other)))
        told = f"{what}: reply {place} of {len(one)} and {len(other)}"
        holds(told, one == other, one[place : place + 1], "and", other[place : place + 1])


def hides_others(program, seed, compared):
    key = random.Random(seed).choice(ALONE)
    asked = opening(BOARDS) + (crowd(key, seed) if seed % CROWDED == 0 else []) + Maker(f"others {seed}").requests(150)
    lists = [asked, without_others(key, asked)]
    compared.check(f"others, seed {seed}", lists, *[program.told(key, some) for some in lists])


def hides_verdicts(program, seed, compared):
    chosen = random.Random(seed)
    name, start, minutes, _, place = ROUNDS[chosen.choice([1, 2])]
    first, second = BOARDS[place][1][0], chosen.choice(BOARDS[place][1][1:])
    texts = {first: second, second: first}
    end = START + MINUTE * (start + minutes)
    asked = opening(BOARDS) + Maker(f"sealed {seed}", end - 1).requests(150, publishes=True)
    lists = [asked, exchanged(name, texts, asked)]
    for key in ALONE:
        one, other = [program.told(key, some) for some in lists]
        one = [(path, exchanged_reply(name, texts, path, reply)) for path, reply in one]
        compared.check(f"sealed, seed {seed}, {key}", lists, one, other)


def hides_puzzles(program, seed, compared):
    """The boards of r3 and r4 are others, and one of no round has another state; the requests are an entrant's before
    r3 and r4 start."""
    chosen = random.Random(seed)
    key = chosen.choice(ALONE)
    changed = BOARDS[:2] + chosen.sample(BOARDS, 2)
    start = START + MINUTE * ROUNDS[2][1]
    later = [(min(one[0], start - 1), key, *one[2:]) for one in Maker(f"start {seed}", start - 1).requests(150)]
    first = opening(BOARDS) + [put("x1", BOARDS[0][0])]
    second = opening(changed) + [put("x1", BOARDS[1][0]), certify("x1")]
    lists = [before + later for before in (first, second)]
    compared.check(f"before the start, seed {seed}", lists, *[program.told(key, some) for some in lists])


HIDDEN = {
    "other entrants": hides_others, "verdicts of a sealed round": hides_verdicts,
    "puzzles before the start": hides_puzzles,
}


@pytest.mark.parametrize("what", HIDDEN)
def test_secrecy(what, program, room, pytestconfig):
    compared, of, first = Compared(), Program(program, room), pytestconfig.option.seed
    for seed in range(first, first + LISTS):
        HIDDEN[what](of, seed, compared)
    tell(f"secrecy of {what}: {compared.replies} replies compared, {compared.telling} of them no denial")
    holds(f"secrecy of {what}: nothing but denials was compared", compared.telling)
