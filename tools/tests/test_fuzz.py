"""Random bytes, requests with random changes, and requests with random bodies: as records of replays, and over
connections.

Each must be answered by a reply of the known forms, and the program never fault. The world that a director reads
afterwards is the one that the requests left which were answered as done, of the nine that write: it is read in a second
replay of these alone, and must be the same bytes. The gate asks GATE, and --all ALL of them; --seed N asks others.
"""
import json
import random
import re
import socket
import subprocess
from pathlib import Path

import pytest
from harness.checks import Ways
from harness.clients import status
from harness.rows import Table, of_request, record_of
from harness.running import PATIENCE, PEOPLE, ROOT, connected, content_of, read_off, serving, with_people
from harness.wire import compact, replies, request

# Records of replays, and connections.
GATE, ALL = (40_000, 1_000), (190_000, 10_000)
# How many tests share the records.
SHARES = 4
# So many records are one replay, and the world is read after each so many.
REPLAY, READ_AFTER = 1_000, 100
CONNECTIONS = 20

KEYS = ["dora-key", "ada-key-1", "bob-key-1", "eve-key-1", "fay-key-1", "rex-key-1", "hal-key-1", "no-such-key", "x"]
NAMES = ["dora", "ada", "bob", "eve", "fay", "rex", "hal", "zed", "a", "tttttttttttttttttttttttt", "Bob", ""]
LABELS = ["p1", "p2", "p3", "q1", "v"]
ROUND_IDS = ["r1", "r2", "r3", "r4", "r5", "r6"]
TOKENS = ["k1", "t1", "w1", "f1", "z" * 32]
TEXTS = [
    "sudoku/4/4/123434122143432g", "sudoku/4/4/123434122143g32g", "sudoku/4/4/v", "nurikabe/2/2/1i", "slither/2/2/222c",
    "sudoku/25/25/-19", "sudoku/6/6/zv", "nurikabe/1/1/+0ff", "https://puzz.link/p?slither/2/2/222c/", "kakuro/4/4/",
    "slither/50/21/", "sudoku/4/4/5u",
]
ANSWERS = ["1234341221434321", "1234341221434312", ".###", ".##.", "110011/101101", "", "x" * 4_000, "x" * 4_001]
MOMENTS = [0, 1777700000, 1777712399, 1777712400, 1777714260, 1777715999, 1777716000, 1777717799, 1777717800]
LATEST = 4102444800
NUMBERS = [0, 1, 2, 3, -1, 40, 60, 99, 100, 1_000, 1_001, 1_440, 10_081, 65_536, 2**63, -(2**63), 1.0, 1e400, 1e-3]
SHEET = Path(ROOT, "examples/sheets/tested.toml").read_text(encoding="ascii")
PIECES = [b"\r\n", b"0", b"9", b'"', b"/", b"-", b"+", b" ", b"\0", b"\xff"]
STRANGE = ["", "\0", "é", "\U0001f600", "a\nb", '"', "\\", "a" * 70, "-" * 24, "ROUND", " p1", "p1 "]

FIELDS = "list name key roles version title start zone minutes protest_minutes mode penalty bonus testers puzzle"
FIELDS = f"({'|'.join(f'{FIELDS} author label points text budget answer number upheld'.split())})"
HEAD = re.compile(
    rb"HTTP/1\.1 (200 OK|400 Bad Request|403 Forbidden|404 Not Found)\r\n"
    rb"Content-Type: (application/json|text/plain)\r\nContent-Length: \d+\r\n\r\n"
)
PLAIN, PLACED = "(F[1457]|E[2-4])", "E[5-8]"
REFUSED = {
    b"400 Bad Request": rf'\{{("field":"{FIELDS}","form":"F[238]"|"form":"{PLAIN}"|"form":"{PLACED}","place":\d+)\}}',
    b"403 Forbidden": r'\{"denied":([1235-9]|1\d|20)\}',
    b"404 Not Found": r'\{"denied":4\}|\{"form":"F6"\}',
}
STATE, WORD, TEXT = "(new|one|none|more|gave up)", "[a-z0-9-]{1,32}", r'(\\["\\]|[ !#-\[\]-~])*'
VERDICT = "(right|wrong( [AUSN][0-6])+)"
# What is replied where one of the nine was done, and where one of the others was.
DONE = re.compile("|".join([
    r'\{"added":\d+\}', rf'\{{"state":"{STATE}"(,"text":"{TEXT}")?\}}',
    rf'\{{"(round|released|published|protest)":"{WORD}"\}}',
    rf'\{{"received":\d+(,"verdict":"{VERDICT}")?\}}', r'\{"points":-?\d+,"ruled":"(upheld|rejected)"\}',
]))
READ = re.compile(r'\{"(author|puzzles|rounds|bonus|answers|solutions|protests)":.*\}', re.S)
MEMBERS = "author label state text puzzles rounds id minutes mode published released start title bonus penalty number n"
MEMBERS = f"{MEMBERS} points protest_minutes answers answer entrant moment token verdict solutions protests ruling"
LINE = re.compile(r" *\d+ [a-z0-9-]{1,24} +-?\d+\n")


def is_known(reply):
    """Whether the reply has a known form."""
    head = HEAD.match(reply)
    if not head or not status(reply):
        return False
    body = reply[head.end() :].decode("ascii", "replace")
    if head[2] == b"text/plain":
        return head[1] == b"200 OK" and LINE.sub("", body) == ""
    if head[1] != b"200 OK":
        return re.fullmatch(REFUSED[head[1]], body) is not None
    return is_done(reply) or READ.fullmatch(body) is not None and is_listing(body)


def is_done(reply):
    head, _, body = reply.partition(b"\r\n\r\n")
    return head.startswith(b"HTTP/1.1 200 OK\r\n") and DONE.fullmatch(body.decode("ascii", "replace")) is not None


def is_listing(body):
    """Compact JSON with members of known names, in the order of their bytes."""
    told = json.loads(body)
    return compact(told) == body and members(told) <= set(MEMBERS.split())


def members(told):
    if isinstance(told, dict):
        return set(told).union(*map(members, told.values()))
    return set().union(*map(members, told)) if isinstance(told, list) else set()


class Maker:
    """Random bytes and requests."""

    def __init__(self, seed):
        self.random = random.Random(seed)

    def pick(self, some):
        return self.random.choice(some)

    def words(self):
        """A key, a method, a path and the body that belongs to them."""
        method, path, body, keys = self.pick(ROUTES)
        path = "/".join(self.pick(WORDS[word]) if word in WORDS else word for word in path.split("/"))
        return self.pick(keys if self.random.random() < 0.7 else KEYS), method, path, body(self)

    def nothing(self):
        return self.pick(["", "", "", "x"])

    def value(self):
        return self.pick([None, True, [], {}, "", *NUMBERS, *STRANGE, [1], {"text": 1}])

    def object(self, **values):
        """JSON with these members, sometimes with others or other values."""
        made = {name: self.pick(some) for name, some in values.items()}
        for _ in range(self.pick([0, 0, 0, 1, 2])):
            made[self.pick([*made, "other"])] = self.value()
        if self.random.random() < 0.1:
            made.pop(self.pick(list(made)))
        return json.dumps(made, ensure_ascii=self.pick([True, False]), separators=self.pick([(",", ":"), (", ", ": ")]))

    def people(self):
        roles = ["entrant", "author+referee", "director", "entrant+director", "judge", ""]
        cells = [NAMES + STRANGE, KEYS + STRANGE, roles]
        rows = [list(map(self.pick, cells)) for _ in range(self.pick([0, 1, 1, 2]))]
        return "".join(",".join(row) + self.pick(["\n", "\r\n"]) for row in [["name", "key", "roles"], *rows])

    def sheet(self):
        text = SHEET.replace("p1", self.pick(LABELS)).replace("bob", self.pick(["ada", "bob", "bob", "zed"]))
        lines = text.splitlines()
        for _ in range(self.pick([0, 0, 1, 1, 2])):
            at = self.random.randrange(len(lines))
            line, name = lines[at], lines[at].partition(" =")[0]
            value = f"{name} = {self.pick([json.dumps(self.value()), self.pick(NUMBERS)])}"
            lines[at : at + 1] = self.pick([[], [line, line], [value], [value], [f"{line} # x"], [line[:-1]]])
        return "\n".join(lines) + "\n"

    def request(self):
        return self.fits(request(*self.words()).encode())

    def fits(self, asked):
        """The request with the length that its body has."""
        head, end, body = asked.partition(b"\r\n\r\n")
        return re.sub(rb"Content-Length: [^\r]*", b"Content-Length: %d" % len(body), head) + end + body

    def changed(self):
        """A request with a few of its bytes changed, cut off, doubled or put elsewhere."""
        asked, pick = bytearray(self.request()), self.pick
        for _ in range(pick([1, 1, 2, 4, 8])):
            at, size = self.random.randrange(len(asked) + 1), pick([1, 1, 1, 4, 20])
            part = asked[at : at + size]
            asked[at : at + size] = pick([b"", part * 2, part.swapcase(), self.random.randbytes(size), *PIECES])
            if self.random.random() < 0.1:
                other = self.request()
                asked[at:] = other[self.random.randrange(len(other)) :]
        return self.fits(bytes(asked)) if self.random.random() < 0.6 else bytes(asked)

    def noise(self):
        size = self.pick([0, 1, 2, 10, 50, 300, 3_000])
        letters = self.random.choices(b"GETPOSU /: \r\n{}[]\",=0123456789abc", k=size)
        return self.pick([self.random.randbytes(size), bytes(letters), b"\r\n" * size])

    def any(self):
        return self.pick([self.request] * 5 + [self.changed] * 4 + [self.noise])()


WORDS = {
    "{author}": ["ada", "bob", "bob", "eve", "zed"], "{label}": LABELS, "{round}": ROUND_IDS, "{token}": TOKENS,
    "{entrant}": ["eve", "fay", *NAMES], "{number}": ["1", "1", "1", "2", "99", "0", "100"],
}
DORA, REX, AUTHORS, ENTRANTS = ["dora-key"], ["rex-key-1"], ["bob-key-1", "ada-key-1"], ["eve-key-1", "fay-key-1"]
# Methods, paths, the bodies that belong to them, and keys under which they may be allowed.
ROUTES = [
    ("POST", "/people", Maker.people, DORA),
    ("PUT", "/puzzles/{author}/{label}", lambda it: it.object(text=TEXTS), AUTHORS),
    ("GET", "/puzzles/{author}/{label}", Maker.nothing, AUTHORS),
    ("GET", "/puzzles", Maker.nothing, AUTHORS),
    ("POST", "/puzzles/{author}/{label}/certificate", lambda it: it.object(budget=[0, 1, 30, 1_000]), AUTHORS),
    ("PUT", "/rounds/{round}", Maker.sheet, DORA),
    ("POST", "/rounds/{round}/release", Maker.nothing, DORA),
    ("GET", "/rounds", Maker.nothing, KEYS),
    ("GET", "/rounds/{round}", Maker.nothing, ENTRANTS),
    ("PUT", "/rounds/{round}/answers/{number}/{token}", lambda it: it.object(answer=ANSWERS), ENTRANTS),
    ("GET", "/rounds/{round}/answers", Maker.nothing, ENTRANTS),
    ("GET", "/rounds/{round}/solutions", Maker.nothing, ENTRANTS),
    ("PUT", "/rounds/{round}/protests/{token}", lambda it: it.object(number=[1, 2], text=["No.", "x" * 201]), ENTRANTS),
    ("GET", "/rounds/{round}/protests", Maker.nothing, ENTRANTS),
    ("PUT", "/rounds/{round}/rulings/{entrant}/{token}", lambda it: it.object(points=[0, 3], upheld=[True]), REX),
    ("POST", "/rounds/{round}/publish", Maker.nothing, DORA),
    ("GET", "/rounds/{round}/table", Maker.nothing, KEYS),
]


def reads():
    """What a director reads of the world, and how many of some people are unknown."""
    paths = ["/puzzles", "/rounds", *(f"/puzzles/{author}/{label}" for author in ("ada", "bob") for label in LABELS)]
    whats = ["", "/answers", "/protests", "/solutions", "/table"]
    paths += [f"/rounds/{name}{what}" for name in ROUND_IDS for what in whats]
    return [record_of(LATEST, request("dora-key", "GET", path).encode()) for path in paths]


def opening():
    """The worked rows, up to where two rounds are released."""
    table = Table(Path(ROOT, "examples/requests/worked.rows"))
    rows = table.before + table.rows
    last = max(place for place, row in enumerate(rows) if b"/release" in row.cells[2])
    return [of_request(row)[1] for row in rows[: last + 1]]


class Replays:
    def __init__(self, program):
        self.program, self.before, self.read = program, opening(), reads()

    def run(self, asked, ways):
        words = [self.program, "replay", "--people", PEOPLE]
        ran = subprocess.run(words, input=b"".join(asked), capture_output=True, timeout=PATIENCE, check=False)
        told = replies(ran.stdout)
        if (ran.returncode, ran.stderr, len(told)) != (0, b"", len(asked)):
            ways.add(None, "a replay ended so:", ran.returncode, ran.stderr, len(told), "of", len(asked), "replies")
        return told + [b""] * (len(asked) - len(told))

    def ask(self, seed, count, ways):
        maker, places = Maker(seed), range(0, count, READ_AFTER)
        groups = [[record_of(maker.pick([*MOMENTS, LATEST]), maker.any()) for _ in range(READ_AFTER)]
                  for _ in places]
        told = self.groups_told(groups, ways)
        done = [[it for it, reply in zip(group, some) if is_done(reply)] for group, (some, _) in zip(groups, told)]
        for group, (some, _) in zip(groups, told):
            for asked, reply in zip(group, some):
                ways.add(way_of(reply), seed, asked[:400], reply[:400])
        again = self.groups_told(done, ways)
        for group, (some, world), (others, other) in zip(groups, told, again):
            if world != other or [reply for reply in some if is_done(reply)] != others:
                pairs = [pair for pair in zip(world, other) if pair[0] != pair[1]]
                ways.add(None, seed, "the world isn't that of the done requests alone", pairs[:2])

    def groups_told(self, groups, ways):
        """For each group the replies to it, and to the reads after it."""
        asked = self.before + [record for group in groups for record in group + self.read]
        told, at, found = self.run(asked, ways), len(self.before), []
        for group in groups:
            end = at + len(group)
            found.append((told[at:end], told[end : end + len(self.read)]))
            at = end + len(self.read)
        return found


def way_of(reply):
    """How a request was answered; None for a reply of no known form."""
    if not is_known(reply):
        return None
    return "done" if is_done(reply) else reply.partition(b" ")[2][:3].decode()


class Connections:
    """A served file that is sent random bytes, in pieces."""

    def __init__(self, program, room):
        self.program, self.path = program, with_people(program, f"{room}/served.db")

    def ask(self, seed, count, ways):
        maker = Maker(f"connections {seed}")
        with serving(self.path, count, self.program) as (server, port):
            before = content_of(self.path)
            for _ in range(0, count, CONNECTIONS):
                told = [reply for _ in range(CONNECTIONS) for reply in self.told(server, port, maker, ways)]
                after = content_of(self.path)
                if after != before and not any(map(is_done, told)):
                    ways.add(None, seed, "a world changed though nothing was done")
                before = after
            if server.wait(PATIENCE) != 0:
                ways.add(None, seed, "the server ended with", server.returncode)

    def told(self, server, port, maker, ways):
        sent = b"".join(maker.any() for _ in range(maker.pick([1, 1, 2, 5])))
        client = connected(server, port)
        if client is None:
            ways.add(None, "the server is gone")
            return []
        with client:
            client.setsockopt(socket.IPPROTO_TCP, socket.TCP_NODELAY, 1)
            try:
                while sent:
                    size = maker.random.randrange(1, len(sent) + 1)
                    client.sendall(sent[:size])
                    sent = sent[size:]
                client.shutdown(socket.SHUT_WR)
            except OSError:
                pass
            told = replies(read_off(client))
        for reply in told or [None]:
            ways.add("nothing" if reply is None else way_of(reply), reply)
        if any(b'"F7"' in reply for reply in told[:-1]):
            ways.add(None, "a reply after F7", told)
        return told


@pytest.mark.parametrize("share", range(SHARES))
def test_random_records(program, pytestconfig, share):
    ways, replays = Ways("random records"), Replays(program)
    records, _ = ALL if pytestconfig.option.all else GATE
    for number in range(share, records // REPLAY, SHARES):
        replays.ask(f"{pytestconfig.option.seed} {number}", REPLAY, ways)
    ways.end()


def test_random_connections(program, pytestconfig, room):
    ways = Ways("random connections")
    _, connections = ALL if pytestconfig.option.all else GATE
    Connections(program, room).ask(pytestconfig.option.seed, connections, ways)
    ways.end()
