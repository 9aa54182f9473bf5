"""The built program with streams that are broken: full, closed, unreadable, cut short, endless, a byte at a time."""
import os
import resource
import socket
import struct
import subprocess
import tempfile
import threading

import pytest
from harness.checks import check
from harness.database import ROWS, TABLE, TABLES, kept, written
from harness.running import PATIENCE, PEOPLE, ROOT, Beside, connected, content_of, copied, read_off, removed, serving
from harness.running import with_people
from harness.wire import record, replies, request

NOT_WHOLE = b'HTTP/1.1 400 Bad Request\r\nContent-Type: application/json\r\nContent-Length: 13\r\n\r\n{"form":"F7"}'
UNKNOWN = b'HTTP/1.1 403 Forbidden\r\nContent-Type: application/json\r\nContent-Length: 12\r\n\r\n{"denied":1}'
NO_ROUTE = b'HTTP/1.1 404 Not Found\r\nContent-Type: application/json\r\nContent-Length: 13\r\n\r\n{"form":"F6"}'
ROUNDS = b"GET /rounds HTTP/1.1\r\n\r\n"
WORKED = b"GET /rounds/r1 HTTP/1.1\r\nHall-Key: eve-key-1\r\n\r\n"
# After how many seconds a client isn't let in.
WHILE = 20
PAIR = b"sudoku/4/4/123434122143432g\n1234341221434321\n"
ASKED = record(1, request("dora-key", "GET", "/rounds")).encode()


class Commands:
    """Each command with an input that it takes, and what it writes; of PATH it makes or changes the database."""

    def __init__(self, program, room):
        self.program, self.path = program, f"{room}/asked.db"
        self.filled = written(f"{room}/filled.db", TABLES, ROWS)
        old = kept(room, "round")
        rounds = b'HTTP/1.1 200 OK\r\nContent-Type: application/json\r\nContent-Length: 13\r\n\r\n{"rounds":[]}'
        # words, input, output, the database before
        self.rows = [
            (["judge"], PAIR, b"right\n", None),
            (["solve"], b"slither/2/2/222c\n", b"one 110011/101101\n", None),
            (["replay", "--people", PEOPLE], ASKED, rounds, None),
            (["init", "--db", self.path, "--people", PEOPLE], b"", b"added 6\n", None),
            (["table", "--db", self.path, "--round", "r1"], b"", TABLE, self.filled),
            (["migrate", "--from", old, "--to", self.path], b"", b"migrated 19\n", None),
            (["--version"], b"", None, None),
            (["solve", "--help"], b"", None, None),
        ]

    def ran(self, row, **streams):
        """(output, status, standard error), over the database that the row begins with."""
        words, given, _, before = row
        copied(before, self.path) if before else removed(self.path)
        how = {"input": given} if "stdin" not in streams else {}
        how |= {name: subprocess.PIPE for name in ("stdout", "stderr") if name not in streams}
        ran = subprocess.run([self.program, *words], cwd=ROOT, timeout=PATIENCE, check=False, **how, **streams)
        return ran.stdout, ran.returncode, ran.stderr

    def usual(self):
        for row in self.rows:
            output, status, error = self.ran(row)
            check(f"{row[0]}", (row[2] in (None, output), status, error), (True, 0, b""))
            yield row, content_of(self.path)


@pytest.fixture
def asked(program, room):
    return Commands(program, room)


def is_fault(name, got, output=None):
    """Sees that the command ended with 3, told why, and wrote this."""
    lines = got[2].split(b"\n") if got[2] is not None else [b"fault", b"x", b""]
    check(name, (got[0], got[1], lines[0], len(lines)), (output, 3, b"fault", 3))


def test_full_and_closed_outputs(asked):
    for row, after in asked.usual():
        words = " ".join(row[0][:1])
        with open("/dev/full", "wb") as full:
            is_fault(f"{words}, a full output", asked.ran(row, stdout=full))
        check(f"{words}, a full output, the file", content_of(asked.path), after)
        read, write = os.pipe()
        os.close(read)
        is_fault(f"{words}, an output that nobody reads", asked.ran(row, stdout=write))
        os.close(write)
        check(f"{words}, an output that nobody reads, the file", content_of(asked.path), after)
        closed = asked.ran(row, stdout=None, preexec_fn=lambda: os.close(1))
        is_fault(f"{words}, no output", closed)
        check(f"{words}, no output, the file", content_of(asked.path), after)
        # what tells of the fault may be full too
        with open("/dev/full", "wb") as full:
            check(f"{words}, both outputs full", asked.ran(row, stdout=full, stderr=full)[1], 3)
            got = asked.ran(row, stdout=full, stderr=None, preexec_fn=lambda: os.close(2))
        check(f"{words}, a full output and no error", got[1], 3)
        check(f"{words}, a full output and no error, the file", content_of(asked.path), after)


def test_unreadable_inputs(asked):
    for row, after in asked.usual():
        words, reads = row[0][0], row[0][0] in ("judge", "solve", "replay") and len(row[0]) != 2
        folder = os.open("/", os.O_RDONLY)
        got = asked.ran(row, stdin=folder), asked.ran(row, stdin=None, preexec_fn=lambda: os.close(0))
        os.close(folder)
        for what, ran in zip(("a folder as input", "no input"), got):
            if reads:
                is_fault(f"{words}, {what}", ran, b"")
            else:
                check(f"{words}, {what}", ran[1:], (0, b""))
        check(f"{words}, no input, the file", content_of(asked.path), after)


def test_closed_streams(asked):
    """With none of the three streams: the files that are opened must not be taken for them."""
    for row, after in asked.usual():
        given = b"" if row[1] == b"" else None
        if given is None:
            continue
        got = asked.ran(row, stdin=None, stdout=None, stderr=None, preexec_fn=lambda: os.closerange(0, 3))
        check(f"{row[0][0]}, no streams", got[1], 3)
        check(f"{row[0][0]}, no streams, the file", content_of(asked.path), after)


def test_wrong_words(asked):
    for words in (["judge", "x"], ["export"], []):
        with open("/dev/full", "wb") as full:
            check(f"{words}, a full error", asked.ran((words, b"", None, None), stderr=full)[:2], (b"", 64))
        got = asked.ran((words, b"", None, None), stderr=None, preexec_fn=lambda: os.close(2))
        check(f"{words}, no error", got[:2], (b"", 64))


def test_faults_after_replies(asked):
    """A replay whose output is full after some bytes: what was written is the first part of the usual replies."""
    usual = asked.ran((["replay", "--people", PEOPLE], ASKED * 3, None, None))[0]
    for size in range(0, len(usual), 7):
        limit = lambda size=size: resource.setrlimit(resource.RLIMIT_FSIZE, (size, size))  # noqa: E731
        with tempfile.TemporaryFile() as it:
            # the signal of a file that grows too large stays ignored, as it is here
            how = {"stdout": it, "preexec_fn": limit, "restore_signals": False}
            got = asked.ran((["replay", "--people", PEOPLE], ASKED * 3, None, None), **how)
            it.seek(0)
            check(f"an output of {size} bytes", (it.read(), got[1]), (usual[:size], 3))


def asked_of(port, server, sent, patience=PATIENCE):
    """What a client is sent that sends these bytes; None where nobody listens."""
    client = connected(server, port, patience)
    if client is None:
        return None
    with client:
        sender = threading.Thread(target=send, args=(client, sent))
        sender.start()
        got = read_off(client)
        sender.join()
    return got


def send(client, sent):
    try:
        client.sendall(sent)
        client.shutdown(socket.SHUT_WR)
    except OSError:
        pass


def long_head(size):
    head = b"GET /rounds HTTP/1.1\r\nA: "
    return head + b"x" * (size - len(head) - 4) + b"\r\n\r\n"


def with_body(size):
    return b"POST /people HTTP/1.1\r\nContent-Length: %d\r\n\r\n" % size + b"x" * size


NO_CSV = NOT_WHOLE.replace(b"F7", b"F1")
# What a client sends, and what it is sent.
SENT = [
    ("nothing", b"", b""),
    ("a request and half of a second", ROUNDS + ROUNDS[:12], UNKNOWN + NOT_WHOLE),
    ("1,001 requests", ROUNDS * 1001, UNKNOWN * 1000),
    ("1,000 requests and junk", ROUNDS * 1000 + b"\0", UNKNOWN * 1000),
    ("999 requests and half of one", ROUNDS * 999 + b"GET", UNKNOWN * 999 + NOT_WHOLE),
    ("32 headers", ROUNDS[:-2] + b"A: b\r\n" * 32 + b"\r\n" + ROUNDS, UNKNOWN * 2),
    ("33 headers", ROUNDS[:-2] + b"A: b\r\n" * 33 + b"\r\n" + ROUNDS, NOT_WHOLE),
    ("a head of 8,192 bytes", long_head(8192) + ROUNDS, UNKNOWN * 2),
    ("a head of 8,193 bytes", long_head(8193) + ROUNDS, NOT_WHOLE),
    ("a head without end", b"GET /rounds HTTP/1.1\r\nA: " + b"x" * 100_000, NOT_WHOLE),
    ("a body of 65,536 bytes", with_body(65_536) + ROUNDS, NO_CSV + UNKNOWN),
    ("a body of 65,537 bytes", with_body(65_537) + ROUNDS, NOT_WHOLE),
    ("a length of five digits", ROUNDS[:-2] + b"Content-Length: 00005\r\n\r\n12345" + ROUNDS, UNKNOWN * 2),
    ("a length of six digits", ROUNDS[:-2] + b"Content-Length: 000005\r\n\r\n12345" + ROUNDS, NOT_WHOLE),
    ("chunks", ROUNDS[:-2] + b"Transfer-Encoding: chunked\r\n\r\n0\r\n\r\n" + ROUNDS, NOT_WHOLE),
    ("half of a body", with_body(5)[:-1], NOT_WHOLE),
    ("junk", bytes(range(256)) * 400, NOT_WHOLE),
    ("a request that closes, and another", ROUNDS[:-2] + b"Connection: close\r\n\r\n" + ROUNDS, UNKNOWN),
]


def test_broken_requests(program, room):
    path = with_people(program, f"{room}/served.db")
    before = content_of(path)
    sent = SENT + [(f"{size} bytes of a request", WORKED[:size], NOT_WHOLE) for size in range(1, len(WORKED))]
    sips = Beside(program, room, "devices", DEVICE_SIP="1")
    for env, how in ((None, ""), (sips.env(0), ", a byte a read")):
        with serving(path, len(sent) + 3, program, env) as (server, port):
            for name, asked, want in sent:
                got = asked_of(port, server, asked)
                check(name + how, (len(got), got), (len(want), want))
            reset(connected(server, port), ROUNDS[:5])
            reset(connected(server, port), ROUNDS)
            check(f"after two that break off{how}", asked_of(port, server, b"GET / HTTP/1.1\r\n\r\n"), NO_ROUTE)
            check(f"the server's status{how}", server.wait(PATIENCE), 0)
    check("the file after broken requests", content_of(path), before)
    with serving(path, 2, program, sips.env(0)) as (server, port):
        got = asked_of(port, server, long_head(8192) * 200)
        check("heads of 8,192 bytes, a byte for each of 100,000 reads", (len(replies(got)), got), (12, UNKNOWN * 12))
        check("after 100,000 reads", asked_of(port, server, b"GET / HTTP/1.1\r\n\r\n"), NO_ROUTE)
        check("the server's status", server.wait(PATIENCE), 0)


def reset(client, sent):
    """Sends the bytes, and breaks the connection off."""
    with client:
        client.sendall(sent)
        client.setsockopt(socket.SOL_SOCKET, socket.SO_LINGER, struct.pack("ii", 1, 0))


def test_servers_that_end(program, room):
    path = with_people(program, f"{room}/served.db")
    with socket.socket() as taken:
        taken.bind(("127.0.0.1", 0))
        taken.listen()
        words = [program, "serve", "--db", path, "--port", str(taken.getsockname()[1])]
        ran = subprocess.run(words, stdin=subprocess.DEVNULL, capture_output=True, timeout=PATIENCE, check=False)
        is_fault("a port that is taken", (ran.stdout, ran.returncode, ran.stderr), b"")
    ends = []
    for most in range(4, 16):
        limit = lambda most=most: resource.setrlimit(resource.RLIMIT_NOFILE, (most, most))  # noqa: E731
        ends.append(served_with(program, path, limit))
    check("servers with few files", (ends[0], ends[-1]), ("ends", "serves"))
    check("servers with few files, in turn", ends, sorted(ends, key=["ends", "waits", "hangs up", "serves"].index))
    check("no streams at all", served_with(program, path, lambda: os.closerange(0, 3)), "serves")


def served_with(program, path, prepare):
    """What a server does that is prepared so, and asked once."""
    with serving(path, 1, program, prepare=prepare) as (server, port):
        try:
            got = asked_of(port, server, ROUNDS, WHILE)
        except TimeoutError:
            return "waits"
        status = server.wait(PATIENCE)
    return {(3, b""): "ends", (3, None): "ends", (0, b""): "hangs up", (0, UNKNOWN): "serves"}.get((status, got))
