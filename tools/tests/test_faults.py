"""A database is served from a disk that fails a sync or a write, once or for good, and from one that is full for a
while.

Where a sync or a write fails, the store is shut: the request under way is answered with 503 and none after it, and the
program ends with 3 and tells why on two lines. Started again, it knows each answer that was acknowledged, and the one
under way is told its reply when it is sent again. A full disk is no such fault: reads are answered and writes get 503,
and once there is room the same process writes again; one line is told as writes begin to be refused, and one as they
are taken again. The disk is full by a limit of the size of files, and by a file system in memory; that it is, or that
somebody's part of it is, or that a file may not grow, is told of each write from one on.
"""
import contextlib
import itertools
import os
import resource
import socket
import subprocess

import pytest
from harness.checks import check
from harness.entrants import MOMENT, OPEN, Entrant, hall_file
from harness.running import Beside, connected, copied, is_whole, read_off, serving, told
from harness.wire import request

UNAVAILABLE = (503, '{"fault":"hall"}')
NOTHING = request("dora-key", "GET", "/nothing").encode()
# How many answers are handed in, and how many seconds a server that met a fault may still run.
ANSWERS, SOON = 4, 120
ADVICE = "the database failed, "
# What is told as writes begin to be refused, and as they are taken again.
TOLD_OF_WRITES = [
    "hall: the disk refuses writes: requests that write are answered 503 until it takes them again",
    "hall: the disk takes writes again",
]
# The file system in memory, a page of a database in it, and how many answers fill it where some pages are left.
ROOM, PAGE, FEW = 1 << 20, 4096, 40


def ask(client, sent):
    """The status and the body of the reply, with moments of 0; None where none came whole."""
    try:
        client.sendall(sent)
        reply = b""
        while not is_whole(reply) and (piece := client.recv(1 << 16)):
            reply += piece
    except ConnectionError:
        return None
    return told(MOMENT.sub(b'"moment":0', reply)) if is_whole(reply) else None


class Files:
    """A database with some answers, of which each server gets a copy, and who hands in more."""

    def __init__(self, program, room):
        self.program, self.first, self.path = program, f"{room}/first.db", f"{room}/served.db"
        self.errors = None
        hall_file(self.first, [Entrant(place) for place in range(3)])

    @contextlib.contextmanager
    def served(self, env=None, path=None, **how):
        # a pipe, since no file of the server may grow where their size is limited
        reads, writes = os.pipe()
        os.set_blocking(reads, False)
        with open(reads, "rb", 0) as self.errors, open(writes, "wb", 0) as errors:
            with serving(path or self.path, 1000, self.program, env, stderr=errors, **how) as it:
                yield it

    def lines(self):
        """What was told on standard error since it was asked last, but for the line that it serves."""
        said = (self.errors.read(1 << 16) or b"").decode()
        return [line for line in said.splitlines() if not line.startswith("hall: serving ")]


def is_shut_down(name, files_of, server, has_served):
    """Sees that the server ends with 3, and tells why: where it served before, that the database failed."""
    try:
        ended = server.wait(SOON)
    except subprocess.TimeoutExpired:
        ended = "it still runs"
    check(f"{name}: the status", ended, 3)
    lines = files_of.lines()
    is_well = lines[:1] == ["fault"] and len(lines) == 2 and (lines[1].startswith(ADVICE) or not has_served)
    check(f"{name}: what is told is {lines}", is_well, True)


def handed_in(name, client, server, port, entrant):
    """Hands in answers to the first that gets 503, after which nothing is answered. How many were acknowledged; None
    where none was refused."""
    with client, connected(server, port) as other:
        for count in range(ANSWERS):
            sent, want = entrant.submit(OPEN)
            got = ask(client, sent)
            if got == (200, want.decode()):
                continue
            check(f"{name}: the request under way", got, UNAVAILABLE)
            with contextlib.suppress(OSError):
                other.sendall(NOTHING)
                other.shutdown(socket.SHUT_WR)
            other.settimeout(SOON)
            check(f"{name}: a request after it", read_off(other), b"")
            return count
    return None


def is_whole_again(name, files_of, entrant, count):
    """A server over the same file, whose disk is well, knows what was acknowledged, and takes the rest."""
    with files_of.served() as (server, port), connected(server, port) as client:
        got = ask(client, entrant.listing(OPEN)[0])
        wants = [(200, entrant.listing(OPEN, stands)[1].decode()) for stands in (count, count + 1)]
        check(f"{name}: {count} answers were acknowledged, and there stand {got}", got in wants, True)
        for n in range(1, len(entrant.given[OPEN]) + 1):
            sent, want = entrant.submission(OPEN, n)
            check(f"{name}: answer {n} again", ask(client, sent), (200, want.decode()))
        sent, want = entrant.submit(OPEN)
        check(f"{name}: a further answer", ask(client, sent), (200, want.decode()))


def failing_call(files_of, beside, what, number):
    """Whether the server made so many of these calls; then the last of them failed."""
    copied(files_of.first, files_of.path)
    name, entrant = f"{beside.told['DEVICE_HOW']} at {what} {number}", Entrant(number % 3)
    with files_of.served(beside.env(number)) as (server, port):
        client = connected(server, port)
        count = handed_in(name, client, server, port, entrant) if client else 0
        if not beside.was_met():
            return False
        if count is not None:
            is_shut_down(name, files_of, server, client is not None)
        server.kill()
        server.wait()
    is_whole_again(name, files_of, entrant, ANSWERS if count is None else count)
    return True


class SizeLimit:
    """Files may not grow, nor be written beyond so many bytes."""

    def __init__(self, server, most):
        self.pid, self.most = server.pid, most

    def __enter__(self):
        _, self.hard = resource.prlimit(self.pid, resource.RLIMIT_FSIZE)
        resource.prlimit(self.pid, resource.RLIMIT_FSIZE, (self.most, self.hard))

    def __exit__(self, *_):
        resource.prlimit(self.pid, resource.RLIMIT_FSIZE, (self.hard, self.hard))


class Filler:
    """A file that leaves so many bytes of its file system."""

    def __init__(self, folder, left):
        self.path, self.left = f"{folder}/filler", left

    def __enter__(self):
        disk = os.statvfs(os.path.dirname(self.path))
        with open(self.path, "wb") as file:
            file.write(b"x" * max(0, disk.f_bavail * disk.f_frsize - self.left))

    def __exit__(self, *_):
        os.remove(self.path)


class Writer(Entrant):
    """One whose answers are long."""

    def answer(self):
        return f"{self.name} {len(self.given[OPEN])} ".ljust(3000, "x"), "wrong A0"


def refused(name, client, entrant):
    """Hands in answers to the first that is refused, and gives it."""
    for _ in range(FEW):
        step = entrant.submit(OPEN)
        got = ask(client, step[0])
        if got != (200, step[1].decode()):
            check(f"{name}: a write where there is no room", got, UNAVAILABLE)
            return step
    check(f"{name}: a write is refused in the first {FEW}", False, True)
    return step


def full_for_a_while(name, files_of, full_of, path=None):
    """Asks a server before its disk is full, meanwhile and after."""
    # a signal of a file that grows too large stays ignored, as it is here
    with files_of.served(path=path, restore_signals=False) as (server, port), connected(server, port) as client:
        def wants(what, step, want=None):
            check(f"{name}: {what}", ask(client, step[0]), want or (200, step[1].decode()))

        for entrant in map(Writer, range(2)):
            wants("a write before", entrant.submit(OPEN))
            with full_of(server):
                step = refused(name, client, entrant)
                count = len(entrant.given[OPEN]) - 1
                for _ in range(2):
                    wants("a read where there is no room", entrant.listing(OPEN, count))
                    wants("the write again where there is no room", step, UNAVAILABLE)
            wants("the write again where there is room", step)
            wants("a read where there is room again", entrant.listing(OPEN))
            check(f"{name}: what is told of writes", files_of.lines(), TOLD_OF_WRITES)
        check(f"{name}: the server", server.poll(), None)


@pytest.fixture
def files_of(program, room):
    return Files(program, room)


@pytest.mark.parametrize("how", ["fail", "dead"])
@pytest.mark.parametrize("what", ["sync", "write"])
def test_calls_that_fail(what, how, files_of, program, room):
    beside = Beside(program, room, "devices", DEVICE_HOW=how, DEVICE_WHICH={"sync": "yf", "write": "of"}[what])
    calls = next(number for number in itertools.count(1) if not failing_call(files_of, beside, what, number)) - 1
    check(f"{how}: calls to {what} are made for {ANSWERS} answers", calls >= ANSWERS, True)


def without_room(files_of, beside, number):
    """What becomes of a server for whose writes there is no room from this one on; None where it makes fewer."""
    copied(files_of.first, files_of.path)
    name, entrant = f"{beside.told['DEVICE_HOW']} from write {number} on", Entrant(number % 3)
    with files_of.served(beside.env(number)) as (server, port):
        if not (client := connected(server, port)):
            return "opens no file"
        with client:
            got = [ask(client, entrant.submit(OPEN)[0]) for _ in range(ANSWERS)]
            if not beside.was_met():
                return None
            taken = sum(it is not None and it[0] == 200 for it in got)
            check(f"{name}: the first that is refused", got[taken], UNAVAILABLE)
            sent, want = entrant.listing(OPEN, taken)
            if not (read := ask(client, sent)):
                is_shut_down(name, files_of, server, True)
                return "ends"
            check(f"{name}: a read", read, (200, want.decode()))
            check(f"{name}: what is refused after it", got[taken:], [UNAVAILABLE] * (ANSWERS - taken))
            check(f"{name}: what is told of writes", files_of.lines(), TOLD_OF_WRITES[:1])
            check(f"{name}: the server", server.poll(), None)
            return "serves on"


@pytest.mark.parametrize("how", ["full", "quota", "large"])
def test_writes_without_room(how, files_of, program, room):
    """Of the writes of an answer one alone ends the server, by which the database shows it: it is of a byte that
    stands, for which no disk lacks room."""
    beside = Beside(program, room, "devices", DEVICE_HOW=how, DEVICE_WHICH="of")
    ways = list(itertools.takewhile(bool, (without_room(files_of, beside, n) for n in itertools.count(1))))
    check(f"{how}: it serves on at {ways}", ways.count("serves on") >= 2 * ways.count("ends") >= 2, True)


@pytest.mark.parametrize("grows", [False, True], ids=["nothing-is-written", "no-file-grows"])
def test_full_disks(grows, files_of):
    """By a limit: nothing may be written, or no file may grow beyond what the database has."""
    most = os.path.getsize(files_of.first) if grows else 0
    copied(files_of.first, files_of.path)
    full_for_a_while(f"files of {most} bytes at most", files_of, lambda server: SizeLimit(server, most))


@pytest.fixture
def disk(room):
    """The folder of a file system in memory."""
    folder = f"{room}/disk"
    os.mkdir(folder)
    words = ["mount", "-t", "tmpfs", "-o", f"size={ROOM}", "hall", folder]
    if subprocess.run(words, check=False, stderr=subprocess.DEVNULL).returncode:
        pytest.skip("the system lets no file system be mounted")
    yield folder
    subprocess.run(["umount", "-l", folder], check=True)


@pytest.mark.parametrize("pages", range(3))
def test_full_file_systems(pages, files_of, disk):
    """By a file system in memory, with some pages left."""
    path = copied(files_of.first, f"{disk}/hall.db")
    name = f"a file system with {pages} pages left"
    full_for_a_while(name, files_of, lambda _: Filler(disk, pages * PAGE), path)
