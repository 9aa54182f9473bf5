"""The built program as it is run: with words, as a server, and beside a library that changes what it is answered."""
import contextlib
import itertools
import os
import random
import shlex
import shutil
import signal
import socket
import sqlite3
import subprocess
import tempfile
import time
from pathlib import Path

from .checks import need

HERE = os.path.dirname(os.path.realpath(__file__))
ROOT = os.path.realpath(f"{HERE}/../../..")
PROGRAM = f"{ROOT}/crates/hall/out/hall"
PEOPLE = f"{ROOT}/examples/people.csv"
# How many seconds a run may take.
PATIENCE = 600
# What is seen of the round of README.md before it starts, and how often it is played at the most.
BEFORE_ITS_START, ROUNDS = ("a draft is released", "a round before its start"), 3
# A database is a file and its log.
ENDINGS = ("", "-wal")


def asked(*words):
    """(standard output, exit status, the lines of standard error)"""
    hall_asked = [os.environ.get("HALL_COMMAND", f"{ROOT}/hall"), *words]
    ran = subprocess.run(hall_asked, stdin=subprocess.DEVNULL, capture_output=True, timeout=120, check=False)
    return ran.stdout, ran.returncode, ran.stderr.decode().splitlines()


def hall(*words):
    """(standard output, exit status, whether a line after `fault` says what to do)"""
    output, status, told = asked(*words)
    return output, status, len(told) == 2 and told[0] == "fault" and len(told[1]) > 20


def advised(*words):
    """(exit status, what to do about the fault that is told)"""
    _, status, told = asked(*words)
    return status, told[1] if len(told) == 2 and told[0] == "fault" else told


def played_round(program, *words):
    """The run of examples/rounds/round.sh, made again where a busy machine let the round begin before it was released
    and looked at."""
    script, env = f"{ROOT}/examples/rounds/round.sh", {**os.environ, "HALL": program}
    for _ in range(ROUNDS):
        ran = subprocess.run([script, *words], env=env, capture_output=True, text=True, timeout=PATIENCE, check=False)
        if not any(f"FAILED a round, {it}:" in ran.stdout for it in BEFORE_ITS_START):
            break
    return ran


def library(room, name):
    """Builds the library of NAME.c beside this file, in the folder, to be loaded before the C library."""
    need("cc")
    built = f"{room}/{name}.so"
    subprocess.run(["cc", "-O1", "-shared", "-fPIC", "-o", built, f"{HERE}/{name}.c", "-ldl"], check=True)
    return built


def set_clock(path, second):
    """Puts a second into the file by which the library of clock.c tells it, and never half of it."""
    Path(f"{path}.next").write_text(str(second), encoding="ascii")
    os.replace(f"{path}.next", path)


def traced(program, room, *words):
    """A command that runs the program under strace, which is told these words and writes the calls that it is told of
    to `calls` in the folder. Its process is the program's own."""
    strace = shutil.which("strace") or "strace"
    told = [strace, "-D", "-f", "-qq", "--seccomp-bpf", "-o", f"{room}/calls", *words, os.path.abspath(program)]
    with open(f"{room}/traced", "w", encoding="utf-8") as file:
        file.write(f'#!/bin/sh\nexec {shlex.join(told)} "$@"\n')
    os.chmod(f"{room}/traced", 0o755)
    return f"{room}/traced"


def own_ports():
    """Ports below those that the system hands out, again and again: of tests that run at once each process has its
    own."""
    place = int(os.environ.get("PYTEST_XDIST_WORKER", "gw0").removeprefix("gw"))
    size = 22_000 // int(os.environ.get("PYTEST_XDIST_WORKER_COUNT", 1))
    ports = range(10_000 + place * size, 10_000 + (place + 1) * size)
    return itertools.islice(itertools.cycle(ports), random.randrange(size), None)


PORTS = own_ports()


def free_port():
    """A port that nothing listens on."""
    for port in PORTS:
        with socket.socket() as it, contextlib.suppress(OSError):
            it.bind(("127.0.0.1", port))
            return port


@contextlib.contextmanager
def serving(path, connections, program=PROGRAM, env=None, prepare=None, **streams):
    """A server over the database file, and the port that it is told. It is ended with the block."""
    port = free_port()
    words = [program, "serve", "--db", path, "--port", str(port), "--connections", str(connections)]
    streams = {"stdin": subprocess.DEVNULL, "stderr": subprocess.DEVNULL} | streams
    with subprocess.Popen(words, env=env, preexec_fn=prepare, **streams) as server:
        try:
            yield server, port
        finally:
            server.kill()


def with_people(program, path, people=PEOPLE):
    """The path of a new database file, into which the program has imported a list."""
    words = [program, "init", "--db", path, "--people", people]
    subprocess.run(words, stdout=subprocess.DEVNULL, check=True)
    return path


def wait_for(port):
    """Waits until something listens on the port."""
    for _ in range(6000):
        try:
            return socket.create_connection(("127.0.0.1", port)).close()
        except ConnectionRefusedError:
            time.sleep(0.01)
    raise ConnectionRefusedError(port)


@contextlib.contextmanager
def standing_still(server):
    """The server's process does nothing as long as the block lasts."""
    server.send_signal(signal.SIGSTOP)
    try:
        while ") T " not in Path(f"/proc/{server.pid}/stat").read_text(encoding="ascii") and server.poll() is None:
            time.sleep(0.003)
        yield
    finally:
        server.send_signal(signal.SIGCONT)


def connected(server, port, patience=PATIENCE):
    """A connection to the server; none where that ended, as where another program took the port."""
    while server.poll() is None:
        try:
            return socket.create_connection(("127.0.0.1", port), timeout=patience)
        except (ConnectionRefusedError, ConnectionResetError):
            time.sleep(0.003)
    return None


def read_off(client):
    """All that the server still sends, to its end or to where it breaks off."""
    written = []
    try:
        while got := client.recv(65536):
            written.append(got)
    except ConnectionError:
        pass
    return b"".join(written)


def is_whole(reply):
    """Whether these bytes are one reply."""
    head, _, body = reply.partition(b"\r\n\r\n")
    length = head.rpartition(b"\r\nContent-Length: ")[2]
    return length.isdigit() and len(body) == int(length)


def told(reply):
    """(status, body)"""
    head, _, body = reply.partition(b"\r\n\r\n")
    return int(head.split()[1]), body.decode()


def removed(path):
    """Takes a database away, where there is one."""
    for ending in ENDINGS:
        if os.path.exists(path + ending):
            os.remove(path + ending)
    return path


def copied(path, to):
    """Puts a copy of the database in the place of another."""
    removed(to)
    for ending in ENDINGS:
        if os.path.exists(path + ending):
            shutil.copyfile(path + ending, to + ending)
    return to


def bytes_of(path):
    """The bytes of a database: of its file and of its log, as far as they are there."""
    return [Path(path + ending).read_bytes() for ending in ENDINGS if os.path.exists(path + ending)]


def is_in_the_making(path):
    """Whether the program was stopped as it made the file: it writes the first byte last."""
    with contextlib.suppress(FileNotFoundError), open(path, "rb") as file:
        return file.read(6) == b"\0QLite"
    return False


def content_of(path):
    """The rows of each table that is there; of no file none. It reads a copy, since sqlite3 changes what it closes."""
    if is_in_the_making(path):
        return {}
    with tempfile.TemporaryDirectory(prefix="hall-rows-", dir=os.path.dirname(path)) as room:
        conn = sqlite3.connect(copied(path, f"{room}/copy.db"))
        names = [name for (name,) in conn.execute("SELECT name FROM sqlite_master WHERE type = 'table'")]
        found = {name: sorted(conn.execute(f"SELECT * FROM {name}").fetchall()) for name in names}
        conn.close()
    return found


class Beside:
    """The built program, run beside the library of NAME.c, which counts calls and changes one of them."""

    def __init__(self, path, room, name, **told_to_it):
        self.path, self.mark = os.path.abspath(path), f"{room}/mark"
        self.told = {"LD_PRELOAD": library(room, name), "CALL_MARK": self.mark, **told_to_it}

    def env(self, number):
        if os.path.exists(self.mark):
            os.remove(self.mark)
        return {**self.told, "CALL": str(number)}

    def was_met(self):
        """Whether the last run made so many calls."""
        return os.path.exists(self.mark)

    def run(self, words, text=b"", number=0):
        """The output and status; a status of 3 without `fault` on standard error is told as none."""
        how = {"env": self.env(number), "cwd": ROOT, "capture_output": True, "check": False, "timeout": PATIENCE}
        ran = subprocess.run([self.path, *words], input=text, **how)
        return ran.stdout, ran.returncode if ran.returncode != 3 or ran.stderr.startswith(b"fault\n") else None
