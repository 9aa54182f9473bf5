"""The program `hall` on this machine, which judges lists and sheets: hallctl has no rules of its own."""
import contextlib
import os
import re
import shutil
import socket
import subprocess
import time
from pathlib import Path

PATIENCE = 120
OWN = Path(__file__).resolve().parents[3] / "crates/hall/out/hall"
HEAD = re.compile(rb"HTTP/1\.1 (\d+) [^\r\n]*\r\n(?:[^\r\n]+\r\n)*?Content-Length: (\d+)\r\n\r\n")


class NoProgram(Exception):
    """The program `hall` isn't found."""


def program(named):
    """The path of the program: the one that is named, that of HALL, that on the path, or that of this repository."""
    for path in (named, os.environ.get("HALL"), shutil.which("hall"), str(OWN)):
        if path and os.access(path, os.X_OK) and os.path.isfile(path):
            return os.path.abspath(path)
        if path and path == named:
            break
    raise NoProgram("the program `hall` isn't found: name it by --program, or in the variable HALL")


def run(path, words, content=b""):
    """The output and the exit status of a command of the program."""
    ran = subprocess.run([path, *words], input=content, capture_output=True, timeout=PATIENCE, check=False)
    return ran.stdout, ran.returncode


def record(key, method, path, body=b"", moment=1):
    """A request as a replay reads it."""
    head = f"{method} {path} HTTP/1.1\r\nHall-Key: {key}\r\nContent-Length: {len(body)}\r\n\r\n".encode()
    return f"@{moment} {len(head) + len(body)}\n".encode() + head + body


def replayed(path, people, records):
    """The status and the body of each reply to the records, asked of a hall in memory that knows these people."""
    written, _ = run(path, ["replay", "--people", people], b"".join(records))
    found, at = [], 0
    while head := HEAD.match(written, at):
        end = head.end() + int(head[2])
        found.append((int(head[1]), written[head.end():end]))
        at = end
    return found


def spare_port():
    with socket.socket() as it:
        it.bind(("127.0.0.1", 0))
        return it.getsockname()[1]


@contextlib.contextmanager
def serving(path, database, port):
    """A hall that serves the file on the port; it is ended with the block."""
    words = [path, "serve", "--db", database, "--port", str(port)]
    with subprocess.Popen(words, stdin=subprocess.DEVNULL, stderr=subprocess.PIPE) as server:
        try:
            until = time.monotonic() + PATIENCE
            while server.poll() is None and time.monotonic() < until:
                with contextlib.suppress(OSError), socket.create_connection(("127.0.0.1", port), timeout=1):
                    break
                time.sleep(0.05)
            if server.poll() is not None:
                raise NoProgram(f"the hall ended: {server.stderr.read().decode().strip()}")
            yield server
        finally:
            server.kill()
