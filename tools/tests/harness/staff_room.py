"""A hall whose clock is set, hallctl beside it, and a small proxy between the two, which tells the hall's moment as a
proxy does, keeps what is replied, and loses or refuses replies when it is told to.
"""
import contextlib
import email.utils
import http.client
import os
import socket
import socketserver
import subprocess
import sys
import threading
import time
from pathlib import Path

from .running import ROOT, connected, free_port, library, set_clock

HALLCTL = f"{ROOT}/clients/hallctl/hallctl"
PATIENCE = 120


def whole(reader):
    """The head and the body of a message, by its length."""
    head = b""
    while not head.endswith(b"\r\n\r\n"):
        line = reader.readline()
        if not line:
            return None
        head += line
    lengths = [line.split(b":")[1] for line in head.split(b"\r\n") if line.lower().startswith(b"content-length:")]
    return head, reader.read(int(lengths[0])) if lengths else b""


class Handler(socketserver.StreamRequestHandler):
    """One request of hallctl, handed on to the hall."""

    def handle(self):
        got = whole(self.rfile)
        if got is None:
            return
        between = self.server
        plan = between.plan.pop(0) if between.plan else "pass"
        if plan == "hold":
            between.is_closed.wait(PATIENCE)
            return
        if plan not in ("pass", "drop"):
            self.wfile.write(plan)
            return
        reply = between.handed_on(b"".join(got))
        if plan == "drop":
            return
        head, body = reply
        method, path = got[0].split(b" ")[:2]
        between.replies.append((method.decode(), path.decode(), int(head.split()[1]), body.decode()))
        date = email.utils.formatdate(between.moment(), usegmt=True).encode()
        self.wfile.write(head[:-2] + b"Date: " + date + b"\r\n\r\n" + body)


class Between(socketserver.ThreadingTCPServer):
    """The proxy. `plan` says what becomes of the next requests: they pass, their reply is dropped, they are
    taken and held without an answer, or bytes that are answered in the hall's place."""

    allow_reuse_address = daemon_threads = True
    DOWN = (b"HTTP/1.1 503 Service Unavailable\r\nContent-Type: application/json\r\nContent-Length: 17\r\n\r\n",
            b'{"fault":"proxy"}')

    def __init__(self, port, moment):
        super().__init__(("127.0.0.1", 0), Handler)
        self.hall, self.moment, self.plan, self.replies, self.was_down = port, moment, [], [], threading.Event()
        self.is_closed = threading.Event()
        threading.Thread(target=self.serve_forever, daemon=True).start()

    def url(self):
        return f"http://127.0.0.1:{self.server_address[1]}"

    def handed_on(self, request):
        try:
            with socket.create_connection(("127.0.0.1", self.hall), timeout=PATIENCE) as hall:
                hall.sendall(request)
                return whole(hall.makefile("rb")) or self.DOWN
        except OSError:
            self.was_down.set()
            return self.DOWN


def answered(status, reason, body=b"", head=b""):
    """A reply that a proxy makes by itself."""
    return b"HTTP/1.1 %d %s\r\n%sContent-Length: %d\r\n\r\n%s" % (status, reason, head, len(body), body)


class Room:
    """The folder of a run: the hall's file and clock, keys, and the processes."""

    def __init__(self, room, program):
        self.room, self.program, self.server = room, program, None
        self.clock, self.port = f"{room}/clock", free_port()
        self.env = {**os.environ, "LD_PRELOAD": library(room, "clock"), "CLOCK": self.clock}
        self.now = 1
        self.between = Between(self.port, lambda: self.now)
        self.conn = None

    def at(self, moment):
        """Sets the hall's clock. Within a run moments never go back, so a hall that serves is started anew for that."""
        goes_back, self.now = moment < self.now, moment
        set_clock(self.clock, moment)
        if goes_back and self.server:
            self.kill()
            self.start()

    def start(self):
        """Starts the hall, and waits until it listens."""
        words = [self.program, "serve", "--db", f"{self.room}/hall.db", "--port", str(self.port)]
        silent = {"stdin": subprocess.DEVNULL, "stderr": subprocess.DEVNULL}
        self.server = subprocess.Popen(words, env=self.env, **silent)
        client = connected(self.server, self.port)
        if client is None:
            raise SystemExit("the hall doesn't listen")
        client.close()

    def kill(self):
        """Kills the hall as it stands."""
        self.server.kill()
        self.server.wait(PATIENCE)
        self.conn = None

    def close(self):
        if self.server and self.server.poll() is None:
            self.kill()
        self.between.is_closed.set()
        self.between.shutdown()

    def key_file(self, name, key):
        path = Path(f"{self.room}/{name}.key")
        path.touch(mode=0o600)
        path.write_text(f"{key}\n", encoding="ascii")
        return str(path)

    def begin(self, name, *words, url=None, program=None):
        """Begins a command of hallctl as this person."""
        whose = ["--key-file", f"{self.room}/{name}.key"] if name else []
        env = {**os.environ, "HALL": program or self.program, "TZ": "CET-1CEST,M3.5.0,M10.5.0/3"}
        # Without the packages of this machine: the standard library is all that hallctl may need.
        kept = f"pycache_prefix={self.room}/compiled"
        words = [sys.executable, "-S", "-E", "-X", kept, HALLCTL, "--url", url or self.between.url(), *whose, *words]
        piped = dict.fromkeys(("stdin", "stdout", "stderr"), subprocess.PIPE)
        return subprocess.Popen(words, env=env, cwd=self.room, text=True, **piped)

    def hallctl(self, name, *words, said="", **how):
        """The status of a command, what it wrote and what it said beside."""
        with self.begin(name, *words, **how) as it:
            output, beside = it.communicate(said, timeout=PATIENCE + 60)
            return it.returncode, output, beside

    def ask(self, key, method, path, body="", tries=20):
        """An entrant's request, sent again until there is a reply: its status and body."""
        for _ in range(tries):
            try:
                self.conn = self.conn or http.client.HTTPConnection("127.0.0.1", self.port, timeout=PATIENCE)
                self.conn.request(method, path, body, {"Hall-Key": key})
                got = self.conn.getresponse()
                return got.status, got.read().decode()
            except (OSError, http.client.HTTPException):
                self.conn = None
                time.sleep(0.05)
        raise SystemExit(f"no reply to {method} {path}")

    def send_alone(self, key, method, path, body):
        """Sends a request and looks at no reply."""
        asked = f"{method} {path} HTTP/1.1\r\nHall-Key: {key}\r\nContent-Length: {len(body)}\r\n\r\n{body}"
        with contextlib.suppress(OSError), socket.create_connection(("127.0.0.1", self.port), timeout=PATIENCE) as it:
            it.sendall(asked.encode())
