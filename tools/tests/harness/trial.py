"""What is asked through proxies: requests whose replies are compared, clients that stall, a stand-in for the hall."""
import contextlib
import email.utils
import http.client
import http.server
import socket
import ssl
import subprocess
import threading
import time

from .checks import check
from .running import wait_for, with_people


class Trial:
    """What is tried through a proxy."""

    def __init__(self, name, port, certificate=None):
        self.name, self.port, self.certificate = name, port, certificate
        self.context = ssl.create_default_context(cafile=certificate) if certificate else None

    def wants(self, name, want, got):
        check(f"behind {self.name}, {name}", got, want)

    def connection(self, source="127.0.0.1", host="127.0.0.1"):
        """A connection for requests."""
        place = (source if host == "127.0.0.1" else host, 0)
        if self.context:
            # The name of the certificate; the address is told by that of the source.
            line = http.client.HTTPSConnection("localhost", self.port, context=self.context, timeout=60)
        else:
            line = http.client.HTTPConnection("localhost", self.port, timeout=60)
        line._create_connection = lambda _, timeout, __: socket.create_connection((host, self.port), timeout, place)
        return line

    def reply(self, method, path, key="eve-key-1", body=None, headers=(), **where):
        """Status, body and headers of the reply."""
        with contextlib.closing(self.connection(**where)) as line:
            line.putrequest(method, path, skip_accept_encoding=True)
            for name, value in [("Hall-Key", key), *headers]:
                line.putheader(name, value)
            if body is not None and not any(name == "Transfer-Encoding" for name, _ in headers):
                line.putheader("Content-Length", str(len(body)))
            line.endheaders(body)
            reply = line.getresponse()
            return reply.status, reply.read().decode(), reply.headers

    def ask(self, *words, **options):
        """The status and the body of the reply."""
        return self.reply(*words, **options)[:2]

    def line(self, source="127.0.0.1"):
        """A connection for bytes."""
        line = socket.create_connection(("127.0.0.1", self.port), 20, (source, 0))
        return self.context.wrap_socket(line, server_hostname="localhost") if self.context else line


def is_now(headers):
    """Whether there is one date, of the last minute."""
    told = headers.get_all("Date") or []
    return len(told) == 1 and -1 < time.time() - email.utils.parsedate_to_datetime(told[0]).timestamp() < 60


class Stalled(threading.Thread):
    """A client that sends these pieces with pauses, and then nothing; what it is told, and after how long."""

    def __init__(self, trial, pieces, pause=0.1):
        super().__init__(daemon=True)
        self.trial, self.pieces, self.pause, self.told, self.took = trial, pieces, pause, b"", None
        self.start()

    def run(self):
        begun = time.monotonic()
        with self.trial.line() as line:
            try:
                for piece in self.pieces:
                    line.sendall(piece)
                    if self.hears(line, self.pause):
                        break
                else:
                    self.hears(line, 60)
            except OSError:
                pass
        self.took = time.monotonic() - begun

    def hears(self, line, patience):
        """Whether a reply, or the end, comes in so many seconds."""
        line.settimeout(patience)
        try:
            self.told = line.recv(4096)
        except TimeoutError:
            return False
        return True


class StandIn(http.server.ThreadingHTTPServer):
    """Stands where the hall would. It hangs up at /closes, and keeps whoever asks for a certificate, or at /silent,
    until it lets them go."""
    daemon_threads = True
    request_queue_size = 128

    def __init__(self, port):
        super().__init__(("127.0.0.1", port), Standing)
        self.lock, self.gone, self.kept = threading.Lock(), threading.Event(), 0
        threading.Thread(target=self.serve_forever, daemon=True).start()

    def keep(self):
        """Keeps a client, and counts how many are kept."""
        with self.lock:
            self.kept += 1
        self.gone.wait(60)
        with self.lock:
            self.kept -= 1

    def keeps(self, count):
        """Whether so many are kept soon."""
        for _ in range(600):
            if self.kept >= count:
                return True
            time.sleep(0.05)
        return False

    def let_go(self):
        """Lets all go who are kept, and keeps those who come after."""
        self.gone.set()
        while self.kept:
            time.sleep(0.05)
        self.gone.clear()

    def handle_error(self, request, client_address):
        """Whoever hangs up is no trouble here."""

    def end(self):
        self.gone.set()
        self.shutdown()
        self.server_close()


class Standing(http.server.BaseHTTPRequestHandler):
    """A reply of the stand-in, with the hall's headers alone: no date."""
    BODY = b'{"stands":"in"}'

    def do_GET(self):
        if self.path == "/closes":
            return
        if self.path == "/silent" or self.path.endswith("/certificate"):
            self.server.keep()
        self.send_response_only(200)
        self.send_header("Content-Type", "application/json")
        self.send_header("Content-Length", str(len(self.BODY)))
        self.end_headers()
        self.wfile.write(self.BODY)

    do_POST = do_PUT = do_GET

    def log_message(self, *_):
        """Nothing is logged."""


def has_ipv6():
    try:
        with socket.socket(socket.AF_INET6) as it:
            it.bind(("::1", 0))
    except OSError:
        return False
    return True


@contextlib.contextmanager
def serving(program, room, people, port):
    """A hall with these people on the port."""
    path = with_people(program, f"{room}/hall.db", people)
    hall = subprocess.Popen([program, "serve", "--db", path, "--port", str(port)], stderr=subprocess.DEVNULL)
    try:
        wait_for(port)
        yield
    finally:
        hall.terminate()
        hall.wait()


@contextlib.contextmanager
def ended_after(process):
    try:
        yield process
    finally:
        process.terminate()
        process.wait()
