"""Requests to a hall, each sent again until it is answered: docs/HTTP.md tells by which rules."""
import email.utils
import http.client
import json
import random
import socket
import ssl
import sys
import time
import urllib.parse

from . import told

# Whoever doesn't answer in 10 seconds may be a machine that is gone, and another one in its place. What takes longer is
# waited for twice as long at each try: a proxy tells 504 after 3 minutes.
TIMEOUT, LONGEST_TIMEOUT = 10, 200
# A certificate may take hours, one in the queue and one in the search.
TIMEOUT_OF_CERTIFICATE = 7300
# So the system notices within 10 seconds that a machine is gone: it asks after 5 seconds of silence and then each 2,
# and what was sent is to be confirmed in 9 (here in milliseconds).
KEEPALIVE = {"TCP_KEEPIDLE": 5, "TCP_KEEPINTVL": 2, "TCP_KEEPCNT": 3, "TCP_USER_TIMEOUT": 9000}
LARGEST_BODY = 65_536


# The hosts that nobody stands before.
LOCAL = ("localhost", "127.0.0.1", "::1")


def scheme_of(url):
    """How a hall is asked whose address says nothing of it: in secret, but on this machine."""
    return "http" if urllib.parse.urlsplit(f"//{url}").hostname in LOCAL else "https"


def watch(sock, timeout):
    """Has the system notice that the machine at the other end is gone, and waits no longer for a reply than this."""
    sock.settimeout(timeout)
    sock.setsockopt(socket.SOL_SOCKET, socket.SO_KEEPALIVE, 1)
    for name, value in KEEPALIVE.items():
        # Not every system has each of them.
        if hasattr(socket, name):
            sock.setsockopt(socket.IPPROTO_TCP, getattr(socket, name), value)


class NoReply(Exception):
    """Nobody answered, or only that the request should be sent again, for as long as was to be waited."""


class Refused(Exception):
    """A reply that isn't 200."""

    def __init__(self, reply):
        super().__init__(reply.status)
        self.reply = reply


class Reply:
    """A reply: its status, body, and the moment that it tells, where a proxy does."""

    def __init__(self, status, body, headers):
        self.status, self.body, self.tries, self.of_file = status, body, 1, False
        self.kind, self.place = headers.get("Content-Type", ""), headers.get("Location", "")
        date = email.utils.parsedate_to_datetime(headers["Date"]) if headers.get("Date") else None
        self.moment = date.timestamp() if date else None
        self.retry_after = headers.get("Retry-After", "")

    def data(self):
        """The JSON that the body is; none where it is a proxy's page."""
        try:
            return json.loads(self.body)
        except ValueError:
            return None

    def is_of_hall(self):
        """Whether a reply of 200 is a hall's: JSON, or the plain text of a table."""
        return self.kind.startswith("text/plain") or self.data() is not None

    def pause(self, last):
        """How long to wait before the request is sent again; none where it isn't."""
        again, first = told.waits_of(self.status)
        if not again:
            return None
        if self.retry_after.isdigit():
            return int(self.retry_after)
        return min(max(first, 2 * last), told.longest_wait())


class Hall:
    """A hall at a URL, asked under a key."""

    def __init__(self, url, key, patience=300, say=lambda text: print(text, file=sys.stderr)):
        url = url if "://" in url else f"{scheme_of(url)}://{url}"
        parts = urllib.parse.urlsplit(url)
        if parts.scheme not in ("http", "https") or not parts.hostname:
            raise ValueError(f"{url} is no address of a hall, as https://your.name or http://127.0.0.1:8080")
        self.url, self.key, self.patience, self.say = url, key, patience, say
        self.is_secret, self.host, self.front = parts.scheme == "https", parts.hostname, parts.path.rstrip("/")
        self.port = parts.port or (443 if self.is_secret else 80)
        if key and not self.is_secret and parts.hostname not in LOCAL:
            say(f"whoever stands between can read your key on its way to {url}: ask by https://")
        # The hall's clock less this machine's, by the last reply that told a moment.
        self.ahead = 0
        # How long a reply is waited for at the next try.
        self.timeout = TIMEOUT

    def connection(self):
        kind = http.client.HTTPSConnection if self.is_secret else http.client.HTTPConnection
        return kind(self.host, self.port, timeout=TIMEOUT)

    def once(self, method, path, body):
        """The reply to the request, and why there is none where there is none."""
        headers = {"Connection": "close"} | ({"Hall-Key": self.key} if self.key else {})
        conn = self.connection()
        try:
            conn.connect()
            watch(conn.sock, TIMEOUT_OF_CERTIFICATE if path.endswith("/certificate") else self.timeout)
            # A name of strange letters is the hall's to refuse.
            conn.request(method, self.front + urllib.parse.quote(path), body, headers)
            got = conn.getresponse()
            return Reply(got.status, got.read(), got.headers), None
        except ssl.SSLCertVerificationError as fault:
            raise NoReply(f"the certificate of {self.host} can't be trusted: {fault.verify_message}. Where it signs"
                          " itself and you have its file, name that in the variable SSL_CERT_FILE") from None
        except ssl.SSLError:
            return None, f"there is no TLS at {self.host}:{self.port}"
        except socket.gaierror:
            return None, f"{self.host} is not found"
        except (OSError, http.client.HTTPException) as fault:
            if isinstance(fault, TimeoutError):
                self.timeout = min(2 * self.timeout, LONGEST_TIMEOUT)
            return None, f"no reply ({type(fault).__name__})"
        finally:
            conn.close()

    def ask(self, method, path, body=b""):
        """The reply, whatever it says, after as many tries as it takes."""
        until, pause, tries = time.monotonic() + self.patience, 0, 0
        self.timeout = TIMEOUT
        while True:
            reply, why = self.once(method, path, body)
            tries += 1
            waited = reply.pause(pause) if reply else min(2 * pause or 1, told.longest_wait())
            if waited is None:
                self.note(reply, tries, body)
                return reply
            pause = waited
            why = why or next(told.lines_of(reply.data(), reply.status)).rstrip(".")
            if time.monotonic() + pause > until:
                raise NoReply(f"{self.url} doesn't answer: {why}; tried {tries} times")
            self.say(f"{why}; it is sent again in {pause} s")
            time.sleep(pause * random.uniform(0.8, 1.2))

    def note(self, reply, tries, body):
        """Keeps what a reply tells beside its body. What only looks like a reply is none."""
        if reply.place or reply.status == 200 and not reply.is_of_hall():
            where = f", and leads to {reply.place}" if reply.place else ""
            raise NoReply(f"{self.url} doesn't answer: status {reply.status}{where}: {told.STRANGER}")
        reply.tries, reply.of_file = tries, not body.startswith(b"{")
        if reply.moment:
            self.ahead = reply.moment - time.time()

    def done(self, method, path, body=b""):
        """The reply, which is 200; any other is raised."""
        reply = self.ask(method, path, body)
        if reply.status != 200:
            raise Refused(reply)
        return reply

    def get(self, path):
        """The JSON at the path."""
        return self.done("GET", path).data()

    def put(self, path, value):
        """The JSON that is told of a JSON body."""
        return self.done("PUT", path, as_json(value)).data()

    def now(self):
        """The moment by the hall's clock, as far as a proxy tells it; else by this machine's."""
        return time.time() + self.ahead


def as_json(value):
    return json.dumps(value, separators=(",", ":")).encode()
