"""Requests and replies of HTTP/1.1, as they are sent and read."""
import json
import re

REPLY = re.compile(rb"HTTP/1\.1 [^\r\n]*\r\nContent-Type: [^\r\n]*\r\nContent-Length: (\d+)\r\n\r\n")


def request(key, method, path, body=""):
    """A request under the key."""
    return f"{method} {path} HTTP/1.1\r\nHall-Key: {key}\r\nContent-Length: {len(body)}\r\n\r\n{body}"


def closing(asked):
    """The bytes of the same request, after whose reply the hall ends the connection."""
    return asked.replace(b"\r\n\r\n", b"\r\nConnection: close\r\n\r\n", 1)


def compact(value):
    """JSON as the hall writes it."""
    return json.dumps(value, separators=(",", ":"), sort_keys=True)


def record(moment, asked):
    """A record of a replay."""
    return f"@{moment} {len(asked)}\n{asked}"


def records(text):
    """The records of a replay's input, one by one."""
    found = []
    while text:
        line, rest = text.split(b"\n", 1)
        size = int(re.fullmatch(rb"@\d+ (\d+)", line)[1])
        found.append(line + b"\n" + rest[:size])
        text = rest[size:]
    return found


def replies(written):
    """The replies that were written one after another, each whole; the last may be cut short."""
    found, at = [], 0
    while head := REPLY.match(written, at):
        end = head.end() + int(head[1])
        found.append(written[at:end])
        at = end
    rest = written[at:]
    return found + [rest] if rest else found
