"""Entrants who hand in to a hall that serves filled.py's file, and what a copy of that file has of their answers."""
import contextlib
import http.client
import json
import sqlite3
import threading

from . import filled, running

MOST_EACH = 25 * 50


class Entrant(threading.Thread):
    """Hands in one answer after another, each once the last was acknowledged: how many were, and what went wrong."""

    def __init__(self, port, name, over):
        super().__init__(daemon=True)
        self.port, self.name_of, self.over, self.told, self.fault = port, name, over, 0, None
        self.start()

    def run(self):
        try:
            self.hand_in()
        except (OSError, ValueError, http.client.HTTPException) as fault:
            self.fault = f"{self.name_of}: {fault!r}"

    def hand_in(self):
        line = http.client.HTTPConnection("127.0.0.1", self.port, timeout=running.PATIENCE)
        headers, body = {"Hall-Key": f"{self.name_of}-key-{self.name_of}"}, json.dumps({"answer": filled.WRONG})
        while self.told < MOST_EACH and not self.over.is_set():
            place, token = self.told % 25 + 1, f"m{self.told}"
            line.request("PUT", f"/rounds/now/answers/{place}/{token}", body, headers)
            reply = line.getresponse()
            if reply.status != 200 or b"received" not in reply.read():
                raise ValueError(f"{self.name_of}'s answer {self.told} was told {reply.status}")
            self.told += 1
            # The hall ends a connection after 1,000 requests.
            if self.told % 900 == 0:
                line.close()


def faults(copy, told):
    """What is wrong with a copy, before which so many answers of each entrant were told."""
    try:
        with contextlib.closing(sqlite3.connect(copy)) as conn:
            return list(faults_in(conn, told))
    except sqlite3.DatabaseError as error:
        return [str(error)]


def faults_in(conn, told):
    """The same of an open one."""
    checked = conn.execute("PRAGMA integrity_check").fetchall()
    if checked != [("ok",)]:
        yield f"SQLite's check tells {checked[:3]}"
    for name, least in told.items():
        tokens = {token for (token,) in conn.execute("SELECT token FROM answers WHERE entrant = ?", (name,))}
        if len(tokens) < least:
            yield f"{name} has {len(tokens)} answers of {least} that were told"
        if tokens != {f"m{k}" for k in range(len(tokens))}:
            yield f"{name}'s answers have a gap"
