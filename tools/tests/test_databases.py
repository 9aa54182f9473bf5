"""Database files that sqlite3 wrote are served: requests that meet a row that is no record are answered 503, and no
other.

The rows, the requests and what each is replied stand in examples/databases/rows.toml. Each file is served to one
connection.
"""
import shutil
import socket
import sqlite3
import time
import tomllib

import pytest
from harness import database, wire
from harness.checks import check
from harness.running import ROOT, connected, copied, hall, read_off, serving, told

FAULT = (503, '{"fault":"hall"}')

with open(f"{ROOT}/examples/databases/rows.toml", "rb") as table:
    ROWS = tomllib.load(table)


def bytes_of(requests):
    """The requests, one after another; one without a key has no header for it."""
    asked = []
    for it in requests:
        text = wire.request(it.get("key", ""), *it["line"].split(" ", 1), it.get("body", ""))
        asked.append(text if "key" in it else text.replace("Hall-Key: \r\n", ""))
    return "".join(asked).encode()


def served(program, path, requests, tries=5):
    """What each request is replied."""
    with serving(path, 1, program) as (server, port):
        client = connected(server, port)
        if client is None and tries > 1:
            return served(program, path, requests, tries - 1)
        with client:
            client.sendall(bytes_of(requests))
            client.shutdown(socket.SHUT_WR)
            written = read_off(client)
        check("the server's status", server.wait(60), 0)
    return [told(reply) for reply in wire.replies(written)]


def changed(path, statements):
    """Runs the statements over the file, without the syncs that sqlite3 makes."""
    conn = sqlite3.connect(path, isolation_level=None)
    conn.executescript("PRAGMA synchronous = OFF; PRAGMA foreign_keys = ON")
    conn.executescript(statements)
    conn.close()


class Scenes:
    """A file for each scene, with the rows of the world."""

    def __init__(self, program, room):
        self.program, self.room = program, room
        changed(f"{room}/world.db", database.TABLES + ROWS["world"])
        for scene in ROWS["scenes"]:
            shutil.copyfile(f"{room}/world.db", f"{room}/{scene['name']}.db")
            changed(f"{room}/{scene['name']}.db", scene["before"].replace("now", str(int(time.time()))))

    def replies_after(self, scene, statement):
        """What each request of the scene is replied where the statement was run over its file."""
        path = copied(f"{self.room}/{scene['name']}.db", f"{self.room}/served.db")
        changed(path, statement)
        return served(self.program, path, scene["requests"])

    def see(self, scene, statement, failing):
        """Asks the scene's requests after the statement: those that make a failing call are answered 503, no other
        is."""
        replies = self.replies_after(scene, statement)
        for asked, reply in zip(scene["requests"], replies, strict=True):
            fails = not set(failing).isdisjoint(asked["calls"])
            name = f"{statement}: {asked.get('key', 'nobody')} {asked['line']}, {scene['name']}, {reply}"
            check(name, reply == FAULT if fails else reply[0] != 503, True)
        return replies


@pytest.fixture
def scenes(program, room):
    return Scenes(program, room)


def named(group):
    """The name of a test for a group of rows: the first calls that meet them."""
    return " ".join(group["calls"][:3]) or "none"


def test_the_world_is_told(scenes, room):
    shutil.copyfile(f"{room}/world.db", f"{room}/people.db")
    with open(f"{room}/people.csv", "w", encoding="ascii") as it:
        it.write(ROWS["people"])
    added = hall("init", "--db", f"{room}/people.db", "--people", f"{room}/people.csv")
    check("the people of sqlite3's rows", added, (b"added 0\n", 0, False))
    for scene in ROWS["scenes"]:
        wanted = [(it["status"], it["reply"]) for it in scene["requests"]]
        for asked, got, want in zip(scene["requests"], scenes.replies_after(scene, ""), wanted, strict=True):
            check(f"{scene['name']}: {asked['line']}", got, want)


def test_each_call_is_asked():
    asked = {call for scene in ROWS["scenes"] for it in scene["requests"] for call in it["calls"]}
    failing = {call for group in ROWS["no_records"] for call in group["calls"]}
    check("calls that no request makes", sorted(failing - asked), [])


@pytest.mark.parametrize("group", ROWS["no_records"], ids=named)
def test_rows_that_are_no_records(scenes, group):
    assert group["after"]
    for statement in group["after"]:
        for scene in ROWS["scenes"]:
            scenes.see(scene, statement, group["calls"])


@pytest.mark.parametrize("group", ROWS["records"], ids=named)
def test_rows_at_the_ends_of_their_ranges(scenes, group):
    assert group["after"]
    for statement in group["after"]:
        same = True
        for scene in ROWS["scenes"]:
            replies = scenes.see(scene, statement, group["calls"])
            same = same and replies == [(it["status"], it["reply"]) for it in scene["requests"]]
        check(f"{statement}: all replies stay", same, False)


def test_verdicts_by_their_sums(scenes):
    asked = {"key": "eve-key-1", "line": "GET /rounds/r1/answers"}
    assert ROWS["verdicts"]
    for it in ROWS["verdicts"]:
        statement = f"UPDATE answers SET verdict = {it['sum']} WHERE entrant = 'eve'"
        (_, body), = scenes.replies_after({"name": "over", "requests": [asked]}, statement)
        check(statement, body.rpartition('"verdict":')[2], f'"{it["name"]}"}}]}}')


def test_rows_that_the_tables_refuse(room):
    path = f"{room}/refused.db"
    nobody = f"{room}/nobody.csv"
    with open(nobody, "w", encoding="ascii") as it:
        it.write("name,key,roles\n")
    check("tables for nobody", hall("init", "--db", path, "--people", nobody), (b"added 0\n", 0, False))
    changed(path, ROWS["world"])
    conn = sqlite3.connect(path, isolation_level=None)
    conn.execute("PRAGMA foreign_keys = ON")
    before = list(conn.iterdump())
    for statement in ROWS["refused"]["statements"]:
        try:
            conn.execute(statement)
            check(f"is refused: {statement}", False, True)
        except sqlite3.IntegrityError:
            check(statement, True, True)
    check("the rows after what was refused", list(conn.iterdump()), before)
    conn.close()
