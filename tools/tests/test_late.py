"""What the hall has heard before a round's end counts, however many hand in at once and however slow the disk is.

Each sync of the disk takes longer, by strace, and a hundred entrants hand in an answer each shortly before the end: all
are taken, and one that is sent after it isn't.
"""
import asyncio
import contextlib
import time
from collections import Counter

import pytest
from harness import database
from harness.checks import check, need
from harness.clients import Client, allow_many_files, body, many, status
from harness.database import RIGHT, SUDOKU
from harness.running import connected, removed, serving, traced
from harness.wire import request as asked

ENTRANTS = 100  # who hand in at once
# How many milliseconds longer a sync takes, and how many seconds before the end of a round all hand in; and how long
# the round lasts at each try, since a busy machine may hold up the clients or the hall. Who stands still for ten
# seconds is let go.
SLOW, LASTS = [(5, 0.5), (20, 2)], (4, 6, 9)
# How many seconds a reply may take.
SOON = 60
# What one is told who hands in, in time and late.
TAKEN, LATE = (200, b'{"received":1}'), (403, b'{"denied":8}')


def hall_file(path, seconds):
    """A sealed round that ends in so many seconds, and its end."""
    end = int(time.time()) + seconds
    people = ", ".join(f"('e{k}', '{key(k)}', 8)" for k in range(ENTRANTS + 1))
    database.written(removed(path), database.TABLES, f"""INSERT INTO people VALUES ('bob', 'bob-key-1', 2), {people};
        INSERT INTO puzzles VALUES ('bob', 'p1', '{SUDOKU}', 1, '{RIGHT}');
        INSERT INTO rounds VALUES ('r', 'Round', {end - 3600}, 60, 60, 1, 5, 0, 1, 0);
        INSERT INTO round_puzzles VALUES ('r', 1, 'bob', 'p1', 40);""")
    return end


def key(number):
    return f"key-of-{number:04}"


def submit(number):
    return asked(key(number), "PUT", "/rounds/r/answers/1/t", '{"answer":"%s"}' % RIGHT).encode()


async def ask(clients, requests):
    """Each sends a request. One that was cut is told so later."""
    for client, sent in zip(clients, requests):
        with contextlib.suppress(OSError):
            await client.send(sent)


async def told(client):
    """(status, body) of the next reply; (0, b"") where none comes whole."""
    try:
        reply = await asyncio.wait_for(client.reply(), SOON)
    except (OSError, TimeoutError):
        return 0, b""
    return status(reply), body(reply) if status(reply) else b""


async def at_home(clients):
    """Each has a place, and is known to be there."""
    await ask(clients, [asked(key(number), "GET", "/rounds").encode() for number in range(ENTRANTS)])
    for client in clients:
        await told(client)


async def before_an_end(port, end, before):
    """What so many are told who hand in so long before the end; and one who does after it."""
    async with many(port, ENTRANTS) as clients, Client(port) as late:
        await at_home(clients)
        await asyncio.sleep(max(0, end - before - time.time()))
        await ask(clients, map(submit, range(ENTRANTS)))
        found = Counter([await told(client) for client in clients])
        await asyncio.sleep(max(0, end + 0.1 - time.time()))
        await late.send(submit(ENTRANTS))
        return found, await told(late)


@pytest.mark.parametrize("slow, before", SLOW)
def test_a_slow_disk(slow, before, program, room):
    need("strace")
    allow_many_files()
    delayed = f"inject=fdatasync,fsync:delay_enter={1000 * slow}"
    command = traced(program, room, "-e", "trace=fdatasync,fsync", "-e", delayed)
    for seconds in LASTS:
        end = hall_file(f"{room}/hall.db", seconds)
        with serving(f"{room}/hall.db", 10_000, command) as (server, port):
            connected(server, port).close()
            found, late = asyncio.run(before_an_end(port, end, before))
        if found == {TAKEN: ENTRANTS}:
            break
    check(f"{ENTRANTS} answers {before} s before the end, each sync {slow} ms longer", found, {TAKEN: ENTRANTS})
    check("an answer after the end", late, LATE)
