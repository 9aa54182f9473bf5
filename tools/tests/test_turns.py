"""Whoever asks has a turn, whatever it asks and whoever else is there. Nothing here is timed: replies are counted.

What each scene sees, of halls that once passed all other tests:

- `each_key_and_length`, where each of thousands with a key and a reply of a length that no other has reads its answers
  and certifies a puzzle: a reply of one length, or to one entrant, waits and isn't sent; a turn of one key goes on at
  once and does nothing; the search of one key never begins.
- `asked_first`: whoever became ready last has its turn first.
- `beside_others_that_end`: each search that ends has all others begin anew.
- `asked_last_stays`: in a full house whoever was answered last makes room.
"""
import asyncio
import csv
import itertools
import os
import string

import pytest
from harness import database
from harness.beside import author, certify, hard, written
from harness.checks import check, must_be
from harness.clients import MOST, Client, allow_many_files, body, many, status
from harness.database import RIGHT, SUDOKU
from harness.running import PEOPLE, connected, library, serving, set_clock, standing_still
from harness.wire import request

# How many seconds a client waits for a reply that never comes, and all of a test may take.
NEVER, MOST_SECONDS = 60, 900
# How many read their answers, of which each is one byte longer than the last, and how many of them certify a puzzle;
# over so many connections.
READERS, AUTHORS, LINES = 4_000, 700, 40
# How many ask after whoever asked first, how often, and by how many bytes: so many that no turn reads a whole request.
GREEDY, EACH, LONG = 3, 3, 65_000
# The visits of a search, of one that takes a fifth of it, and how many of those may end beside it.
VISITS, FEW, BESIDE = 300, 60, 50
# How many were answered first in a full house, and how many come to it.
EARLY, NEWCOMERS = 300, 100
GAVE_UP = b'{"state":"gave up"}'
OPENINGS = [a + b for a, b in itertools.product(string.ascii_lowercase, repeat=2)]


def keys():
    """Those that examples use, and others that begin with each two letters."""
    with open(PEOPLE, encoding="ascii") as file:
        known = [row["key"] for row in csv.DictReader(file)]
    return known + [f"{OPENINGS[k % len(OPENINGS)]}-key-{k}" for k in range(len(known), READERS)]


def filled(path):
    """A published round with an answer of each reader, and a puzzle of each author."""
    rows = [f"INSERT INTO people VALUES ('p{k}', '{key}', 10)" for k, key in enumerate(keys())]
    rows += [f"INSERT INTO puzzles VALUES ('p{k}', 'own', '{SUDOKU}', 0, '')" for k in range(AUTHORS)]
    rows += [f"INSERT INTO puzzles VALUES ('p0', 'told', '{SUDOKU}', 1, '{RIGHT}')",
             "INSERT INTO rounds VALUES ('then', 'Then', 1777712400, 60, 0, 0, 5, 0, 1, 1)",
             "INSERT INTO round_puzzles VALUES ('then', 1, 'p0', 'told', 40)"]
    rows += [f"INSERT INTO answers VALUES ('p{k}', 'then', 1, 't', 1, 1777712500, '{'x' * (k + 1)}', 1)"
             for k in range(READERS)]
    return database.written(path, database.TABLES, f"BEGIN; {';'.join(rows)}; COMMIT")


async def asks_each(port, asked):
    """The replies to these requests, of which each client asks some, one after another; those that never come are
    none."""
    told = {}

    async def some(client, places):
        await client.send(b"".join(asked[place] for place in places))
        for place in places:
            told[place] = await asyncio.wait_for(client.reply(), NEVER)

    async with many(port, LINES) as lines:
        # Those of examples come last: behind others, a turn may begin with their requests heard and not answered.
        parts = [range(place, len(asked), LINES)[::-1] for place in range(LINES)]
        await asyncio.gather(*map(some, lines, parts), return_exceptions=True)
    return [told.get(place, b"") for place in range(len(asked))]


async def each_key_and_length(program, room):
    with serving(filled(f"{room}/each.db"), 10_000, program) as (server, port):
        connected(server, port).close()
        reads = [request(key, "GET", "/rounds/then/answers").encode() for key in keys()]
        told = await asks_each(port, reads)
        found = [place for place, reply in enumerate(told) if b'"%s"' % (b"x" * (place + 1)) not in reply]
        check(f"of {READERS} who read an answer of their own, those who don't", found, [])
        # By a budget of its own each needs a search of its own, and finds nothing that another has found.
        asked = [request(key, "POST", f"/puzzles/p{k}/own/certificate", '{"budget":%d}' % (9 + k)).encode()
                 for k, key in enumerate(keys()[:AUTHORS])]
        told = map(body, await asks_each(port, asked))
        found = [keys()[k] for k, reply in enumerate(told) if reply != b'{"state":"one"}']
        check(f"of {AUTHORS} who certify a puzzle, the keys of those who don't", found, [])


async def asked_first(program, room):
    """A puzzle is put, and then others read it by requests of many turns each: all of them find it there. Were any read
    before it, that one had a second turn while whoever asked first waited for one."""
    reads = request(author(0), "GET", "/puzzles/a0/new", "x" * LONG).encode()
    puts = request(author(0), "PUT", "/puzzles/a0/new", '{"text":"%s"}' % SUDOKU).encode()
    with serving(written(f"{room}/first.db", []), 10_000, program) as (server, port):
        connected(server, port).close()
        async with Client(port) as first, many(port, GREEDY) as greedy:
            for client in (first, *greedy):
                await client.send(reads)
                check("a puzzle that isn't there yet", status(await client.reply()), 404)
            with standing_still(server):
                await first.send(puts)
                sent = {client.it.send(reads * EACH) for client in greedy}
            must_be("bytes that wait while the hall stands still", sent, {len(reads * EACH)})
            check("the puzzle is put", status(await asyncio.wait_for(first.reply(), NEVER)), 200)
            told = [status(await asyncio.wait_for(client.reply(), NEVER)) for client in greedy for _ in range(EACH)]
    check("the puzzle, read after it was put", told, [200] * len(told))


async def beside_others_that_end(program, room):
    """A search, and others of another author, one after another, each of another budget."""
    path = written(f"{room}/end.db", [(0, "long", hard(0)), (1, "short", hard(1))])
    with serving(path, 10_000, program) as (server, port):
        connected(server, port).close()
        async with Client(port) as client, Client(port) as other:
            await client.send(certify(0, "long", VISITS))
            search, ended = asyncio.create_task(client.reply()), 0
            while not search.done() and ended < BESIDE:
                await other.send(certify(1, "short", FEW + ended))
                check("a short search", body(await asyncio.wait_for(other.reply(), NEVER)), GAVE_UP)
                ended += 1
            told = body(search.result()) if search.done() else "no reply"
            search.cancel()
    check(f"a search beside which {ended} ended of a fifth of its visits", told, GAVE_UP)


async def are_answered(clients):
    for client in clients:
        await client.send(request(author(0), "GET", "/rounds").encode())
    told = {status(await asyncio.wait_for(client.reply(), NEVER)) for client in clients}
    check("what each is answered", told, {200})


async def asked_last_stays(program, room):
    """The hall's clock is set by hand, so that nobody's patience ends however busy the machine is."""
    clock = f"{room}/clock"
    env = {**os.environ, "LD_PRELOAD": library(room, "clock"), "STEADY": clock}
    set_clock(clock, 1_000)
    with serving(written(f"{room}/full.db", []), 10_000, program, env) as (server, port):
        connected(server, port).close()
        async with many(port, EARLY) as early, many(port, MOST - EARLY) as late:
            await are_answered(early)
            for second in range(1_001, 1_003):
                set_clock(clock, second)
                await are_answered(late)
            set_clock(clock, 1_003)
            async with many(port, NEWCOMERS) as newcomers:
                await are_answered(newcomers)
                gone = [[client.is_gone() for client in those].count(True) for those in (early, late)]
    check(f"so many made room: {gone[0]}", gone[0] >= NEWCOMERS, True)
    check("who was answered last and made room", gone[1], 0)


@pytest.mark.parametrize("of", [each_key_and_length, asked_first, beside_others_that_end, asked_last_stays])
def test_has_a_turn(of, program, room):
    allow_many_files()
    try:
        asyncio.run(asyncio.wait_for(of(program, room), MOST_SECONDS))
    except TimeoutError:
        check(f"all of it within {MOST_SECONDS} s", "longer", "well")
