"""Listings of all answers of a round, which are made in slices: whoever asks is told the answers of one moment, all of
them, in their order, with their verdicts, whatever is done meanwhile.

The file has so many people that a listing takes some turns. Directors and a referee list two rounds that are over, at
once and again, while others hand in answers to a round under way and read it. The listing of that round, in which
answers come meanwhile, is a listing at a moment too: each of its entrants' answers are a first part of those that were
handed in, and none that was received before it was asked for is left out. And who goes away in the midst of a listing
keeps nobody from the next. Where more rounds are listed at once than a listing has slices, each is told.
"""
import asyncio
import json
import sqlite3
import time

import pytest
from harness import database
from harness.checks import check
from harness.clients import Client, body, many, status
from harness.running import connected, serving
from harness.wire import compact, request

# Five slices of people, of whom each third stays away from the second round.
PEOPLE, PUZZLES, ASK, HANDS, ANSWERS, MOST_SECONDS = 900, 3, 6, 4, 30, 600
# Two slices of people, and so many rounds that are listed at once.
FEW, CROWD = 300, 12
STAFF = ("dora-key-1", "rex-key-1")
OVER = ("first", "second")
NAMES = [f"e{k}" for k in range(PEOPLE)]


def rows():
    """Two rounds that are over, the second sealed, and one that is under way."""
    now = int(time.time())
    yield "INSERT INTO people VALUES ('bob', 'bob-key-1', 2), ('dora', 'dora-key-1', 1), ('rex', 'rex-key-1', 4);"
    yield "".join(f"INSERT INTO people VALUES ('{name}', 'key-of-{name}', 8);" for name in NAMES)
    for name, start, mode in (("first", 90_000, 1), ("second", 80_000, 2), ("now", 60, 1)):
        minutes = 1440 if name == "now" else 60
        yield f"INSERT INTO rounds VALUES ('{name}', 'R', {now - start}, {minutes}, 600, 0, 5, {mode}, 1, 0);"
        for k in range(1, PUZZLES + 1):
            yield f"INSERT INTO puzzles VALUES ('bob', '{name}{k}', '{database.SUDOKU}', 1, '{database.RIGHT}');"
            yield f"INSERT INTO round_puzzles VALUES ('{name}', {k}, 'bob', '{name}{k}', {10 * k});"
    for who in range(PEOPLE):
        for name, start in (("first", 90_000), ("second", 80_000), ("now", 60))[: 3 if who % 3 else 1]:
            for k in range(1, 1 + who % (PUZZLES + 1)):
                given = [database.WRONG] * (who % 2) + [database.RIGHT]
                for n, answer in enumerate(given, 1):
                    verdict = 0 if answer == database.RIGHT else 20
                    moment = now - start + min(who + 60 * n, 30 if name == "now" else 3_000)
                    yield (f"INSERT INTO answers VALUES ('e{who}', '{name}', {k}, 't{n}', {n}, {moment}, "
                           f"'{answer}', {verdict});")


@pytest.fixture
def db(room):
    return database.written(f"{room}/hall.db", database.TABLES, "".join(rows()))


def crowd():
    """Many rounds that are over, each with an answer of each."""
    now = int(time.time())
    yield "INSERT INTO people VALUES ('bob', 'bob-key-1', 2), ('dora', 'dora-key-1', 1), ('rex', 'rex-key-1', 4);"
    yield "".join(f"INSERT INTO people VALUES ('e{k}', 'key-of-e{k}', 8);" for k in range(FEW))
    for r in range(CROWD):
        yield f"INSERT INTO rounds VALUES ('r{r}', 'R', {now - 90_000}, 60, 600, 0, 5, 2, 1, 0);"
        yield f"INSERT INTO puzzles VALUES ('bob', 'p{r}', '{database.SUDOKU}', 1, '{database.RIGHT}');"
        yield f"INSERT INTO round_puzzles VALUES ('r{r}', 1, 'bob', 'p{r}', 10);"
        for k in range(FEW):
            yield f"INSERT INTO answers VALUES ('e{k}', 'r{r}', 1, 't', 1, {now - 89_000}, '{database.RIGHT}', 0);"


def kept(path, name):
    """The answers of the round as its listing tells them."""
    conn = sqlite3.connect(path)
    found = conn.execute("SELECT answer, entrant, moment, n, number, token, verdict FROM answers WHERE round = ? "
                         "ORDER BY entrant, number, n", (name,)).fetchall()
    conn.close()
    return [(*row[:-1], row[-1] == 0) for row in found]


def told(reply):
    """The same of a reply, where it is one of a listing."""
    if status(reply) != 200:
        return status(reply)
    lines = json.loads(body(reply))["answers"]
    return [(*(line[name] for name in ("answer", "entrant", "moment", "n", "number", "token")),
             line["verdict"] == "right") for line in lines]


async def answered(client, key, method, path, text=""):
    await client.send(request(key, method, path, text).encode())
    return await client.reply()


async def listed(clients, name, wanted):
    """All staff ask for it at once, and are told it."""
    found = await asyncio.gather(*(answered(it, STAFF[k % 2], "GET", f"/rounds/{name}/answers")
                                   for k, it in enumerate(clients)))
    right = sum(told(it) == wanted for it in found)
    check(f"of {len(clients)} that list the answers of {name}, whom these are told", right, len(clients))


async def hands_in(port, who, token):
    """One who reads the round under way and hands in, one after another; how many were received is told on."""
    async with Client(port) as client:
        key = f"key-of-{who}"
        for n in range(1, ANSWERS + 1):
            check("a round is read", status(await answered(client, key, "GET", "/rounds/now")), 200)
            sent = compact({"answer": database.RIGHT})
            reply = await answered(client, key, "PUT", f"/rounds/now/answers/1/{token}{n}", sent)
            check("an answer", status(reply), 200)
            own = await answered(client, key, "GET", "/rounds/now/answers")
            check("own answers", len([line for line in told(own) if line[1] == who]) >= n, True)


async def lists_under_way(port, before, times):
    """Lists the round under way while answers come: each listing has all of the one before, in its order."""
    earlier = before
    async with Client(port) as client:
        for _ in range(times):
            lines = told(await answered(client, "dora-key-1", "GET", "/rounds/now/answers"))
            known = set(earlier)
            check("who stood before is listed", [line for line in lines if line in known], earlier)
            check("in their order", lines, sorted(lines, key=lambda line: (line[1], line[4], line[3])))
            earlier = lines


async def goes_away(port):
    """Asks, and is gone before it is told all."""
    async with Client(port) as client:
        await client.send(request("dora-key-1", "GET", "/rounds/first/answers", "").encode())


async def asked(port, wanted, before):
    async with many(port, ASK) as some, many(port, ASK) as others:
        async def both():
            await asyncio.gather(listed(some, "first", wanted["first"]), listed(others, "second", wanted["second"]))

        await both()
        await goes_away(port)
        # Whoever the rule lets take part without an answer yet to the first puzzle hands in.
        hands = [hands_in(port, f"e{4 * k + 12}", "w") for k in range(HANDS)]
        await asyncio.gather(both(), lists_under_way(port, before, 20), *hands)
        await both()
        async with Client(port) as client:
            check("nobody lists all as an entrant", {line[1] for line in told(
                await answered(client, "key-of-e5", "GET", "/rounds/first/answers"))}, {"e5"})
            check("a referee before the end", told(
                await answered(client, "rex-key-1", "GET", "/rounds/now/answers")), [])
            check("a round that isn't there", told(await answered(client, "rex-key-1", "GET", "/rounds/no/answers")),
                  404)
            check("a stranger", told(await answered(client, "nobodys-key", "GET", "/rounds/first/answers")), 403)
            return told(await answered(client, "dora-key-1", "GET", "/rounds/now/answers"))


def test_listings_in_slices(program, db):
    wanted = {name: kept(db, name) for name in OVER}
    before = kept(db, "now")
    with serving(db, 1_000_000, program) as (server, port):
        connected(server, port).close()
        last = asyncio.run(asyncio.wait_for(asked(port, wanted, before), MOST_SECONDS))
    check("the listing of the round under way at the end", last, kept(db, "now"))
    check("all that were handed in stand in it", len(last), len(before) + HANDS * ANSWERS)


async def listed_in_turn(port):
    async with many(port, CROWD) as clients:
        found = await asyncio.gather(
            *(answered(it, STAFF[k % 2], "GET", f"/rounds/r{k}/answers") for k, it in enumerate(clients)))
    return [told(it) for it in found]


def test_listings_of_many_rounds_at_once(program, room):
    path = database.written(f"{room}/hall.db", database.TABLES, "".join(crowd()))
    with serving(path, 1_000, program) as (server, port):
        connected(server, port).close()
        found = asyncio.run(asyncio.wait_for(listed_in_turn(port), MOST_SECONDS))
    check("the listings of many rounds", found, [kept(path, f"r{k}") for k in range(CROWD)])
