"""Whoever has asked is answered, however long the hall searches or stands still.

Many clients keep a connection each. Then one asks for a search that takes longer than any client has patience, and is
told its end; or the hall's process is stopped for so long, as a suspended machine is. Meanwhile each of the others
sends a whole request, and all of them are answered. How long a search takes is measured first, and one that ended too
soon is made again.
"""
import asyncio
import signal

import pytest
from harness import database
from harness.beside import HARD
from harness.checks import check
from harness.clients import LATE, PATIENCE, Client, allow_many_files, body, many, status
from harness.wire import request

KEPT, NEWCOMERS = 400, 60
# After a search or a stop of so many seconds nobody who is kept waiting has patience left.
LONG = PATIENCE + 0.5
# Which the search is meant to take, the most visits that it may make, and how often it is tried.
AIM, MOST_VISITS, TRIES = 13, 1_000_000, 5
# Within how many seconds all are answered, once the hall goes on, and how many all of it may take.
SOON, MOST_SECONDS = 60, 900
ASKED = request("eve-key-1", "GET", "/rounds/r1").encode()
GAVE_UP = b'{"state":"gave up"}'


@pytest.fixture
def db(room):
    """A file with a published round, and a puzzle that isn't certified."""
    puzzle = f"INSERT INTO puzzles VALUES ('bob', 'hard', '{HARD}', 0, '')"
    return database.written(f"{room}/hall.db", database.TABLES, database.ROWS, puzzle)


async def answered(clients):
    """How many of these clients are sent a whole reply of 200."""
    async def one(client):
        try:
            return status(await asyncio.wait_for(client.reply(), SOON)) == 200
        except TimeoutError:
            return False

    return sum(await asyncio.gather(*map(one, clients)))


async def ask(clients, sent=ASKED):
    await asyncio.gather(*(client.send(sent) for client in clients))


async def searched(client, budget):
    """How many seconds a search of so many visits takes."""
    asked = '{"budget":%d}' % budget
    await client.send(request("bob-key-1", "POST", "/puzzles/bob/hard/certificate", asked).encode())
    check(f"a search of {budget} visits", body(await client.reply()), GAVE_UP)
    return client.took()


async def budget_of(seconds, port):
    """How many visits take about so many seconds here and now."""
    async with Client(port) as client:
        budget = took = 0
        while took < 1 and budget < MOST_VISITS:
            budget = min(2 * budget or 50, MOST_VISITS)
            took = await searched(client, budget)
    return min(int(budget * seconds / took) + 1, MOST_VISITS)


async def behind_a_search(port):
    """All kept clients ask while one waits for a search."""
    budget = await budget_of(AIM, port)
    for _ in range(TRIES):
        async with Client(port) as author, many(port, KEPT) as kept:
            await ask(kept)
            check("kept clients that are answered before a search", await answered(kept), KEPT)
            search = asyncio.create_task(searched(author, budget))
            await asyncio.sleep(1)
            await ask(kept)
            took = await search
            name = f"of {KEPT} kept clients that asked during a search of {took:.1f} seconds are answered"
            check(name, await answered(kept), KEPT)
        if took > LONG:
            return
        budget = min(2 * budget, MOST_VISITS)
    check(f"a search of more than {LONG} seconds", took, "so long")


async def behind_a_stop(port, server):
    """All kept clients ask while the hall's process is stopped, and others come."""
    async with many(port, KEPT) as kept:
        await ask(kept)
        check("kept clients that are answered before a stop", await answered(kept), KEPT)
        halves = kept[:20]
        await ask(halves, ASKED[:20])
        await asyncio.sleep(0.5)
        server.send_signal(signal.SIGSTOP)
        try:
            await ask(halves, ASKED[20:])
            await ask(kept[20:])
            async with many(port, NEWCOMERS) as newcomers:
                await ask(newcomers)
                await asyncio.sleep(PATIENCE + LATE)
                server.send_signal(signal.SIGCONT)
                found = await asyncio.gather(answered(kept), answered(newcomers))
        finally:
            server.send_signal(signal.SIGCONT)
        check(f"of {KEPT} kept clients that asked while the hall was stopped are answered", found[0], KEPT)
        check(f"of {NEWCOMERS} that came while it was stopped are answered", found[1], NEWCOMERS)


async def behind_a_signal(port, server):
    """A signal ends what the hall waits for, with no event: those who ask are answered all the same."""
    async with many(port, KEPT) as kept:
        for _ in range(3):
            server.send_signal(signal.SIGSTOP)
            await ask(kept)
            await asyncio.sleep(0.1)
            server.send_signal(signal.SIGCONT)
            check("kept clients that are answered after a short stop", await answered(kept), KEPT)


async def behind_both(port, server):
    await behind_a_stop(port, server)
    await behind_a_signal(port, server)


@pytest.mark.parametrize("of", [lambda port, _: behind_a_search(port), behind_both], ids=["a-search", "a-stop"])
def test_who_asks_behind(of, served):
    allow_many_files()
    server, port = served
    asyncio.run(asyncio.wait_for(of(port, server), MOST_SECONDS))
