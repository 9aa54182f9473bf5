"""One running hall is asked by as many entrants at once, and each is told its own replies, each once and in order.

Each entrant has a key of its own, hands in answers that nobody else does, as many as nobody else beside it, and lists
its own: so each reply, with its number, verdict and answers, is wrong for any other. They ask one by one, many in one
write, in pieces that end anywhere, on a connection for each request; and some break off in the midst, see what was
taken, and send all again. At last the database is looked into.
"""
import asyncio
import json
import sqlite3

import pytest
from harness.checks import check
from harness.clients import Client, allow_many_files, body, status
from harness.entrants import FEWEST, MOMENT, OPEN, SEALED, Entrant, hall_file
from harness.running import PATIENCE
from harness.wire import closing

# So many ask at once.
ENTRANTS = 240


def is_told(entrant, reply, want):
    """Sees that the reply is the entrant's own."""
    got = MOMENT.sub(b'"moment":0', body(reply))
    check(f"what {entrant.name} is told", (status(reply), got), (200, want))


async def one_by_one(port, entrant):
    async with Client(port) as client:
        for sent, want in entrant.steps():
            await client.send(sent)
            is_told(entrant, await client.reply(), want)


async def in_one_write(port, entrant):
    async with Client(port) as client:
        steps = list(entrant.steps())
        sending = asyncio.create_task(client.send(b"".join(sent for sent, _ in steps)))
        for _, want in steps:
            is_told(entrant, await client.reply(), want)
        await sending


async def in_pieces(port, entrant):
    """The pieces end anywhere, within a request or some way into the next."""
    async with Client(port) as client:
        steps = list(entrant.steps())
        sent = b"".join(it for it, _ in steps)
        ends = sorted(entrant.chance.sample(range(1, len(sent)), 3 * len(steps))) + [len(sent)]

        async def send():
            for begin, end in zip([0, *ends], ends):
                await client.send(sent[begin:end])
                await asyncio.sleep(entrant.chance.random() / 100)

        sending = asyncio.create_task(send())
        for _, want in steps:
            is_told(entrant, await client.reply(), want)
        await sending


async def in_two_pieces(port, entrant):
    """Head and body each in a packet of its own, and then the next request on the same connection."""
    async with Client(port) as client:
        for sent, want in entrant.steps():
            head, end, rest = sent.partition(b"\r\n\r\n")
            await client.send(head + end)
            await asyncio.sleep(0.01)
            await client.send(rest)
            is_told(entrant, await client.reply(), want)


async def a_connection_each(port, entrant):
    for sent, want in entrant.steps():
        async with Client(port) as client:
            await client.send(closing(sent))
            is_told(entrant, await client.rest(), want)


async def broken_off(port, entrant):
    """Resets the connection while requests are answered: the first of them were made, each once, and no other. All are
    sent again, and each is told what it is told for the first time."""
    for which in (OPEN, SEALED):
        for _ in range(FEWEST):
            entrant.submit(which)
        asked = [entrant.submission(which, n) for n in range(1, FEWEST + 1)]
        client = Client(port)
        await client.__aenter__()
        await client.send(b"".join(sent for sent, _ in asked)[:-entrant.chance.randrange(1, 300)])
        for _, want in asked[:entrant.chance.randrange(FEWEST // 2)]:
            is_told(entrant, await client.reply(), want)
        client.reset()
        async with Client(port) as client:
            sent, _ = entrant.listing(which)
            await client.send(sent)
            reply = await client.reply()
            count = len(json.loads(body(reply) or b'{"answers":[]}')["answers"])
            is_told(entrant, reply, entrant.listing(which, count)[1])
            for sent, want in [*asked, entrant.listing(which)]:
                await client.send(sent)
                is_told(entrant, await client.reply(), want)


MANNERS = [one_by_one, in_one_write, in_pieces, in_two_pieces, a_connection_each, broken_off]


async def all_at_once(port, entrants):
    asked = [MANNERS[it.place % len(MANNERS)](port, it) for it in entrants]
    for entrant, ended in zip(entrants, await asyncio.gather(*asked, return_exceptions=True)):
        if isinstance(ended, Exception):
            check(f"{entrant.name}, {MANNERS[entrant.place % len(MANNERS)].__name__}", repr(ended), "no fault")


def are_kept(path, entrants):
    """Sees that what each was told is in the database, and nothing else."""
    conn = sqlite3.connect(path)
    rows = conn.execute("SELECT entrant, round, n, token, answer FROM answers ORDER BY entrant, round, n").fetchall()
    conn.close()
    given = [(it.name, which, n, token, text) for it in entrants for which, answers in it.given.items()
             for n, (token, text, _) in enumerate(answers, 1)]
    check("answers in the database", len(rows), len(given))
    check("answers in the database that nobody gave so", set(rows) - set(given), set())


@pytest.fixture
def entrants():
    return [Entrant(place) for place in range(ENTRANTS)]


@pytest.fixture
def db(room, entrants):
    hall_file(f"{room}/hall.db", entrants)
    return f"{room}/hall.db"


def test_each_is_told_its_own_replies(served, db, entrants):
    allow_many_files()
    server, port = served
    asyncio.run(asyncio.wait_for(all_at_once(port, entrants), PATIENCE))
    server.terminate()
    server.wait()
    are_kept(db, entrants)
