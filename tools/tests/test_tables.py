"""Tables that are made in slices: whoever asks, and whatever is done to another round meanwhile, each is the one that
`hall table` makes at once.

The file has so many people that a table takes some turns. Many ask for the tables of two published rounds at once,
and again, while others hand in answers to a round under way and read it, and one asks for the table of a round that
isn't published. A protest that is made and ruled, and a round that is published then, change no other table. And
where more rounds are asked for at once than turns are between a table's first slice and its last, each is told.
"""
import asyncio
import subprocess
import time

import pytest
from harness import database
from harness.checks import check
from harness.clients import Client, body, many, status
from harness.running import connected, serving
from harness.wire import compact, request

# Five slices of people, of whom each third stays away from the second round.
PEOPLE, PUZZLES, ASK, ANSWERS, MOST_SECONDS = 900, 3, 8, 30, 600
ROUNDS = ("first", "second")
# Two slices of people, and so many rounds that are asked for at once.
FEW, CROWD = 300, 40


def rows():
    """Two published rounds, one that isn't, and one that is under way."""
    now = int(time.time())
    yield "INSERT INTO people VALUES ('bob', 'bob-key-1', 2), ('dora', 'dora-key-1', 1), ('rex', 'rex-key-1', 4);"
    yield "".join(f"INSERT INTO people VALUES ('e{k}', 'key-of-e{k}', 8);" for k in range(PEOPLE))
    for name, start, published in (("first", 90_000, 1), ("second", 80_000, 1), ("third", 70_000, 0), ("now", 60, 0)):
        minutes = 1440 if name == "now" else 60
        yield f"INSERT INTO rounds VALUES ('{name}', 'R', {now - start}, {minutes}, 600, 0, 5, 2, 1, {published});"
        for k in range(1, PUZZLES + 1):
            yield f"INSERT INTO puzzles VALUES ('bob', '{name}{k}', '{database.SUDOKU}', 1, '{database.RIGHT}');"
            yield f"INSERT INTO round_puzzles VALUES ('{name}', {k}, 'bob', '{name}{k}', {10 * k});"
    for who in range(PEOPLE):
        for name, start in (("first", 90_000), ("second", 80_000), ("third", 70_000))[: 3 if who % 3 else 1]:
            for k in range(1, 1 + who % (PUZZLES + 1)):
                given = [database.WRONG] * (who % 2) + [database.RIGHT]
                for n, answer in enumerate(given, 1):
                    verdict = 0 if answer == database.RIGHT else 20
                    yield (f"INSERT INTO answers VALUES ('e{who}', '{name}', {k}, 't{n}', {n}, "
                           f"{now - start + who + 60 * n}, '{answer}', {verdict});")
    yield "".join(f"INSERT INTO protests VALUES ('e{k}', 'first', 'w', 1, 'Unclear.', 1, {k % 7});"
                  for k in range(1, PEOPLE, 50))
    yield "INSERT INTO protests VALUES ('e1', 'third', 'w', 1, 'Unclear.', 0, 0);"


@pytest.fixture
def db(room):
    return database.written(f"{room}/hall.db", database.TABLES, "".join(rows()))


def crowd():
    """Many published rounds."""
    now = int(time.time())
    yield "".join(f"INSERT INTO people VALUES ('e{k}', 'key-of-e{k}', 8);" for k in range(FEW))
    yield "INSERT INTO people VALUES ('bob', 'bob-key-1', 2);"
    for k in range(CROWD):
        yield f"INSERT INTO rounds VALUES ('r{k}', 'R', {now - 90_000}, 60, 600, 0, 5, 2, 1, 1);"
        yield f"INSERT INTO puzzles VALUES ('bob', 'p{k}', '{database.SUDOKU}', 1, '{database.RIGHT}');"
        yield f"INSERT INTO round_puzzles VALUES ('r{k}', 1, 'bob', 'p{k}', 10);"
        yield f"INSERT INTO answers VALUES ('e{k}', 'r{k}', 1, 't', 1, {now - 89_000}, '{database.RIGHT}', 0);"


def made_at_once(program, path, name):
    ran = subprocess.run([program, "table", "--db", path, "--round", name], capture_output=True, check=True)
    return ran.stdout


async def answered(client, key, method, path, text=""):
    await client.send(request(key, method, path, text).encode())
    return await client.reply()


async def tables(clients, path, wanted):
    """All ask for it at once, and are told it."""
    found = await asyncio.gather(*(answered(it, "rex-key-1", "GET", f"/rounds/{path}/table") for it in clients))
    right = sum(status(it) == 200 and body(it) == wanted for it in found)
    check(f"of {len(clients)} that ask for the table of {path}, whom its table is told", right, len(clients))


async def hands_in(port, first):
    """Some who read the round under way and hand in, one after another."""
    async with Client(port) as client:
        for k in range(first, first + ANSWERS):
            key = f"key-of-e{k}"
            check("a round is read", status(await answered(client, key, "GET", "/rounds/now")), 200)
            sent = compact({"answer": database.RIGHT})
            check("an answer", status(await answered(client, key, "PUT", "/rounds/now/answers/1/t", sent)), 200)


async def asked(port, wanted):
    async with many(port, ASK) as some, many(port, ASK) as others, Client(port) as staff:
        async def both():
            await asyncio.gather(tables(some, "first", wanted["first"]), tables(others, "second", wanted["second"]))

        await asyncio.gather(both(), hands_in(port, 0))
        await asyncio.gather(both(), hands_in(port, ANSWERS))
        rule = '{"points":2,"upheld":true}'
        path = "/rounds/third/rulings/e1/w"
        unpublished = await answered(staff, "rex-key-1", "GET", "/rounds/third/table")
        check("the table of a round that isn't published", status(unpublished), 403)
        check("the table of no round", status(await answered(staff, "rex-key-1", "GET", "/rounds/none/table")), 404)
        ruled, _ = await asyncio.gather(answered(staff, "rex-key-1", "PUT", path, rule), both())
        check("a ruling in the midst", status(ruled), 200)
        published, _ = await asyncio.gather(answered(staff, "dora-key-1", "POST", "/rounds/third/publish"), both())
        check("a publication in the midst", status(published), 200)
        return body(await answered(staff, "dora-key-1", "GET", "/rounds/third/table"))


def test_tables_in_slices(program, db):
    wanted = {name: made_at_once(program, db, name) for name in ROUNDS}
    with serving(db, 1_000_000, program) as (server, port):
        connected(server, port).close()
        third = asyncio.run(asyncio.wait_for(asked(port, wanted), MOST_SECONDS))
    check("the table of a round that was published meanwhile", third, made_at_once(program, db, "third"))


async def asked_in_turn(port):
    async with many(port, CROWD) as clients:
        found = await asyncio.gather(
            *(answered(it, "key-of-e0", "GET", f"/rounds/r{k}/table") for k, it in enumerate(clients)))
    return [body(it) for it in found if status(it) == 200]


def test_tables_of_many_rounds_at_once(program, room):
    path = database.written(f"{room}/hall.db", database.TABLES, "".join(crowd()))
    with serving(path, 1_000, program) as (server, port):
        connected(server, port).close()
        told = asyncio.run(asyncio.wait_for(asked_in_turn(port), MOST_SECONDS))
    check("the tables of many rounds", told, [made_at_once(program, path, f"r{k}") for k in range(CROWD)])
