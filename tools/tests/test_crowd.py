"""One running hall is asked by as many clients at once, good ones and slow ones.

Each good client is answered within two seconds, whoever stalls; each slow one is cut when its time is up, as
`hall serve --help` tells. Seconds are those of a clock that stands still while the hall waits for a processor, and a
scene that took a client's whole patience is played again: so a busy machine changes nothing.
"""
import asyncio
import contextlib
import os
import socket
import subprocess
import time
from typing import Callable, NamedTuple

import pytest
from harness import database, running
from harness.checks import check
from harness.clients import EARLY, LAST, LATE, MOST, PATIENCE, Client, allow_many_files, clock_beside, many, status
from harness.running import connected, read_off, serving, with_people
from harness.wire import closing, replies, request

# Within how many seconds a good client is answered, and how often a scene is played.
SOON, TRIES = 2.0, 5
# A listing that no socket's buffers hold, of 12 MB: a director's, of 50 long answers of so many entrants.
ENTRANTS, ANSWER = 60, 4_000
ASKED = request("eve-key-1", "GET", "/rounds/r1").encode()
LISTING = request("dora-key", "GET", "/rounds/r2/answers").encode()
FLOOD = b"x" * (1 << 16)
# How the system tells of a socket that listens.
LISTENING = "0A"
CLOSING = closing(ASKED)


def hall_file(path):
    """A file with a published round, and one with long answers."""
    people = ", ".join(f"('e{k}', 'many-key-{k}', 8)" for k in range(ENTRANTS))
    answers = ", ".join(
        f"('e{k}', 'r2', 1, 't{n}', {n}, 1777712500, '{'x' * ANSWER}', 1)"
        for k in range(ENTRANTS) for n in range(1, 51))
    rows = f"INSERT INTO people VALUES {people}; INSERT INTO answers VALUES {answers}"
    database.written(path, database.TABLES, database.ROWS, rows)


class House(NamedTuple):
    """Where a hall serves, and the clock by which its clients tell how long it took."""
    port: int
    clock: Callable

    def client(self, room=None):
        return Client(self.port, room, self.clock)

    async def lets_pass(self, seconds):
        """Waits until the clock has told so many seconds."""
        end = self.clock() + seconds
        while (left := end - self.clock()) > 0:
            await asyncio.sleep(left)


async def in_time(scene, house):
    """Plays a scene, and looks at what it found where it took less time than a client has patience: else it says
    nothing, and is played again."""
    for left in reversed(range(TRIES)):
        begun = time.monotonic()
        found = await scene(house)
        took = time.monotonic() - begun
        if took < PATIENCE or not left:
            for name, got, want in [*found, (f"{scene.__name__} within {PATIENCE} seconds", took < PATIENCE, True)]:
                check(name, got, want)
            return


async def sends_nothing(house):
    async with house.client() as client:
        check("a client that sends nothing is sent", await client.rest(), b"")
        client.was_cut("a client that sends nothing", PATIENCE)


async def half_a_request(house):
    async with house.client() as client:
        await client.send(ASKED[:20])
        check("half a request is sent", await client.rest(), b"")
        client.was_cut("half a request", PATIENCE)


async def a_byte_at_a_time(house):
    async with house.client() as client:
        await client.send(b"GET /")
        ended = asyncio.create_task(client.rest())
        while not ended.done():
            await asyncio.sleep(0.5)
            try:
                await client.send_on(b"x")
            except OSError:
                break
        await ended
        client.was_cut("a byte every half second", PATIENCE)


async def takes_no_reply(house):
    async with house.client(4096) as client:
        await client.send(LISTING)
        await client.more(1)
        await house.lets_pass(PATIENCE + LATE)
        check("a reply that isn't taken is whole", status(await client.rest()), 0)


async def takes_a_reply_slowly(house):
    async with house.client(4096) as client:
        await client.send(LISTING)
        await asyncio.sleep(PATIENCE / 2)
        return [("a reply that is taken in time", status(await client.reply()), 200)]


async def takes_a_reply_in_bits(house):
    """Its patience isn't begun anew with each bit that it takes."""
    async with house.client(4096) as client:
        await client.send(LISTING)
        await client.more(1)
        client.begin()
        while client.waited() < PATIENCE + LATE:
            await client.more(4096)
            await asyncio.sleep(0.1)
        check("a reply that is taken in bits for too long is whole", status(await client.rest()), 0)


async def sends_after_the_end(house, name, piece, pause, early=EARLY):
    """Sends the piece again and again after the last reply, with so many seconds between."""
    async with house.client() as client:
        await client.send(CLOSING)
        check(f"the last reply to {name}", status(await client.reply()), 200)
        with contextlib.suppress(OSError):
            while client.waited() < PATIENCE:
                await client.send_on(piece)
                await asyncio.sleep(pause)
        client.was_cut(name, LAST, early)


async def goes_on_after_the_end(house):
    await sends_after_the_end(house, "a client that goes on after the end", b"x", 0.1)


async def floods_after_the_end(house):
    await sends_after_the_end(house, "a flood after the end", FLOOD, 0.001, LAST)


async def good(house, slowest):
    """Asks every second, on one connection and on one of its own for each request."""
    async with house.client() as kept:
        for turn in range(PATIENCE):
            await kept.send(ASKED)
            check("a kept connection's reply", status(await kept.reply()), 200)
            slowest.append(kept.waited())
            async with house.client() as once:
                await once.send(CLOSING)
                check("a reply and the end", status(await once.rest()), 200)
                slowest.append(once.waited())
            await asyncio.sleep(1)


async def pipelined(house, count):
    async with house.client() as client:
        sending = asyncio.create_task(client.send(ASKED * count))
        found = [status(await client.reply()) for _ in range(min(count, 1000))]
        await sending
        check(f"{count} requests in one write", set(found), {200})
        if count > 1000:
            check(f"what comes after 1,000 of {count} replies", await client.rest(), b"")


async def in_single_bytes(house):
    async with house.client() as client:
        for byte in ASKED:
            await client.send(bytes([byte]))
            await asyncio.sleep(0.001)
        check("a request in single bytes", status(await client.reply()), 200)
        await client.send(ASKED)
        check("a request after one in single bytes", status(await client.reply()), 200)


async def half_and_the_end(house):
    async with house.client() as client:
        await client.send(ASKED + ASKED[:20])
        client.it.shutdown(socket.SHUT_WR)
        check("a whole request before the end", status(await client.reply()), 200)
        check("half a request before the end", status(await client.rest()), 400)
    async with house.client() as client:
        await client.send(ASKED * 3)
        client.it.shutdown(socket.SHUT_WR)
        check("three requests before the end", len(replies(await client.rest())), 3)


async def no_request(house):
    async with house.client() as client:
        await client.send(ASKED + b"no request\r\n\r\n" + ASKED)
        read = replies(await client.rest())
        check("what is no request", [status(it) for it in read], [200, 400])


async def a_thousand(house):
    async with house.client() as client:
        for _ in range(1000):
            await client.send(ASKED)
            if status(await client.reply()) != 200:
                check("1,000 requests on a connection", False, True)
        check("what comes after 1,000 requests", await client.rest(), b"")
        check("1,000 requests end a connection", client.waited() < SOON, True)


async def more_than_there_is_room_for(house):
    """The idle ones make room."""
    async with many(house.port, MOST + 20) as clients:
        await house.lets_pass(SOON)
        async with house.client() as client:
            await client.send(ASKED)
            told, waited = status(await client.reply()), client.waited()
            gone = sum(client.is_gone() for client in clients)
    return [("a client among many idle ones", told, 200),
            ("a client among many idle ones is answered soon", waited < SOON, True),
            (f"{gone} idle clients of {len(clients)} made room", 20 <= gone < MOST, True)]


async def a_taker_among_more_than_there_is_room_for(house):
    """Who takes a reply makes no room, though it is the one that came first."""
    async with house.client(4096) as taker:
        await taker.send(LISTING)
        await taker.more(4096)
        async with many(house.port, MOST + 20):
            await house.lets_pass(2 * SOON)
            return [("a reply that is taken slowly in a full house", status(await taker.reply()), 200)]


async def who_asked_last_stays(house):
    """In a house full of those who wait, the ones that asked last stay: others have less time left."""
    async with many(house.port, 2 * MOST // 3) as early, many(house.port, MOST // 3) as late:
        for clients in (early, late):
            await asyncio.gather(*(client.send(ASKED) for client in clients))
            await asyncio.gather(*(client.reply() for client in clients))
            await house.lets_pass(SOON)
        async with many(house.port, 100) as newcomers:
            await asyncio.gather(*(client.send(ASKED) for client in newcomers))
            told = [status(await client.reply()) for client in newcomers]
            gone = [sum(client.is_gone() for client in clients) for clients in (early, late)]
    return [("newcomers among those who wait", set(told), {200}),
            (f"{gone[0]} of those who asked first made room, and of those who asked last", gone[1], 0),
            ("so many made room", gone[0] >= 90, True)]


async def a_full_house(house):
    """Where nobody may go a newcomer waits, and is let in soon after somebody went."""
    async with many(house.port, MOST) as clients:
        await asyncio.gather(*(client.send(ASKED[:20]) for client in clients))
        await house.lets_pass(SOON)
        async with many(house.port, 20) as newcomers:
            await asyncio.gather(*(client.send(ASKED) for client in newcomers))
            told = [asyncio.create_task(client.reply()) for client in newcomers]
            await asyncio.wait(told, timeout=SOON)
            early = sum(it.done() for it in told)
            for client in clients[:len(newcomers)]:
                client.it.close()
            await asyncio.wait(told, timeout=PATIENCE)
            found = [status(it.result()) if it.done() else None for it in told]
    return [("newcomers that a full house answers", early, 0),
            ("newcomers that came to a full house", found, [200] * len(newcomers))]


# What is played alone, one after another.
SCENES = [more_than_there_is_room_for, a_taker_among_more_than_there_is_room_for, who_asked_last_stays, a_full_house]


async def one_by_one(scenes):
    """Begins a scene each half second, since the hall works for long on a listing."""
    async with asyncio.TaskGroup() as group:
        for it in scenes:
            group.create_task(it)
            await asyncio.sleep(0.5)


async def all_at_once(house):
    slow = [sends_nothing, half_a_request, a_byte_at_a_time]
    once = [in_single_bytes, half_and_the_end, no_request, a_thousand, goes_on_after_the_end, floods_after_the_end]
    listed = [takes_no_reply(house) for _ in range(5)] + [takes_a_reply_in_bits(house)]
    slowest = []
    clients = [it(house) for it in slow for _ in range(5)] + [it(house) for it in once]
    clients += [pipelined(house, 50), pipelined(house, 1001)]
    clients += [one_by_one([*listed, in_time(takes_a_reply_slowly, house)])]
    clients += [good(house, slowest) for _ in range(100)]
    for ended in await asyncio.gather(*clients, return_exceptions=True):
        if isinstance(ended, Exception):
            check("a client", repr(ended), "no fault")
    check(f"the slowest of {len(slowest)} replies took {max(slowest):.3f} seconds", max(slowest) < SOON, True)
    for it in SCENES:
        await in_time(it, house)


def listens_here_alone(server, port):
    """Sees that the program listens on the one port, for clients of this machine alone."""
    folder, own, found = f"/proc/{server.pid}/fd", set(), []
    for it in os.listdir(folder):
        with contextlib.suppress(FileNotFoundError):
            own.add(os.readlink(f"{folder}/{it}"))
    for name in ("tcp", "tcp6"):
        with open(f"/proc/net/{name}", encoding="ascii") as file:
            rows = [line.split() for line in file.readlines()[1:]]
        found += [row[1] for row in rows if row[3] == LISTENING and f"socket:[{row[9]}]" in own]
    check("where the hall listens", found, [f"0100007F:{port:04X}"])


def last_connections(program, path):
    """The last reply of the last connection comes whole, and then the program ends."""
    with serving(path, 3, program) as (server, port):
        connected(server, port).close()
        clients = [connected(server, port) for _ in range(2)]
        for client in clients:
            client.sendall(closing(LISTING))
        time.sleep(1)
        for client in clients:
            check("a reply of the last connections", status(read_off(client)), 200)
            client.close()
        check("the end after the last connection", server.wait(running.PATIENCE), 0)


def told_by(program, path, known, ask):
    """Serves the file while `ask` asks, and sees that the hall tells its address, the file and what it knows."""
    with serving(path, 1_000_000, program, stderr=subprocess.PIPE) as (server, port):
        connected(server, port).close()
        ask(server, port)
        server.terminate()
        told = server.communicate()[1].decode()
    check("what is told", told, f"hall: serving 127.0.0.1:{port} from {path}{known}\n")


@pytest.fixture
def path(room):
    """A hall with two rounds."""
    hall_file(f"{room}/hall.db")
    return f"{room}/hall.db"


@pytest.mark.alone
def test_good_and_slow_clients(program, path):
    allow_many_files()
    def ask(server, port):
        of = all_at_once(House(port, clock_beside(server.pid)))
        asyncio.run(asyncio.wait_for(of, running.PATIENCE))

    told_by(program, path, f", people {5 + ENTRANTS}, rounds 2", ask)


def test_the_last_connections(program, path):
    last_connections(program, path)


def test_each_connection_counts_once(program, path):
    """One that is cut because it stalls counts as one, so that those after it are served, as many as there may be."""
    with serving(path, 4, program) as (server, port):
        with connected(server, port) as stalls:
            stalls.sendall(ASKED[:20])
            check("who stalls is sent", read_off(stalls), b"")
        for number in range(2, 5):
            with connected(server, port) as client:
                client.sendall(CLOSING)
                check(f"the reply to connection {number} of 4", status(read_off(client)), 200)
        check("the end after the fourth", server.wait(running.PATIENCE), 0)


def test_where_a_hall_listens(program, path, room):
    """One with a row that is no record, and a new one."""
    database.written(path, "UPDATE people SET roles = 0 WHERE name = 'e1'")
    told_by(program, path, "", listens_here_alone)
    told_by(program, with_people(program, f"{room}/new.db"), ", people 6, rounds 0", listens_here_alone)
