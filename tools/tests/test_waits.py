"""A Certify whose search takes long keeps nobody waiting, whatever happens meanwhile; and what comes of it.

Beside one search, two and eight, twenty entrants read a round and hand in answers, and are answered promptly; a ninth
search begins once one of the eight has ended, here since its puzzle is put anew. Then the hall is killed, and another
serves its file. Answers that are sent before the end of their round count, those after it don't. Nine searches find
what `hall solve` and `hall replay` find. A client goes and sends its request again, two send the same one: each time
one search is made, as the hall's processor time tells. Who sends no more and waits, or has asked for more behind, is
answered, and so is the last connection before the hall ends; and so is who comes to a house full of such requests.
How long entrants waited is told, median, 99th of a hundred and greatest; what is asked of it is how long the hall
worked meanwhile, which a busy machine changes little.
"""
import asyncio
import contextlib
import itertools
import socket
import subprocess
import time

import pytest
from harness import beside, database
from harness.beside import DIRECTOR, HARD, RIGHT, Entrants, author, certify, hard, processor_time, told
from harness.checks import check, tell
from harness.clients import Client, body, status
from harness.running import connected, content_of, removed, serving
from harness.wire import record, replies, request

# No search of these boards ends within it while this script runs.
ENDLESS = 1_000_000
# How long entrants ask beside a search, and their patience. How long the hall works at most until 99 of 100 have their
# reply, and all. A search would take it minutes.
ASKED, PATIENCE, PROMPT, LATEST = 5, 60, 1, 3
# How long a request is looked at that isn't to be answered yet, and how long one may take that is.
WHILE, SOON, MOST_SECONDS = 2, 240, 900
# The visits of a search that takes some seconds, and of one that takes less. Each search has a budget of its own, so
# that none finds what another has found.
VISITS, FEW = 2_000, 300
BUDGETS = itertools.count(VISITS + 1)
# How many connections may be open.
PLACES = 500
# A client goes when so much of its search is made, so that a second search would make 1.75 times the work of one. What
# is taken for one search's, and how often it is tried. (The same search takes a fifth more beside other work than
# without, and other work may begin at any moment.)
LEAVES, ONE_SEARCH, TRIES = 0.75, 1.4, 3
# After so many seconds of a processor a search of VISITS visits has begun, and has most of its work before it.
BEGUN = 0.05
# Small puzzles, and their solution.
SMALL, OTHER, SOLVED = "sudoku/4/4/1234341221434321", database.SUDOKU, RIGHT
GAVE_UP, ONE = b'{"state":"gave up"}', b'{"state":"one"}'
STATES = {"one": 1, "none": 2, "more": 3, "gave up": 4}


def reads(number, label):
    return request(author(number), "GET", f"/puzzles/a{number}/{label}").encode()


def puts(number, label, text):
    return request(DIRECTOR, "PUT", f"/puzzles/a{number}/{label}", '{"text":"%s"}' % text).encode()


async def asks(port, sent, patience=PATIENCE):
    """What a request on a connection of its own is told."""
    async with Client(port) as client:
        return await told(client, sent, patience)


def puzzle_rows(path):
    """author/label: body, state and solution"""
    return {f"{row[0]}/{row[1]}": row[2:] for row in content_of(path)["puzzles"]}


class Asked:
    """A request on a connection of its own, which is waited for later."""

    def __init__(self, port, sent):
        self.task = asyncio.create_task(asks(port, sent, MOST_SECONDS))

    async def soon(self):
        await asyncio.wait([self.task], timeout=SOON)
        return self.task.result() if self.task.done() else (0, b"no reply")

    async def isnt_answered(self, name):
        await asyncio.wait([self.task], timeout=WHILE)
        got = self.task.result() if self.task.done() else "no reply yet"
        check(name, got, "no reply yet")

    def drop(self):
        self.task.cancel()


async def until_it_takes(pid, seconds, since, patience=SOON):
    """Waits until the process has taken so much of a processor; whether it has."""
    begun = time.monotonic()
    while processor_time(pid) - since < seconds:
        if time.monotonic() - begun > patience:
            return False
        await asyncio.sleep(0.01)
    return True


async def searching(server):
    """Waits until the hall is at a search."""
    busy = await until_it_takes(server.pid, 0.2, processor_time(server.pid))
    check("the hall searches", busy, True)


async def measured(entrants, what):
    async with entrants.asking():
        await asyncio.sleep(ASKED)
    tell(f"beside {what:15}{beside.line(entrants.waits)}")
    worked = [it.worked for it in entrants.waits]
    check(f"all entrants asked beside {what}", len(worked) >= beside.ENTRANTS, True)
    check(f"replies beside {what} that are wrong, or not there", entrants.faults[:3], [])
    prompt = beside.within(worked, 0.99) < PROMPT
    check(f"99 of 100 wait for less than {PROMPT} s of work beside {what}", prompt, True)
    check(f"all wait for less than {LATEST} s of work beside {what}", beside.within(worked, 1) < LATEST, True)


async def beside_searches(server, port, entrants):
    """One search, two and eight; a ninth, and a puzzle that is put anew. All but one go on."""
    under_way = []
    for count, what in ((1, "a search"), (2, "two searches"), (8, "eight searches")):
        under_way += [Asked(port, certify(k, "hard", ENDLESS)) for k in range(len(under_way), count)]
        await searching(server)
        await measured(entrants, what)
    check("long searches that ended", sum(it.task.done() for it in under_way), 0)
    check("a puzzle that was certified before", await asks(port, certify(8, "known", ENDLESS)), (200, ONE))
    ninth = Asked(port, certify(8, "small", ENDLESS))
    await ninth.isnt_answered("a ninth search, while eight are under way")
    new = b'{"state":"new","text":"%s"}' % SMALL.encode()
    check("a puzzle that is put anew while it is searched", await asks(port, puts(0, "hard", SMALL)), (200, new))
    check("its Certify", await under_way[0].soon(), (200, ONE))
    check("the ninth search, with room", await ninth.soon(), (200, ONE))
    check("the seven searches that are left and ended", sum(it.task.done() for it in under_way[1:]), 0)
    return under_way


async def after_a_kill(port):
    """The state is as before the search, and it can be made again."""
    told_new = b'{"author":"a1","label":"hard","state":"new","text":"%s"}' % hard(1).encode()
    check("a puzzle whose search was killed", await asks(port, reads(1, "hard")), (200, told_new))
    check("its Certify, again", await asks(port, certify(1, "hard", FEW), SOON), (200, GAVE_UP))


async def prompt_and_killed(program, room):
    """Entrants beside searches, and then the hall is killed in the midst of seven."""
    path = f"{room}/prompt.db"
    beside.written(path, [(k, "hard", hard(k)) for k in range(8)] + [(8, "small", OTHER)],
                   f"INSERT INTO puzzles VALUES ('a8', 'known', '{SMALL}', 1, '{SOLVED}')")
    before, entrants = puzzle_rows(path), None
    with serving(path, 10_000, program) as (server, port):
        connected(server, port).close()
        entrants = Entrants(port, server.pid, PATIENCE)
        under_way = await beside_searches(server, port, entrants)
        server.kill()
        server.wait()
        for it in under_way:
            it.drop()
    want = before | {"a0/hard": (SMALL, 1, SOLVED), "a8/small": (OTHER, 1, SOLVED)}
    left = puzzle_rows(path)
    check("puzzles after a kill", {place: row for place, row in left.items() if row != want[place]}, {})
    check("answers after a kill", len(content_of(path)["answers"]), entrants.answers)
    with serving(path, 10_000, program) as (server, port):
        connected(server, port).close()
        await after_a_kill(port)


async def before_an_end(program, path, seconds):
    """Whether an answer could be sent well before the round's end, while the hall searches; and what it and one after
    the end are told."""
    end = int(time.time()) + seconds
    ends = f"""INSERT INTO rounds VALUES ('ends', 'Ends', {end - 3600}, 60, 0, 0, 5, 2, 1, 0);
        INSERT INTO puzzles VALUES ('bob', 'e1', '{SMALL}', 1, '{SOLVED}');
        INSERT INTO round_puzzles VALUES ('ends', 1, 'bob', 'e1', 40);"""
    beside.written(path, [(0, "hard", HARD)], ends)
    with serving(path, 10_000, program) as (server, port):
        connected(server, port).close()
        search = Asked(port, certify(0, "hard", ENDLESS))
        await searching(server)
        if time.time() > end - 5:
            return False
        got = await asks(port, beside.submit(0, 1, "in-time", of="ends"))
        check("an answer before the end of its round, beside a search", got,
                    (200, b'{"received":1,"verdict":"right"}'))
        await asyncio.sleep(max(0, end + 0.5 - time.time()))
        got = await asks(port, beside.submit(1, 1, "late", of="ends"))
        check("an answer after the end, beside a search", got, (403, b'{"denied":8}'))
        check("the search has ended", search.task.done(), False)
        search.drop()
    return True


async def at_an_end(program, room):
    for seconds in (12, 24, 48, 96, 192):
        if await before_an_end(program, removed(f"{room}/ends.db"), seconds):
            return
    check("an answer before the end of its round", "too late", "in time")


async def work_of(server, name, told):
    """The processor time that the hall takes until this is told: that each search gave up."""
    before = processor_time(server.pid)
    for got in await told:
        check(name, got, (200, GAVE_UP))
    return processor_time(server.pid) - before


async def alone(server, port):
    """The processor time of one search."""
    return await work_of(server, "a search", asks_all(port, [certify(0, "first", next(BUDGETS))]))


async def makes_one_search(server, port, name, scene):
    """Sees that a scene takes about as much of a processor as one search, which is made before it and after it. The
    scene is given how much of it makes most of a search."""
    known = [await alone(server, port) for _ in range(2)]
    for _ in range(TRIES):
        took = await work_of(server, name, scene(LEAVES * min(known)))
        known.append(await alone(server, port))
        one = sum(known[-2:]) / 2
        if took < ONE_SEARCH * one:
            break
    tell(f"{name}: {took:.1f} s of processor time, where a search takes {min(known):.1f} to {max(known):.1f} s")
    check(f"one search is made for {name}", took < ONE_SEARCH * one, True)


async def gone_and_back(server, port, most):
    """Its client is reset when most of the search is made, and another sends the same request."""
    since, sent = processor_time(server.pid), certify(1, "again", next(BUDGETS))
    async with Client(port) as client:
        await client.send(sent)
        check("most of a search is made", await until_it_takes(server.pid, most, since), True)
        client.reset()
    return [await asks(port, sent, SOON)]


async def two_with_one_request(port):
    budget = next(BUDGETS)
    return await asks_all(port, [certify(2, "both", budget), certify(2, "both", budget, DIRECTOR)])


async def gone_for_good(server, port):
    """Nobody waits for the search any more, and it comes to its end all the same."""
    async with Client(port) as client:
        since = processor_time(server.pid)
        await client.send(certify(3, "left", VISITS))
        check("the search begins", await until_it_takes(server.pid, BEGUN, since), True)
        client.reset()
    begun, got = time.monotonic(), b'"new"'
    while b'"new"' in got and time.monotonic() - begun < SOON:
        _, got = await asks(port, reads(3, "left"), SOON)
        await asyncio.sleep(0.1)
    want = f'{{"author":"a3","label":"left","state":"gave up","text":"{HARD}"}}'
    check("a search whose client is gone ends", got, want.encode())


async def gone_in_the_way(server, port):
    """The search of a client that is gone has its author's next one wait, until its puzzle is put anew."""
    async with Client(port) as client:
        since = processor_time(server.pid)
        await client.send(certify(6, "stuck", ENDLESS))
        check("the search begins", await until_it_takes(server.pid, BEGUN, since), True)
    following = Asked(port, certify(6, "next", ENDLESS))
    await following.isnt_answered("an author's next search, behind one whose client is gone")
    got, _ = await asks(port, puts(6, "stuck", SMALL))
    check("that puzzle is put anew", got, 200)
    check("the author's next search", await following.soon(), (200, ONE))


async def half_closed(port):
    """A client that sends no more is answered, and hung up."""
    async with Client(port) as client:
        await client.send(certify(4, "half", FEW + 1))
        client.it.shutdown(socket.SHUT_WR)
        reply = await asyncio.wait_for(client.rest(), SOON)
    check("a client that sends no more", (status(reply), body(reply)), (200, GAVE_UP))


async def asks_behind(port):
    """What comes on the connection of a search is answered after it."""
    async with Client(port) as client:
        await client.send(reads(5, "behind") + certify(5, "behind", FEW + 2) + reads(5, "behind"))
        got = [body(await asyncio.wait_for(client.reply(), SOON)) for _ in range(3)]
    check("what comes before and behind a Certify", [b'"new"' in got[0], got[1], b'"gave up"' in got[2]],
                [True, GAVE_UP, True])


async def full_house(program, room):
    """One author's requests for more searches than the hall has places shut nobody out, nor once they have gone."""
    path = f"{room}/house.db"
    beside.written(path, [(0, "house", HARD)])
    with serving(path, 10_000, program) as (server, port), contextlib.ExitStack() as those:
        connected(server, port).close()
        waiting = [those.enter_context(socket.create_connection(("127.0.0.1", port))) for _ in range(PLACES + 10)]
        for number, client in enumerate(waiting):
            client.sendall(certify(0, "house", ENDLESS - number))
        await asyncio.sleep(WHILE)
        for name in ("in a full house", "once those have gone"):
            got, _ = await asks(port, reads(0, "house"))
            check(f"a newcomer {name}", got, 200)
            for client in waiting:
                client.close()


async def last_connection(program, room):
    """The hall ends once its last connection has its reply."""
    path = f"{room}/last.db"
    beside.written(path, [(0, "last", HARD)])
    with serving(path, 2, program) as (server, port):
        connected(server, port).close()
        got = await asks(port, certify(0, "last", FEW), SOON)
        ended = await asyncio.to_thread(server.wait, SOON)
    check("a search of the last connection, and the end", (got, ended), ((200, GAVE_UP), 0))
    check("what is kept of it", puzzle_rows(path)["a0/last"][1], STATES["gave up"])


async def clients_that_go(program, room):
    path = f"{room}/go.db"
    labels = ("first", "again", "both", "left", "half", "behind")
    puzzles = [(k, label, HARD) for k, label in enumerate(labels)]
    beside.written(path, [*puzzles, (6, "stuck", hard(6)), (6, "next", OTHER)])
    with serving(path, 10_000, program) as (server, port):
        connected(server, port).close()
        await makes_one_search(server, port, "a client that went and came back",
                               lambda most: gone_and_back(server, port, most))
        await makes_one_search(server, port, "two clients with one request", lambda _: two_with_one_request(port))
        await gone_for_good(server, port)
        await asyncio.gather(half_closed(port), asks_behind(port))
        await gone_in_the_way(server, port)


async def asks_all(port, requests):
    return await asyncio.gather(*(asks(port, sent, SOON) for sent in requests))


def boards():
    """Nine boards whose searches take about a second, and the visits that they may make."""
    whole = [beside.real("sudoku25", place) for place in (0, 2, 12)] + [
        beside.board(name) for name in ("none25", "more25", "more40")]
    cut = [(beside.board("long25"), 5_000), (beside.board("long31"), 1_500), (hard(9), 2 * FEW)]
    return [(text, ENDLESS) for text in whole] + cut


async def solved(program, text, budget):
    """The state and the solution that `hall solve` finds."""
    ran = await asyncio.create_subprocess_exec(program, "solve", "--budget", str(budget), stdin=subprocess.PIPE,
                                               stdout=subprocess.PIPE)
    out, _ = await ran.communicate(text.encode())
    line = out.decode().strip()
    return ("one", line.split()[1]) if line.startswith("one ") else (line, "")


async def replayed(program, room, asked):
    """The replies of `hall replay` to the same requests, after the puzzles are put."""
    people = f"{room}/authors.csv"
    with open(people, "w", encoding="ascii") as file:
        file.write("name,key,roles\n" + "".join(f"a{k},{author(k)},author\n" for k in range(len(asked))))
    records = []
    for k, (text, budget) in enumerate(asked):
        put = request(author(k), "PUT", f"/puzzles/a{k}/board", '{"text":"%s"}' % text)
        records += [record(1777700000, put), record(1777700000, certify(k, "board", budget).decode())]
    ran = await asyncio.create_subprocess_exec(program, "replay", "--people", people, stdin=subprocess.PIPE,
                                               stdout=subprocess.PIPE)
    out, _ = await ran.communicate("".join(records).encode())
    return [body(reply) for reply in replies(out)][1::2]


async def nine_searches(program, room):
    """All at once, each of an author: as many as may be under way and one more."""
    asked, path = boards(), f"{room}/nine.db"
    beside.written(path, [(k, "board", text) for k, (text, _) in enumerate(asked)])
    known = asyncio.gather(*(solved(program, *it) for it in asked))
    again = asyncio.create_task(replayed(program, room, asked))
    with serving(path, 10_000, program) as (server, port):
        connected(server, port).close()
        got = await asks_all(port, [certify(k, "board", budget) for k, (_, budget) in enumerate(asked)])
        server.terminate()
        server.wait()
    known, rows = await known, puzzle_rows(path)
    want = [(200, b'{"state":"%s"}' % state.encode()) for state, _ in known]
    check("what nine searches find, beside `hall solve`", got, want)
    kept = [rows[f"a{k}/board"][1:] for k in range(len(asked))]
    check("what is kept of them", kept, [(STATES[state], solution) for state, solution in known])
    check("what `hall replay` finds", await again, [told for _, told in want])
    check("outcomes of the nine boards", sorted(set(state for state, _ in known)), sorted(STATES))


# Those that measure have the machine for themselves.
SCENES = [
    *(pytest.param(it, marks=pytest.mark.alone) for it in (prompt_and_killed, clients_that_go)),
    at_an_end, nine_searches, full_house, last_connection,
]


@pytest.mark.parametrize("of", SCENES)
def test_beside_searches(of, program, room):
    try:
        asyncio.run(asyncio.wait_for(of(program, room), MOST_SECONDS))
    except TimeoutError:
        check(f"all of it within {MOST_SECONDS} s", "longer", "well")
