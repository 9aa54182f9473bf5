"""Answers of different people that wait at one moment are stored together, by one write, and told only after it.

The hall stands still while a crowd hands in, so that it hears all of them at once. They are told what each would be
told alone, and the same rows stand then, for a twentieth of the syncs. A group whose write is stopped, fails or finds
no room is stored whole or not at all, and nobody was told of an answer that doesn't stand.
"""
import contextlib
import itertools

import pytest
from harness.checks import check, need
from harness.database import RIGHT
from harness.entrants import MOMENT, OPEN, SEALED, Entrant, hall_file
from harness.running import Beside, connected, content_of, copied, is_whole, removed, serving, standing_still, told
from harness.running import traced
from harness.wire import request

# How many hand in at once, how many syncs that may take, and how many milliseconds each is longer.
ENTRANTS, SYNCS, SLOW = 100, 30, 5
# How many hand in where the write is stopped, and how many seconds a server may still run that met a fault.
FEW, SOON = 6, 120
NOTHING = request("dora-key", "GET", "/nothing").encode()
UNAVAILABLE = (503, '{"fault":"hall"}')


def read_reply(client):
    """The status and the body of a reply, with moments of 0; None where none came whole."""
    reply = b""
    with contextlib.suppress(OSError):
        while not is_whole(reply) and (piece := client.recv(1 << 16)):
            reply += piece
    return told(MOMENT.sub(b'"moment":0', reply)) if is_whole(reply) else None


def at_once(server, port, requests, waits=standing_still):
    """What each of a crowd is told that asks this while the server stands still; none where it had ended before."""
    with contextlib.ExitStack() as room:
        clients = []
        for _ in requests:
            client = connected(server, port, SOON)
            if client is None:
                return []
            clients.append(room.enter_context(client))
            with contextlib.suppress(OSError):
                client.sendall(NOTHING)
            if read_reply(client) is None:
                return []
        with waits(server):
            for client, sent in zip(clients, requests):
                client.sendall(sent)
        return [read_reply(client) for client in clients]


def in_turn(server, port, requests):
    """What each is told where one asks after the other."""
    found = []
    for sent in requests:
        with connected(server, port, SOON) as client:
            client.sendall(sent)
            found.append(read_reply(client))
    return found


def crowd():
    """What a crowd asks: each hands in an answer; one sends it again and one has none to hand in; one hands in two; the
    author has its puzzle certified, and somebody reads."""
    entrants = [Entrant(place) for place in range(ENTRANTS)]
    sent = [it.submit(OPEN if it.place % 2 else SEALED)[0] for it in entrants]
    twice = [request(entrants[7].key, "PUT", f"/rounds/{SEALED}/answers/1/more-{k}", '{"answer":"%s"}' % RIGHT).encode()
             for k in range(2)]
    others = [
        sent[3],
        request(entrants[5].key, "PUT", "/rounds/none/answers/1/t", '{"answer":"%s"}' % RIGHT).encode(),
        request("bob-key", "POST", "/puzzles/bob/p1/certificate", '{"budget":200000}').encode(),
        request(entrants[9].key, "GET", "/rounds").encode(),
    ]
    return entrants, [*sent[:40], *others, twice[0], *sent[40:], twice[1]]


def rows_of(path):
    """The answers without their moments, and without the token where somebody handed in two at once."""
    return sorted((*row[:3], "" if row[3].startswith("more-") else row[3], row[4], *row[6:])
                  for row in content_of(path)["answers"])


def told_of(replies):
    """What was told, whoever of two came first."""
    return sorted(replies, key=str)


def test_as_one_by_one(program, room):
    need("strace")
    delayed = f"inject=fdatasync,fsync:delay_enter={1000 * SLOW}"
    command = traced(program, room, "-e", "trace=fdatasync,fsync", "-e", delayed)
    entrants, requests = crowd()
    first, path, other = (f"{room}/{name}.db" for name in ("first", "together", "turns"))
    hall_file(removed(first), entrants)
    with serving(copied(first, path), 10_000, command) as it:
        # strace keeps a server from standing still as a whole; each sync is long enough that others hand in meanwhile
        together = at_once(*it, requests, contextlib.nullcontext)
    with open(f"{room}/calls", encoding="utf-8") as file:
        syncs = file.read().count("sync(")
    with serving(copied(first, other), 10_000, program) as it:
        alone = in_turn(*it, requests)
    check("what a crowd is told, and what each is told alone", told_of(together), told_of(alone))
    check("what stands then", rows_of(path), rows_of(other))
    check(f"{syncs} syncs, and {SYNCS} at the most", 0 < syncs <= SYNCS, True)


class Group:
    """A few entrants who hand in at once, over a copy of a database each time."""

    def __init__(self, program, room, how, which):
        self.beside = Beside(program, room, "devices", DEVICE_HOW=how, DEVICE_WHICH=which)
        self.first, self.path, self.how = f"{room}/first.db", f"{room}/served.db", how
        self.entrants = [Entrant(place) for place in range(FEW)]
        hall_file(removed(self.first), self.entrants)
        self.asked = [it.submit(OPEN) for it in self.entrants]
        self.wants = [(200, want.decode()) for _, want in self.asked]

    def met(self, number):
        """What the crowd is told where this call is changed, and how the server ended, if it did."""
        path, env = copied(self.first, self.path), self.beside.env(number)
        with serving(path, 10_000, self.beside.path, env) as (server, port):
            replies = at_once(server, port, [sent for sent, _ in self.asked])
            with contextlib.suppress(Exception):
                server.wait(1 if None in replies or UNAVAILABLE in replies else 0.01)
            return replies, server.poll()

    def each(self, step=1):
        """All calls in turn, with what became of each."""
        for number in itertools.count(1, step):
            replies, ended = self.met(number)
            if not self.beside.was_met():
                break
            yield f"{self.how} at call {number}", replies, ended

    def stand(self):
        """Whose answers stand."""
        return {row[0] for row in content_of(self.path)["answers"]}

    def is_whole(self, name, replies):
        """Sees that the answers of all stand or none does, and whose was told does."""
        stand = self.stand()
        check(f"{name}: so many of {FEW} stand", len(stand) in (0, FEW), True)
        pairs = zip(self.entrants, self.wants, replies)
        taken = {entrant.name for entrant, want, reply in pairs if reply == want}
        check(f"{name}: {len(taken)} were told, and {len(stand)} stand", taken <= stand, True)

    def is_taken_later(self, name, program):
        """Each who sends again what was under way is told what it was to be told, by a hall whose disk is well."""
        with serving(self.path, 10_000, program) as it:
            check(f"{name}: sent again", in_turn(*it, [sent for sent, _ in self.asked]), self.wants)


@pytest.mark.parametrize("how", ["end", "lose", "torn"])
def test_a_stop_in_a_group(how, program, room):
    group = Group(program, room, how, "wf")
    met = 0
    for name, replies, _ in group.each():
        group.is_whole(name, replies)
        group.is_taken_later(name, program)
        met += replies != []
    check(f"so many stops befell the group: {met}", met > 3, True)


def test_a_failed_sync(program, room):
    group = Group(program, room, "fail", "yf")
    met = 0
    for name, replies, ended in group.each():
        group.is_whole(name, replies)
        if replies:
            met += 1
            check(f"{name}: what each is told", set(replies) <= {UNAVAILABLE, None}, True)
            check(f"{name}: the status", ended, 3)
        group.is_taken_later(name, program)
    check(f"so many syncs of the group failed: {met}", met > 0, True)


def test_a_full_disk(program, room):
    group, served_on = Group(program, room, "full", "wf"), 0
    for name, replies, ended in group.each():
        group.is_whole(name, replies)
        if replies:
            # a sync that finds no room shuts the store, as any that fails; a write doesn't
            wants = {UNAVAILABLE, None} if ended == 3 else {UNAVAILABLE, *group.wants}
            check(f"{name}: what each is told", set(replies) <= wants, True)
            check(f"{name}: the status is {ended}", ended in (None, 3), True)
            served_on += ended is None and UNAVAILABLE in replies
        group.is_taken_later(name, program)
    check(f"{served_on} times it served on", served_on > 0, True)
