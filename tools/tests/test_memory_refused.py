"""Memory is refused to the built program, one request for it at a time, by a library (refuse.c) before the C library.

Asked so are the rows of judge and solve, lists that are imported, tables, a migration, a served file, and one replay
in which each of the seventeen actions is allowed, denied and asked again (examples/requests/worked.rows). The gate
refuses one request for memory in so many (STEPS), with --every N one in so many of those. With --all each is refused.

- A command writes what it writes with ample memory. Or it writes nothing and ends with status 3 and `fault`. Its file
  then holds what it held before or after the command, and given again the command does what is left of it.
- A reply is the one with ample memory. But one may be 503, and the replies after it are those of a run without this
  request: so the world was left as it was. Or a replay ends with status 3, `fault` and the replies before, each whole.
- A connection may be hung up: its replies so far are those with ample memory, and what it asked after them wasn't
  done, but perhaps for one request whose reply is lost.

With --all of each example too the first 2,000 allocations are refused, and then each 97th.
"""
import contextlib
from pathlib import Path

import pytest
from harness.checks import Ways, check
from harness.commands import ask_commands, commands
from harness.rows import Table, of_request, reply
from harness.running import PATIENCE, PEOPLE, ROOT, Beside, connected, content_of, copied, read_off, serving
from harness.wire import records, replies, request

UNAVAILABLE = reply(503, b'{"fault":"hall"}')
REPLAY = ["replay", "--people", PEOPLE]
# More than any run asks for.
MOST = 10_000_000


class Numbers:
    """Which requests for memory are refused: one in so many, from another one on at each place."""

    def __init__(self, step, first=0):
        self.step, self.first = step, first

    def at(self, place=0, least=1):
        return range(least + (self.first + 3 * place) % self.step, MOST, self.step)


class Replay:
    """A run of the program without files, and what it may write where memory is refused."""

    def __init__(self, program, words, text):
        self.program, self.words, self.text = program, words, text
        self.usual = program.run(words, text)
        self.asked = records(text) if words[0] == "replay" else []
        # the replies before a fault: all of them, or the first ones
        written = replies(self.usual[0]) if self.asked else []
        self.first = {b"".join(written[:count]) for count in range(len(written) + 1)} | {b""}
        self.kept, self.dropped = {}, set()

    def without(self, place):
        """The output of a replay without the record at this place, with 503 in its place."""
        if place not in self.kept:
            output, status = self.program.run(self.words, b"".join(self.asked[:place] + self.asked[place + 1 :]))
            whole = replies(output)
            self.kept[place] = b"".join(whole[:place] + [UNAVAILABLE] + whole[place:]), status
        return self.kept[place]

    def way(self, got):
        if got == self.usual:
            return "as usual"
        if got[1] == 3 and got[0] in self.first:
            return "faults after replies" if got[0] else "faults"
        whole = replies(got[0])
        if self.asked and UNAVAILABLE in whole:
            place = whole.index(UNAVAILABLE)
            if got == self.without(place):
                self.dropped.add(place)
                return "503"
        return None

    def refuse(self, numbers, ways):
        """Refuses these requests for memory in turn, to the first that isn't made."""
        for number in numbers:
            got = self.program.run(self.words, self.text, number)
            if not self.program.was_met():
                break
            ways.add(self.way(got), self.words, self.text[:200], number, got)

    def count(self):
        """How many requests for memory a run makes."""
        low, high = 0, 1
        while self.is_made(high):
            low, high = high, 2 * high
        while high - low > 1:
            middle = (low + high) // 2
            low, high = (middle, high) if self.is_made(middle) else (low, middle)
        return low

    def is_made(self, number):
        self.program.run(self.words, self.text, number)
        return self.program.was_met()


LISTED = request("dora-key", "GET", "/puzzles")
PUT = request("bob-key-1", "PUT", "/puzzles/bob/p1", '{"text":"sudoku/4/4/v"}')
CERTIFY = request("bob-key-1", "POST", "/puzzles/bob/p1/certificate", '{"budget":200000}')
CLIENTS = [[LISTED, PUT, CERTIFY, LISTED], [LISTED, request("dora-key", "GET", "/rounds")]]


class Served:
    """Two clients of a served file, each of whom sends its requests at once."""

    def __init__(self, program, room):
        self.program, self.path, self.kept = program, f"{room}/served.db", {}
        program.run(["init", "--db", f"{room}/first.db", "--people", PEOPLE], b"")
        self.first = f"{room}/first.db"
        self.usual = self.without(frozenset())

    def run(self, refused, dropped=frozenset()):
        """The replies to each client, and the server's status."""
        copied(self.first, self.path)
        got = []
        with serving(self.path, len(CLIENTS), self.program.path, self.program.env(refused)) as (server, port):
            for place, asked in enumerate(CLIENTS):
                client = connected(server, port)
                if client is None:
                    break
                with client:
                    with contextlib.suppress(OSError):
                        client.sendall("".join(it for n, it in enumerate(asked) if (place, n) not in dropped).encode())
                        client.shutdown(1)
                    got.append(replies(read_off(client)))
            return got, server.wait(PATIENCE)

    def without(self, dropped):
        if dropped not in self.kept:
            self.kept[dropped] = self.run(0, dropped)
        return self.kept[dropped]

    def way(self, got):
        clients, status = got
        if got == self.usual:
            return "as usual"
        if status == 3:
            return "faults" if not any(clients) and content_of(self.path) == content_of(self.first) else None
        told = [(place, n, reply) for place, some in enumerate(clients) for n, reply in enumerate(some)]
        dropped = {(place, n) for place, n, reply in told if reply == UNAVAILABLE}
        left = [[it for it in some if it != UNAVAILABLE] for some in clients]
        short = [place for place, some in enumerate(clients) if len(some) < len(CLIENTS[place])]
        if not short:
            return "503" if len(dropped) == 1 and (left, status) == self.without(frozenset(dropped)) else None
        if len(short) > 1 or dropped:
            return None
        return self.hung_up(short[0], left, status)

    def hung_up(self, place, left, status):
        """How the client at the place was hung up: nothing more of it was done, or one request whose reply is lost."""
        told = len(left[place])
        for done, how in ((told, "hung up"), (told + 1, "hung up, with a reply that is lost")):
            asked, ended = self.without(frozenset((place, n) for n in range(done, len(CLIENTS[place]))))
            wanted = [some[:told] if at == place else some for at, some in enumerate(asked)]
            if (left, status) == (wanted, ended):
                return how
        return None


EXAMPLES = sorted(Path(ROOT, "examples").glob("*/*.txt"))
# How many tests share what is asked where there is much.
SHARES = 4


@pytest.fixture
def beside(program, room):
    return Beside(program, room, "refuse")


@pytest.fixture
def numbers_of(pytestconfig):
    """Which requests are refused, where the gate refuses one in so many, or the share of them."""
    def numbers(step, share=0, shares=1):
        step = 1 if pytestconfig.option.all else step * pytestconfig.option.every
        return Numbers(step * shares, step * share)

    return numbers


@pytest.mark.parametrize("share", range(SHARES))
def test_judge_and_solve(beside, numbers_of, share):
    """The rows of judge and solve, each wanted as its table tells it."""
    ways, place, numbers = Ways("judge and solve"), 0, numbers_of(7, share, SHARES)
    for path in sorted(Path(ROOT, "examples/lines").glob("*.rows")):
        # one board and fifty budgets
        rows = Table(path).rows if path.stem != "budgets" else []
        for row in rows:
            words, given, status, output = [*row.cells, b""][:4]
            replay = Replay(beside, words.decode().split(), given)
            check(f"{row.place} with ample memory", replay.usual, (output, int(status)))
            replay.refuse(numbers.at(place), ways)
            place += 1
    ways.end()


def test_the_seventeen_actions(beside, numbers_of):
    """One replay of the worked rows, each reply wanted as they tell it."""
    ways, numbers = Ways("requests of the seventeen actions"), numbers_of(17)
    table = Table(Path(ROOT, "examples/requests/worked.rows"))
    asked = [of_request(row) for row in table.before + table.rows]
    replay = Replay(beside, REPLAY, b"".join(record for _, record, _ in asked))
    check("with ample memory", replay.usual, (b"".join(reply for *_, reply in asked), 0))
    replay.refuse(numbers.at(), ways)
    # that each was answered 503 shows that the memory of each was refused, where none is passed over
    missing = sorted(set(range(len(asked))) - replay.dropped)
    if numbers.step == 1:
        check("requests that no refusal met", [asked[place][0].place for place in missing], [])
    ways.end()


def test_the_answer_past_the_fiftieth(beside, numbers_of):
    ways = Ways("the answer past the fiftieth")
    text = Path(ROOT, "examples/answers/fifty_answers.txt").read_bytes()
    last = records(text)[-1]
    replay = Replay(beside, REPLAY, text)
    first = Replay(beside, REPLAY, text[: -len(last)]).count()
    replay.refuse(numbers_of(7).at(least=first + 1), ways)
    ways.end()


@pytest.mark.parametrize("share", range(SHARES))
def test_commands_over_files(beside, room, numbers_of, share):
    ways = Ways("commands over files")
    ask_commands(commands(beside, room), beside, room, numbers_of(211, share, SHARES).at, ways)
    ways.end()


@pytest.mark.parametrize("share", range(SHARES))
def test_a_served_file(beside, room, numbers_of, share):
    """A file that is served to two clients, one after another."""
    ways, served = Ways("a served file"), Served(beside, room)
    for number in numbers_of(211, share, SHARES).at():
        got = served.run(number)
        if not beside.was_met():
            break
        ways.add(served.way(got), number, got)
    ways.end()


@pytest.mark.long
@pytest.mark.parametrize("example", EXAMPLES, ids=lambda it: f"{it.parent.name}/{it.stem}")
def test_an_example(beside, example):
    ways = Ways(f"{example.parent.name}/{example.stem}")
    words = example.with_suffix(".args").read_text(encoding="utf-8").split()
    numbers = [*range(1, 2_001), *range(2_001, 2_000_000, 97)]
    Replay(beside, words, example.read_bytes()).refuse(numbers, ways)
    ways.end()
