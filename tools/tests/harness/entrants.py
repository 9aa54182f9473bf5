"""Entrants who each hand in answers that nobody else does, and so are told what nobody else is."""
import random
import re
import time

from . import database
from .database import RIGHT, WRONG
from .wire import compact, request

# Two rounds that run now: the first tells verdicts at once, the second keeps them to its end.
OPEN, SEALED = "open", "sealed"
ROUNDS = f"""
INSERT INTO people VALUES ('dora', 'dora-key', 1), ('bob', 'bob-key-1', 2);
INSERT INTO puzzles VALUES ('bob', 'p1', '{database.SUDOKU}', 1, '{RIGHT}');
INSERT INTO rounds VALUES ('{OPEN}', 'Open', {{start}}, 600, 30, 0, 5, 0, 1, 0),
    ('{SEALED}', 'Sealed', {{start}}, 600, 30, 1, 5, 0, 1, 0);
INSERT INTO round_puzzles VALUES ('{OPEN}', 1, 'bob', 'p1', 40), ('{SEALED}', 1, 'bob', 'p1', 40);
"""
MOMENT = re.compile(rb'"moment":\d+')
# How many answers an entrant hands in at least; the hall takes 50 to a puzzle.
FEWEST, MORE = 12, 12


def hall_file(path, entrants):
    people = ", ".join(f"('{it.name}', '{it.key}', 8)" for it in entrants)
    database.written(path, database.TABLES, ROUNDS.format(start=int(time.time()) - 600),
                  f"INSERT INTO people VALUES {people}")


class Entrant:
    """One who hands in answers of its own, and what each is told."""

    def __init__(self, place):
        self.place, self.name, self.key = place, f"e{place}", f"key-of-{place:05}"
        self.chance = random.Random(place)
        self.given = {OPEN: [], SEALED: []}

    def answer(self):
        """An answer and its verdict: the solution, one that breaks rules, or a text that holds who gave it."""
        text = f"{self.name} {sum(map(len, self.given.values()))}"
        return self.chance.choice([(RIGHT, "right"), (WRONG, "wrong U2 U4"), (text, "wrong A0")])

    def submit(self, which):
        """A further answer to the round: the request, and the body of its reply."""
        text, verdict = self.answer()
        token = f"t{self.place}-{len(self.given[which])}"
        self.given[which].append((token, text, verdict))
        return self.submission(which, len(self.given[which]))

    def submission(self, which, n):
        """The answer of this number, sent for the first time or again."""
        token, text, verdict = self.given[which][n - 1]
        told = {"received": n} | ({"verdict": verdict} if which == OPEN else {})
        asked = request(self.key, "PUT", f"/rounds/{which}/answers/1/{token}", compact({"answer": text}))
        return asked.encode(), compact(told).encode()

    def listing(self, which, count=None):
        """The request for its own answers, and the reply where so many of them stand, with moments of 0."""
        rows = [{"answer": text, "entrant": self.name, "moment": 0, "n": n, "number": 1, "token": token}
                | ({"verdict": verdict} if which == OPEN else {})
                for n, (token, text, verdict) in enumerate(self.given[which][:count], 1)]
        return request(self.key, "GET", f"/rounds/{which}/answers").encode(), compact({"answers": rows}).encode()

    def steps(self):
        """All that it asks, and what it is told: as many answers as no neighbour hands in."""
        for turn in range(FEWEST + self.place % MORE):
            which = self.chance.choice([OPEN, SEALED])
            yield self.submit(which)
            if turn % 3 == 2:
                yield self.listing(which)
        yield from map(self.listing, (OPEN, SEALED))
