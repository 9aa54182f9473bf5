"""A championship day: 8 rounds, 30 puzzles of 5 authors, 40 entrants, 58 protests. What is done by whom, and what
tables must come of it.
"""
import csv
import datetime
import random

from .running import ROOT

AUTHORS = [f"author-{n}" for n in range(1, 6)]
ENTRANTS = [f"entrant-{n}" for n in range(1, 41)]
STAFF = [("dora", "director"), ("rex", "referee"), ("rae", "referee+entrant"), ("tom", "referee")]
FIRST, STEP, MINUTES, PROTEST_MINUTES = 1777712400, 7200, 60, 30
# Mode, penalty, bonus, number of puzzles, version of the sheet and number of protests of each round.
PLAN = [("instant", 5, 2, 4, 1, 8), ("sealed", 0, 1, 4, 2, 7), ("instant", 10, 0, 4, 3, 7), ("sealed", 0, 3, 4, 1, 7),
        ("instant", 3, 1, 4, 2, 7), ("sealed", 5, 0, 4, 3, 7), ("instant", 0, 5, 3, 1, 7), ("sealed", 0, 2, 3, 2, 8)]


def puzzles():
    """30 puzzles with their solutions, ten of each kind."""
    found = []
    for kind in ("sudoku", "slither", "nurikabe"):
        with open(f"{ROOT}/bench/{kind}.txt", encoding="ascii") as file:
            found += [tuple(line.split()) for line in list(file)[:10]]
    random.Random(30).shuffle(found)
    return found


class Round:
    """A round of the day: its times and its puzzles, each (author, label, text, solution, points)."""

    def __init__(self, number, of, share):
        self.id, self.number = f"r{number + 1}", number
        self.mode, self.penalty, self.bonus, self.count, self.version, self.protests = of
        self.start = FIRST + number * STEP
        self.end = self.start + 60 * MINUTES
        self.close = self.end + 60 * PROTEST_MINUTES
        self.puzzles = [(AUTHORS[(number + at) % 5], f"{self.id}-{at + 1}", *it, 20 + 5 * at)
                        for at, it in enumerate(share)]

    def sheet(self):
        """Its sheet, in its version."""
        utc = datetime.datetime.fromtimestamp(self.start, datetime.timezone.utc)
        civil = utc.strftime("%Y-%m-%dT%H:%M:%S")
        east = (utc + datetime.timedelta(hours=2)).strftime("%Y-%m-%dT%H:%M:%S")
        start = {1: f'"{civil}Z"', 2: f'"{east}"\nzone = "CET-1CEST,M3.5.0,M10.5.0/3"',
                 3: f'"{civil}"\nzone = "UTC0"'}[self.version]
        testers = 'testers = ["tom"]\n' if self.version == 3 else ""
        listed = "".join(f'[[puzzle]]\nauthor = "{author}"\nlabel = "{label}"\npoints = {points}\n'
                         for author, label, _, _, points in self.puzzles)
        return (f'version = {self.version}\ntitle = "Round {self.number + 1}"\nstart = {start}\nminutes = {MINUTES}\n'
                f'protest_minutes = {PROTEST_MINUTES}\nmode = "{self.mode}"\npenalty = {self.penalty}\n'
                f"bonus = {self.bonus}\n{testers}{listed}")


def rounds():
    """The rounds of the day."""
    rest = puzzles()
    for number, of in enumerate(PLAN):
        share, rest = rest[:of[3]], rest[of[3]:]
        yield Round(number, of, share)


def slip(solution, chance):
    """A wrong answer: one byte of the right one is another."""
    places = [at for at, byte in enumerate(solution) if byte != "/"]
    at = chance.choice(places)
    others = {"#": ".", ".": "#"} if "#" in solution else {"0": "1", "1": "0"} if "/" in solution else {}
    other = others.get(solution[at]) or chance.choice([it for it in "123456789" if it != solution[at]])
    return solution[:at] + other + solution[at + 1:]


def answers(of, chance):
    """(moment, entrant, number, token, answer) of each answer of a round, in the order in which they come."""
    found = []
    for entrant in [*ENTRANTS, *(["rae"] if of.number == 0 else [])]:
        for number, (*_, solution, _) in enumerate(of.puzzles, 1):
            texts = [slip(solution, chance) for _ in range(chance.choice([0, 0, 0, 1, 2]))]
            texts += [solution] if chance.random() < 0.8 else []
            moments = sorted(chance.randrange(of.start, of.end) for _ in texts)
            found += [(moment, entrant, number, f"{number}-{n}", text)
                      for n, (moment, text) in enumerate(zip(moments, texts))]
    return sorted(found)


def protests(of, chance):
    """(entrant, token, number, text, whether it is upheld, its points) of each protest of a round."""
    for n, entrant in enumerate(chance.sample(ENTRANTS, of.protests)):
        upheld = chance.random() < 0.5
        text = f"Clue {n} of puzzle {1 + n % of.count} can be read in two ways."
        yield entrant, f"protest-{n}", 1 + n % of.count, text, upheld, chance.randrange(-10, 21) if upheld else 0


def people_list():
    """The list with no keys yet."""
    people = [*STAFF, *[(it, "author") for it in AUTHORS], *[(it, "entrant") for it in ENTRANTS]]
    return "name,key,roles\n" + "".join(f"{name},,{roles}\n" for name, roles in people)


def keys_of(path):
    with open(path, encoding="ascii", newline="") as file:
        return {row["name"]: row["key"] for row in csv.DictReader(file)}


def tallies(rows):
    """What is told of the answers of each entrant to each puzzle."""
    found = []
    for entrant, number in sorted({(row["entrant"], row["number"]) for row in rows}):
        own = [row for row in rows if (row["entrant"], row["number"]) == (entrant, number)]
        right, moments = sum(row["verdict"] == "right" for row in own), [row["moment"] for row in own]
        found.append({"entrant": entrant, "number": number, "right": right, "wrong": len(own) - right, "untold": 0,
                      "first": min(moments), "last": max(moments)})
    return found


def worth(data, number, rows):
    """What the rows of one entrant to one puzzle give, and the moment of the right answer that counts."""
    points = next(it["points"] for it in data["puzzles"] if it["number"] == number)
    rows = sorted(rows, key=lambda it: it["n"])
    if data["mode"] == "sealed":
        return (points, rows[-1]["moment"]) if rows and rows[-1]["verdict"] == "right" else (0, None)
    for wrong, row in enumerate(rows):
        if row["verdict"] == "right":
            return max(0, points - data["penalty"] * wrong), row["moment"]
    return 0, None


def total(data, entrant, rows, upheld):
    """The total of an entrant, by the rules of points in docs/USING.md."""
    found = [worth(data, number, [row for row in rows if row["number"] == number])
             for number in (it["number"] for it in data["puzzles"])]
    points = sum(it for it, _ in found) + sum(it["points"] for it in upheld if it["entrant"] == entrant)
    if all(moment is not None for _, moment in found):
        end = data["start"] + 60 * data["minutes"]
        points += data["bonus"] * ((end - max(moment for _, moment in found)) // 60)
    return points


def ranked(totals):
    """Lines of rank, name and total: equal totals have equal ranks."""
    ordered = sorted(totals.items(), key=lambda it: (-it[1], it[0]))
    return [{"rank": 1 + sum(other > of for _, other in ordered), "name": name, "total": of} for name, of in ordered]


def reckoned(data, rows, protested):
    """The lines of the table that the listings give."""
    upheld = [it for it in protested if it["ruling"] == "upheld"]
    entrants = {row["entrant"] for row in rows}
    return ranked({it: total(data, it, [row for row in rows if row["entrant"] == it], upheld) for it in entrants})
