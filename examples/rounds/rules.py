"""The rules of answers, protests, rulings, publication and tables in plain words: what `round.py` expects of the hall.

It knows nothing of the program. People and rounds are told at the start: what puts them is no matter of this file.
"""
import json
import re

DIRECTOR, AUTHOR, REFEREE, ENTRANT = "director", "author", "referee", "entrant"
# Verdicts on the answers that are handed in, by the solution that the puzzle has; the solution itself is right.
VERDICTS = {
    ("1234341221434321", "1234341221434312"): "wrong U2 U4",
    (".###", ".##."): "wrong N3 N4",
    (".###", "####"): "wrong N1 N2",
    ("110011/101101", "00"): "wrong A0",
}
# The rules are asked in the order of their numbers; each method answers what is told, or the number of a denial.
ROUTES = [
    ("PUT", r"/rounds/([^/]+)/answers/(\d+)/([^/]+)", "submit"),
    ("GET", r"/rounds/([^/]+)/answers", "list_answers"),
    ("PUT", r"/rounds/([^/]+)/protests/([^/]+)", "protest"),
    ("GET", r"/rounds/([^/]+)/protests", "list_protests"),
    ("PUT", r"/rounds/([^/]+)/rulings/([^/]+)/([^/]+)", "rule"),
    ("POST", r"/rounds/([^/]+)/publish", "publish"),
    ("GET", r"/rounds/([^/]+)/table", "table"),
]
REPEAT = "repeat"


class Round:
    """A released round: its puzzles are (author, points, solution), by number from 1."""

    def __init__(self, start, minutes, protest_minutes, mode, penalty, bonus, puzzles):
        self.start, self.end = start, start + 60 * minutes
        self.close = self.end + 60 * protest_minutes
        self.mode, self.penalty, self.bonus, self.puzzles = mode, penalty, bonus, puzzles
        self.published = False


class Hall:
    """People as {key: (name, roles)}, and released rounds by id."""

    def __init__(self, people, rounds):
        self.people, self.rounds = people, rounds
        # {(round, entrant, number, token): (n, moment, answer, verdict)}
        self.answers = {}
        # {(round, entrant, token): [number, text, ruling, points]}
        self.protests = {}

    def reply(self, moment, key, method, path, body):
        """The status and what is told; none where the request is no matter of this file."""
        for route_method, pattern, action in ROUTES:
            found = re.fullmatch(pattern, path)
            if method == route_method and found:
                name, roles = self.people.get(key, (None, ()))
                told = getattr(self, action)(moment, name, roles, json.loads(body) if body else {}, *found.groups())
                if isinstance(told, int):
                    return (404 if told == 4 else 403), {"denied": told}
                return 200, told
        return None

    def submit(self, t, name, roles, body, round_id, number, token):
        held, number, text = self.rounds.get(round_id), int(number), body["answer"]
        stands = self.answers.get((round_id, name, number, token))
        earlier = [key for key in self.answers if key[:3] == (round_id, name, number)]
        why = first([
            (1, lambda: name is None),
            (2, lambda: ENTRANT not in roles),
            (4, lambda: held is None or not 1 <= number <= len(held.puzzles)),
            (5, lambda: name in [author for author, _, _ in held.puzzles]),
            (6, lambda: stands and (REPEAT if stands[2] == text else True)),
            (7, lambda: t < held.start),
            (8, lambda: t >= held.end),
            (15, lambda: held.published),
            (19, lambda: len(earlier) >= 50),
        ])
        if why not in (None, REPEAT):
            return why
        if why is None:
            solution = held.puzzles[number - 1][2]
            verdict = "right" if text == solution else VERDICTS[solution, text]
            stands = self.answers[round_id, name, number, token] = (len(earlier) + 1, t, text, verdict)
        return {"received": stands[0]} | ({"verdict": stands[3]} if held.mode == "instant" else {})

    def list_answers(self, t, name, roles, _body, round_id):
        held = self.rounds.get(round_id)
        why = listing_rules(held, name, roles)
        if why:
            return why
        sees_all = DIRECTOR in roles or (REFEREE in roles and t >= held.end)
        is_secret = held.mode == "sealed" and t < held.end and DIRECTOR not in roles
        seen = [key for key in self.answers if key[0] == round_id and (sees_all or key[1] == name)]
        lines = []
        for key in sorted(seen, key=lambda key: (key[1], key[2], self.answers[key][0])):
            n, moment, text, verdict = self.answers[key]
            line = {"answer": text, "entrant": key[1], "moment": moment, "n": n, "number": key[2], "token": key[3]}
            lines.append(line if is_secret else line | {"verdict": verdict})
        return {"answers": lines}

    def protest(self, t, name, roles, body, round_id, token):
        held, number, text = self.rounds.get(round_id), body["number"], body["text"]
        stands = self.protests.get((round_id, name, token))
        earlier = [key for key in self.protests if key[:2] == (round_id, name)]
        why = first([
            (1, lambda: name is None),
            (2, lambda: ENTRANT not in roles),
            (4, lambda: held is None or not 1 <= number <= len(held.puzzles)),
            (5, lambda: name in [author for author, _, _ in held.puzzles]),
            (6, lambda: stands and (REPEAT if stands[:2] == [number, text] else True)),
            (9, lambda: t < held.end),
            (10, lambda: t >= held.close),
            (15, lambda: held.published),
            (19, lambda: len(earlier) >= 5),
        ])
        if why not in (None, REPEAT):
            return why
        if why is None:
            self.protests[round_id, name, token] = [number, text, "open", 0]
        return {"protest": token}

    def list_protests(self, _t, name, roles, _body, round_id):
        why = listing_rules(self.rounds.get(round_id), name, roles)
        if why:
            return why
        sees_all = DIRECTOR in roles or REFEREE in roles
        lines = []
        for key in sorted(key for key in self.protests if key[0] == round_id and (sees_all or key[1] == name)):
            number, text, ruling, points = self.protests[key]
            lines.append({"entrant": key[1], "number": number, "points": points, "ruling": ruling, "text": text,
                          "token": key[2]})
        return {"protests": lines}

    def rule(self, _t, name, roles, body, round_id, entrant, token):
        held, stands = self.rounds.get(round_id), self.protests.get((round_id, entrant, token))
        ruling = ["upheld" if body["upheld"] else "rejected", body["points"]]
        why = first([
            (1, lambda: name is None),
            (2, lambda: REFEREE not in roles),
            (4, lambda: held is None or stands is None),
            (17, lambda: entrant == name or any(key[:2] == (round_id, name) for key in self.answers)),
            (18, lambda: stands[2] != "open" and (REPEAT if stands[2:] == ruling else True)),
        ])
        if why not in (None, REPEAT):
            return why
        stands[2:] = ruling
        return {"points": ruling[1], "ruled": ruling[0]}

    def publish(self, t, name, roles, _body, round_id):
        held = self.rounds.get(round_id)
        why = first([
            (1, lambda: name is None),
            (2, lambda: DIRECTOR not in roles),
            (4, lambda: held is None),
            (9, lambda: t < held.close),
            (15, lambda: held.published),
            (16, lambda: any(key[0] == round_id and row[2] == "open" for key, row in self.protests.items())),
        ])
        if why is None:
            held.published = True
        return why or {"published": round_id}

    def table(self, _t, _name, _roles, _body, round_id):
        held = self.rounds.get(round_id)
        why = first([(4, lambda: held is None), (15, lambda: not held.published)])
        if why:
            return why
        entrants = {key[1] for key in self.answers if key[0] == round_id}
        return table_text({name: self.total(round_id, held, name) for name in entrants})

    def total(self, round_id, held, name):
        """Points of the answers that count, the bonus of a whole round, and the points of upheld protests."""
        points, moments = 0, []
        for number, (_, worth, _) in enumerate(held.puzzles, 1):
            given = sorted(row for key, row in self.answers.items() if key[:3] == (round_id, name, number))
            right = [row for row in given if row[3] == "right"]
            if held.mode == "instant":
                counts = right[0] if right else None
                lost = held.penalty * (counts[0] - 1) if counts else 0
            else:
                counts = given[-1] if given and given[-1][3] == "right" else None
                lost = 0
            if counts:
                points += max(0, worth - lost)
                moments.append(counts[1])
        if len(moments) == len(held.puzzles):
            points += held.bonus * ((held.end - max(moments)) // 60)
        upheld = [row[3] for key, row in self.protests.items() if key[:2] == (round_id, name) and row[2] == "upheld"]
        return points + sum(upheld)


def listing_rules(held, name, roles):
    """What forbids a listing of answers or protests."""
    return first([
        (1, lambda: name is None),
        (2, lambda: not {ENTRANT, REFEREE, DIRECTOR} & set(roles)),
        (4, lambda: held is None),
    ])


def first(asked):
    """The number of the first rule that forbids, or the repetition that it finds; none where all pass."""
    for number, forbids in asked:
        found = forbids()
        if found == REPEAT:
            return REPEAT
        if found:
            return number
    return None


def table_text(totals):
    """A line for each entrant: the rank is one more than those with a greater total; by rank, then name."""
    ranked = [(1 + sum(other > total for other in totals.values()), name, total) for name, total in totals.items()]
    return "".join(f"{rank:>4} {name:<24} {total:>8}\n" for rank, name, total in sorted(ranked))
