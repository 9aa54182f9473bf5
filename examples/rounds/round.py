"""Rounds from their puzzles to their tables, as requests to the hall and what they are answered.

`python3 examples/rounds/round.py` writes the requests as records of a replay (round.txt), with `--replies` the replies
(round.out): they come from the rules in plain words and not from the program. A reply stands beside its request, or
follows from the rules of answers, protests and points (rules.py); where both are there, they agree.

    python3 examples/rounds/round.py | ./hall replay --people examples/people.csv
"""
import sys

from rules import AUTHOR, DIRECTOR, ENTRANT, REFEREE, Hall, Round
from setting import DRAFTS, EXAMPLES, MORNING, PUZZLES, SHEET, compact

LIST = (EXAMPLES / "people.csv").read_text(encoding="ascii")
DAY_BEFORE, START, END, LATE_END = 1777626000, 1777712400, 1777716000, 1777717800
REASONS = {200: "OK", 400: "Bad Request", 403: "Forbidden", 404: "Not Found"}
DORA, ADA, BOB, EVE, FAY, REX = "dora-key", "ada-key-1", "bob-key-1", "eve-key-1", "fay-key-1", "rex-key-1"
HAL, KIM, LONG, NOBODY = "hal-key-1", "kim-key-1", "long-key-1", "no-such-key"
RIGHT, WRONG = "1234341221434321", "1234341221434312"
R1 = {
    "bonus": 2, "id": "r1", "minutes": 60, "mode": "instant", "penalty": 5, "protest_minutes": 30,
    "puzzles": [{"number": 1, "points": 40, "text": "sudoku/4/4/123434122143432g"}], "start": START, "title": "Morning",
}
ROUNDS = [
    {"id": "r1", "minutes": 60, "mode": "instant", "published": False, "released": True, "start": START,
     "title": "Morning"},
    {"id": "r2", "minutes": 60, "mode": "sealed", "published": False, "released": True, "start": START + 1800,
     "title": "Late"},
]
DRAFT = {"id": "r3", "minutes": 60, "mode": "instant", "published": False, "released": False, "start": START,
         "title": "Morning"}


def denied(rule):
    return 404 if rule == 4 else 403, {"denied": rule}


def put(author, label, text):
    return (DAY_BEFORE, f"{author}-key-1", "PUT", f"/puzzles/{author}/{label}", compact({"text": text}),
            200, {"state": "new", "text": text})


def certify(key, path, budget, state):
    return DAY_BEFORE, key, "POST", f"/puzzles/{path}/certificate", compact({"budget": budget}), 200, {"state": state}


def draft(name, sheet):
    return DAY_BEFORE, DORA, "PUT", f"/rounds/{name}", SHEET.format(**sheet), 200, {"round": name}


def sheet_with(old, new):
    return SHEET.format(**MORNING).replace(old, new)


def wrong_sheet(old, new, told):
    return DAY_BEFORE, DORA, "PUT", "/rounds/r5", sheet_with(old, new), 400, told


def listed(lines, status, told):
    return DAY_BEFORE, DORA, "POST", "/people", "\r\n".join(["name,key,roles", *lines]), status, told


def release(moment, name, status, told):
    return moment, DORA, "POST", f"/rounds/{name}/release", "", status, told


def read(moment, key, path, status, told):
    return moment, key, "GET", path, "", status, told


def hand_in(moment, key, name, token, answer, status=None, told=None, number=1):
    return moment, key, "PUT", f"/rounds/{name}/answers/{number}/{token}", compact({"answer": answer}), status, told


def protest(moment, key, name, token, status=None, told=None, number=1, text="The third row is unclear."):
    body = compact({"number": number, "text": text})
    return moment, key, "PUT", f"/rounds/{name}/protests/{token}", body, status, told


def rule(key, path, points, status=None, told=None, upheld=True):
    body = compact({"points": points, "upheld": upheld})
    name, entrant, token = path.split("/")
    return LATE_END, key, "PUT", f"/rounds/{name}/rulings/{entrant}/{token}", body, status, told


def publish(moment, key, name, status=None, told=None):
    return moment, key, "POST", f"/rounds/{name}/publish", "", status, told


def table(moment, key, name, status=None, told=None):
    return moment, key, "GET", f"/rounds/{name}/table", "", status, told


def listing(moment, key, name, what):
    return moment, key, "GET", f"/rounds/{name}/{what}", "", None, None


def answer(moment, entrant, text, verdict=None):
    told = {"answer": text, "entrant": entrant, "moment": moment, "n": 1, "number": 1, "token": "t1"}
    return told | ({"verdict": verdict} if verdict else {})


INLINE = "# By dora\n" + sheet_with('\n[[puzzle]]\nauthor = "bob"\nlabel = "p1"\npoints = 40\n', "")
INLINE += 'puzzle = [{ author = "bob", label = "p1", points = 40 }] # one\n'

SETTING = [
    *[put(*puzzle) for puzzle in PUZZLES],
    certify(BOB, "bob/p1", 200000, "one"),
    certify(ADA, "ada/q1", 200000, "one"),
    certify(DORA, "bob/v", 1, "gave up"),
    *[draft(*one) for one in DRAFTS],
]
RELEASES = [
    # A puzzle without a certificate, a start that has come, and two rounds as they should be.
    release(DAY_BEFORE, "r3", *denied(12)),
    release(START, "r1", *denied(14)),
    read(DAY_BEFORE, EVE, "/rounds", 200, {"rounds": []}),
    release(DAY_BEFORE, "r1", 200, {"released": "r1"}),
    release(DAY_BEFORE, "r2", 200, {"released": "r2"}),
    # Once more, and a draft with a puzzle of a released round.
    release(DAY_BEFORE, "r2", *denied(13)),
    draft("r4", DRAFTS[0][1]),
    release(DAY_BEFORE, "r4", *denied(11)),
    (DAY_BEFORE, DORA, "PUT", "/rounds/r1", SHEET.format(**DRAFTS[0][1]), *denied(13)),
    # The draft r4 takes the puzzle of the draft r3, and then the first one again; r3 stays as it is.
    draft("r4", DRAFTS[2][1]),
    release(DAY_BEFORE, "r4", *denied(12)),
    draft("r4", DRAFTS[0][1]),
    release(DAY_BEFORE, "r4", *denied(11)),
    release(DAY_BEFORE, "r3", *denied(12)),
    # A puzzle that nobody put, a director's action, and sheets that are none.
    (DAY_BEFORE, DORA, "PUT", "/rounds/r5", sheet_with("p1", "zz"), *denied(4)),
    (DAY_BEFORE, BOB, "PUT", "/rounds/r5", SHEET.format(**MORNING), *denied(2)),
    wrong_sheet("minutes = 60", 'minutes = "60"', {"field": "minutes", "form": "F2"}),
    wrong_sheet("points = 40", "points = 0", {"field": "points", "form": "F3"}),
    wrong_sheet("2026-05-02T09:00:00Z", "2026-02-30T09:00:00Z", {"form": "F5"}),
    wrong_sheet("bonus = 2", 'bonus = 2\nzone = "UTC0"', {"form": "F1"}),
    # The same sheet with a comment, its puzzle in an inline table.
    (DAY_BEFORE, DORA, "PUT", "/rounds/r4", INLINE, 200, {"round": "r4"}),
    read(DAY_BEFORE, DORA, "/rounds/r4", 200, {**R1, "id": "r4"}),
]
ENTRY_LIST = [
    (DAY_BEFORE, DORA, "POST", "/people", LIST, 200, {"added": 0}),
    (DAY_BEFORE, DORA, "POST", "/people", LIST.replace("eve-key-1", "eve-key-2") + "gus,gus-key-1,entrant\n",
     *denied(20)),
    (DAY_BEFORE, DORA, "POST", "/people", "name,key,roles\nada,ada-key-1,author+author\n",
     400, {"field": "roles", "form": "F3"}),
    # A key of another person, in each order; one key twice; roles that don't go together.
    listed(["gus,eve-key-1,entrant"], *denied(20)),
    listed(["gus,eve-key-1,entrant", "eve,eve-key-2,entrant"], *denied(20)),
    listed(["eve,eve-key-2,entrant", "gus,eve-key-1,entrant"], *denied(20)),
    listed(["gus,gus-key-1,entrant", "hal,gus-key-1,entrant"], 400, {"form": "F4"}),
    listed(["gus,gus-key-1,director+entrant"], *denied(20)),
    listed(['"eve",eve-key-1,"entrant"', "rex,rex-key-1,referee"], 200, {"added": 0}),
    (DAY_BEFORE, EVE, "POST", "/people", LIST, *denied(2)),
    read(DAY_BEFORE, "gus-key-1", "/rounds", *denied(1)),
    listed(["gus,gus-key-1,author", "eve,eve-key-1,entrant", "hal,hal-key-1,entrant"], 200, {"added": 2}),
]
READS = [
    read(DAY_BEFORE, ADA, "/puzzles/bob/p1", *denied(3)),
    read(DAY_BEFORE, ADA, "/puzzles/bob/zz", *denied(3)),
    read(DAY_BEFORE, ADA, "/rounds/r2", *denied(5)),
    read(DAY_BEFORE, BOB, "/puzzles", 200, {"puzzles": [
        {"author": "bob", "label": "p1", "state": "one"}, {"author": "bob", "label": "v", "state": "gave up"}]}),
    *[read(DAY_BEFORE, key, "/rounds", 200, {"rounds": ROUNDS}) for key in (ADA, BOB, EVE, REX, "gus-key-1")],
    read(DAY_BEFORE, "gus-key-1", "/puzzles", 200, {"puzzles": []}),
    read(DAY_BEFORE, REX, "/puzzles", *denied(2)),
    read(DAY_BEFORE, DORA, "/rounds", 200, {"rounds": [*ROUNDS, DRAFT, DRAFT | {"id": "r4"}]}),
    read(START - 1, EVE, "/rounds/r1", *denied(7)),
    read(START, EVE, "/rounds/r1", 200, R1),
    read(START - 1, EVE, "/rounds/r1", *denied(7)),
]
ANSWERS = [
    hand_in(END - 1, EVE, "r1", "k1", RIGHT, 200, {"received": 1, "verdict": "right"}),
    hand_in(END + 10, EVE, "r1", "k1", RIGHT, 200, {"received": 1, "verdict": "right"}),
    hand_in(END + 10, EVE, "r1", "k1", WRONG, *denied(6)),
    hand_in(END, EVE, "r1", "k2", RIGHT, *denied(8)),
    hand_in(1777713000, FAY, "r1", "f1", WRONG, 200, {"received": 1, "verdict": "wrong U2 U4"}),
    hand_in(1777713630, FAY, "r1", "f2", RIGHT, 200, {"received": 2, "verdict": "right"}),
    hand_in(START + 1860, EVE, "r2", "t1", ".###", 200, {"received": 1}),
    hand_in(START + 1860, FAY, "r2", "t1", ".##.", 200, {"received": 1}),
    read(LATE_END - 1, FAY, "/rounds/r2/answers", 200, {"answers": [answer(START + 1860, "fay", ".##.")]}),
    read(LATE_END, FAY, "/rounds/r2/answers", 200,
         {"answers": [answer(START + 1860, "fay", ".##.", "wrong N3 N4")]}),
]
SOLUTIONS = [
    read(END - 1, REX, "/rounds/r1/solutions", *denied(9)),
    read(END, REX, "/rounds/r1/solutions", 200, {"solutions": [RIGHT]}),
    read(LATE_END, FAY, "/rounds/r2/solutions", 200, {"solutions": [".###"]}),
    # Fay's second answer to the sealed puzzle is right, and the fiftieth wrong; and one more.
    hand_in(START + 1861, FAY, "r2", "f2", ".###", 200, {"received": 2}),
    *[hand_in(START + 1860 + n, FAY, "r2", f"f{n}", "####", 200, {"received": n}) for n in range(3, 51)],
    hand_in(LATE_END - 1, FAY, "r2", "f51", ".###", *denied(19)),
]
MORNING_TABLE = "   1 fay                           113\n   2 eve                            43\n"
LATE_TABLE = "   1 eve                            30\n   2 fay                             0\n"
PROTESTS = [
    # Before the end, in the window, its token again, a number that the round lacks, and after the window.
    protest(END - 1, EVE, "r1", "w1", *denied(9)),
    protest(END, EVE, "r1", "w1", 200, {"protest": "w1"}),
    protest(END, EVE, "r1", "w1", *denied(6), text="The last row is unclear."),
    protest(END, EVE, "r1", "w1", *denied(4), number=2),
    protest(LATE_END, EVE, "r1", "w2", *denied(10)),
    protest(LATE_END, EVE, "r1", "w1", 200, {"protest": "w1"}),
    protest(START, EVE, "r1", "w1", 200, {"protest": "w1"}),
    # Who may protest: no author of the round's puzzle, nobody unknown; rounds that aren't there, or are drafts.
    protest(END, REX, "r1", "w1", *denied(2)),
    protest(END, NOBODY, "r1", "w1", *denied(1)),
    protest(LATE_END, ADA, "r2", "w1", *denied(5)),
    protest(END, EVE, "r9", "w1", *denied(4)),
    protest(END, EVE, "r3", "w1", *denied(4)),
    protest(END, EVE, "r1", "w2", 400, {"field": "number", "form": "F3"}, number=0),
    protest(END, EVE, "r1", "w2", 400, {"field": "number", "form": "F3"}, number=100, text=""),
    protest(END, EVE, "r1", "w2", 400, {"field": "text", "form": "F3"}, text=""),
    protest(END, EVE, "r1", "w2", 400, {"field": "text", "form": "F2"}, text=7),
    *[listing(END, key, "r1", "protests") for key in (DORA, REX, EVE, FAY, BOB, NOBODY)],
]
RULINGS = [
    publish(LATE_END - 1, DORA, "r1", *denied(9)),
    publish(LATE_END, DORA, "r1", *denied(16)),
    publish(LATE_END, REX, "r1", *denied(2)),
    table(LATE_END, DORA, "r1", *denied(15)),
    table(LATE_END, None, "r1", *denied(15)),
    rule(REX, "r1/eve/w2", 3, *denied(4)),
    rule(REX, "r1/fay/w1", 3, *denied(4)),
    rule(DORA, "r1/eve/w1", 3, *denied(2)),
    rule(REX, "r1/eve/w1", 1001, 400, {"field": "points", "form": "F3"}),
    rule(REX, "r1/eve/w1", -1001, 400, {"field": "points", "form": "F3"}),
    rule(REX, "r1/eve/w1", 3, 400, {"field": "points", "form": "F3"}, upheld=False),
    rule(REX, "r1/eve/w1", 3, 400, {"field": "upheld", "form": "F2"}, upheld=1),
    rule(REX, "r1/eve/w1", 3, 200, {"points": 3, "ruled": "upheld"}),
    rule(REX, "r1/eve/w1", 3, 200, {"points": 3, "ruled": "upheld"}),
    rule(REX, "r1/eve/w1", 4, *denied(18)),
    rule(REX, "r1/eve/w1", 0, *denied(18), upheld=False),
    listing(END, EVE, "r1", "protests"),
]
PUBLICATION = [
    publish(LATE_END, DORA, "r1", 200, {"published": "r1"}),
    publish(LATE_END, DORA, "r1", *denied(15)),
    *[table(moment, key, "r1", 200, MORNING_TABLE) for moment, key in
      [(LATE_END, DORA), (LATE_END, EVE), (LATE_END, BOB), (LATE_END, NOBODY), (LATE_END, None), (0, None)]],
    table(LATE_END, None, "r9", *denied(4)),
    table(LATE_END, DORA, "r3", *denied(4)),
    # Moments that go back after publication.
    publish(END, DORA, "r1", *denied(9)),
    hand_in(START, EVE, "r1", "k9", RIGHT, *denied(15)),
    hand_in(START - 1, EVE, "r1", "k9", RIGHT, *denied(7)),
    hand_in(START, EVE, "r1", "k1", RIGHT, 200, {"received": 1, "verdict": "right"}),
    hand_in(START, EVE, "r1", "k1", WRONG, *denied(6)),
    protest(END, EVE, "r1", "w2", *denied(15)),
    protest(END - 1, EVE, "r1", "w2", *denied(9)),
    protest(END, EVE, "r1", "w1", 200, {"protest": "w1"}),
    rule(REX, "r1/eve/w1", 3, 200, {"points": 3, "ruled": "upheld"}),
    rule(REX, "r1/eve/w1", 0, *denied(18), upheld=False),
    # The sealed round: eve's only answer is right, fay's last one wrong after a right one.
    publish(LATE_END + 1800, DORA, "r2"),
    table(LATE_END, None, "r2", 200, LATE_TABLE),
    read(DAY_BEFORE, EVE, "/rounds", 200, {"rounds": [one | {"published": True} for one in ROUNDS]}),
]

# Three rounds more: two puzzles and protests at noon, one that nobody answers, and a long sealed one without protests.
NOON, NOON_END, NOON_CLOSE = 1777723200, 1777726800, 1777728600
NIGHT, NIGHT_END = 1777766400, 1777852800
FAR = "abcdefghijklmnopqrstuvwx"
LOOP, ISLAND = "110011/101101", ".###"


def sheet(title, start, minutes, protest_minutes, mode, penalty, bonus, puzzles):
    lines = ["version = 1", f'title = "{title}"', f'start = "{start}"', f"minutes = {minutes}",
             f"protest_minutes = {protest_minutes}", f'mode = "{mode}"', f"penalty = {penalty}", f"bonus = {bonus}"]
    for label, points in puzzles:
        lines += ["[[puzzle]]", 'author = "gus"', f'label = "{label}"', f"points = {points}"]
    return "\n".join(lines) + "\n"


SHEETS = {
    "r5": sheet("Noon", "2026-05-02T12:00:00Z", 60, 30, "instant", 5, 2, [("a", 10), ("b", 100)]),
    "r6": sheet("Empty", "2026-05-02T12:00:00Z", 60, 0, "instant", 0, 0, [("c", 20)]),
    "r7": sheet("Long", "2026-05-03T00:00:00Z", 1440, 0, "sealed", 1000, 1000, [("d", 1000)]),
}
MORE_ROUNDS = [
    listed(["kim,kim-key-1,referee+entrant", f"{FAR},long-key-1,entrant"], 200, {"added": 2}),
    *[put("gus", label, text) for label, text in [
        ("a", "nurikabe/2/2/1i"), ("b", "sudoku/4/4/123434122143432g"), ("c", "nurikabe/2/2/1i"),
        ("d", "slither/2/2/222c")]],
    *[certify("gus-key-1", f"gus/{label}", 200000, "one") for label in "abcd"],
    *[(DAY_BEFORE, DORA, "PUT", f"/rounds/{name}", text, 200, {"round": name}) for name, text in SHEETS.items()],
    *[release(DAY_BEFORE, name, 200, {"released": name}) for name in SHEETS],
]
NOON_ANSWERS = [
    # Eve's three wrong answers cost more than the puzzle gives; her last right answer comes a minute before the end.
    *[hand_in(NOON + n, EVE, "r5", f"a{n}", ".##.") for n in range(3)],
    hand_in(NOON + 3, EVE, "r5", "a3", ISLAND),
    hand_in(NOON_END - 60, EVE, "r5", "b1", RIGHT, number=2),
    # Fay's a second earlier; a wrong one after it costs nothing.
    hand_in(NOON_END - 61, FAY, "r5", "a1", ISLAND),
    hand_in(NOON, FAY, "r5", "b1", RIGHT, number=2),
    hand_in(NOON_END - 1, FAY, "r5", "b2", WRONG, number=2),
    # Hal's a second later, and one at the end.
    hand_in(NOON_END - 59, HAL, "r5", "a1", ISLAND),
    hand_in(NOON_END - 59, HAL, "r5", "b1", RIGHT, number=2),
    hand_in(NOON_END, HAL, "r5", "b2", RIGHT, *denied(8), number=2),
    # No right answer at all, and an author.
    hand_in(NOON, LONG, "r5", "b1", WRONG, number=2),
    hand_in(NOON, "gus-key-1", "r5", "b1", RIGHT, *denied(2), number=2),
    listing(NOON_END - 1, REX, "r5", "answers"),
    listing(NOON_END, REX, "r5", "answers"),
]
# Eve: 0 + 100, a minute gives 2, and 1000 - 1000 + 0 + 10 of her protests; fay: 10 + 100 + 2 - 1000.
NOON_TABLE = f"""\
   1 eve                           112
   1 hal                           112
   3 kim                            10
   4 {FAR}        0
   5 fay                          -888
"""
NOON_PROTESTS = [
    # Five protests of eve and the sixth; her fifth again.
    *[protest(NOON_END, EVE, "r5", f"p{n}", number=1 + n % 2) for n in range(1, 6)],
    protest(NOON_END, EVE, "r5", "p6", *denied(19)),
    protest(NOON_END, EVE, "r5", "p5", 200, {"protest": "p5"}, number=2),
    # Ada has no answer in the round; she and the others may protest.
    *[protest(NOON_CLOSE - 1, key, "r5", "p1", 200, {"protest": "p1"}) for key in (ADA, FAY, HAL, KIM)],
    *[listing(NOON_END, key, "r5", "protests") for key in (KIM, EVE, ADA, LONG)],
    # Kim may not rule her own protest, and no other one either once she has an answer: to one puzzle of two.
    rule(KIM, "r5/kim/p1", 3, *denied(17)),
    rule(KIM, "r5/eve/p1", 1000, 200, {"points": 1000, "ruled": "upheld"}),
    rule(KIM, "r5/eve/p1", 1000, 200, {"points": 1000, "ruled": "upheld"}),
    hand_in(NOON, KIM, "r5", "a1", ISLAND),
    listing(NOON_END - 1, KIM, "r5", "answers"),
    rule(KIM, "r5/eve/p1", 1000, *denied(17)),
    rule(KIM, "r5/eve/p1", 0, *denied(17), upheld=False),
    rule(KIM, "r5/eve/p2", 3, *denied(17)),
    # Rex may say the same again, and rules the others.
    rule(REX, "r5/eve/p1", 1000, 200, {"points": 1000, "ruled": "upheld"}),
    rule(REX, "r5/eve/p1", 3, *denied(18)),
    rule(REX, "r5/eve/p2", -1000),
    rule(REX, "r5/eve/p3", 0, upheld=False),
    rule(REX, "r5/eve/p4", 0),
    rule(REX, "r5/eve/p4", 0, *denied(18), upheld=False),
    rule(REX, "r5/eve/p5", 10),
    rule(REX, "r5/ada/p1", 1000),
    rule(REX, "r5/fay/p1", -1000),
    rule(REX, "r5/hal/p1", 2),
    publish(NOON_CLOSE, DORA, "r5", *denied(16)),
    rule(REX, "r5/kim/p1", 0, upheld=False),
    listing(NOON_END, DORA, "r5", "protests"),
    publish(NOON_CLOSE, DORA, "r5", 200, {"published": "r5"}),
    table(NOON_CLOSE, None, "r5", 200, NOON_TABLE),
]
LONG_ROUND = [
    # The last answer counts: right after a wrong one, wrong after a right one; and the minutes that are left.
    hand_in(NIGHT, LONG, "r7", "a1", "00"),
    hand_in(NIGHT, LONG, "r7", "a2", LOOP),
    hand_in(NIGHT, FAY, "r7", "a1", LOOP),
    hand_in(NIGHT, FAY, "r7", "a2", "00"),
    hand_in(NIGHT_END - 1, EVE, "r7", "a1", LOOP),
    hand_in(NIGHT_END - 60, HAL, "r7", "a1", "00"),
    hand_in(NIGHT_END - 60, HAL, "r7", "a2", LOOP),
    hand_in(NIGHT + 59, KIM, "r7", "a1", LOOP),
    *[listing(NIGHT_END - 1, key, "r7", "answers") for key in (LONG, KIM, DORA)],
    *[listing(NIGHT_END, key, "r7", "answers") for key in (LONG, REX)],
    # No protest is ever in time where the window is empty.
    protest(NIGHT_END - 1, EVE, "r7", "p1", *denied(9)),
    protest(NIGHT_END, EVE, "r7", "p1", *denied(10)),
    publish(NIGHT_END - 1, DORA, "r7", *denied(9)),
    publish(NIGHT_END, DORA, "r7"),
    table(NIGHT_END, None, "r7"),
    # Nobody has an answer.
    publish(NOON_END, DORA, "r6"),
    table(NOON_END, None, "r6", 200, ""),
]


def hall():
    """The people of the list and of later ones, and the rounds as they are released."""
    known = {DORA: ("dora", [DIRECTOR]), ADA: ("ada", [AUTHOR, ENTRANT]), BOB: ("bob", [AUTHOR]),
             EVE: ("eve", [ENTRANT]), FAY: ("fay", [ENTRANT]), REX: ("rex", [REFEREE]), HAL: ("hal", [ENTRANT]),
             KIM: ("kim", [REFEREE, ENTRANT]), LONG: (FAR, [ENTRANT]), "gus-key-1": ("gus", [AUTHOR])}
    return Hall(known, {
        "r1": Round(START, 60, 30, "instant", 5, 2, [("bob", 40, RIGHT)]),
        "r2": Round(START + 1800, 60, 30, "sealed", 0, 0, [("ada", 30, ISLAND)]),
        "r5": Round(NOON, 60, 30, "instant", 5, 2, [("gus", 10, ISLAND), ("gus", 100, RIGHT)]),
        "r6": Round(NOON, 60, 0, "instant", 0, 0, [("gus", 20, ISLAND)]),
        "r7": Round(NIGHT, 1440, 0, "sealed", 1000, 1000, [("gus", 1000, LOOP)]),
    })


def record(moment, key, method, path, body, _status, _told):
    shown = f"Hall-Key: {key}\r\n" if key else ""
    asked = f"{method} {path} HTTP/1.1\r\n{shown}Content-Length: {len(body)}\r\n\r\n{body}"
    return f"@{moment} {len(asked)}\n{asked}"


def replies(story):
    """The replies: what stands beside a request and what the rules give are one, where both are there."""
    rules = hall()
    for moment, key, method, path, body, status, told in story:
        follows = None if status == 400 else rules.reply(moment, key, method, path, body)
        if told is None:
            status, told = follows
        elif follows not in (None, (status, told)):
            sys.exit(f"{method} {path} at {moment}: {told} stands there, and {follows} follows")
        yield reply(status, told)


def reply(status, told):
    kind, body = ("text/plain", told) if isinstance(told, str) else ("application/json", compact(told))
    lines = [f"HTTP/1.1 {status} {REASONS[status]}", f"Content-Type: {kind}", f"Content-Length: {len(body)}"]
    return "\r\n".join([*lines, "", body])


if __name__ == "__main__":
    served = SETTING + RELEASES + ENTRY_LIST + READS + ANSWERS + SOLUTIONS
    later = PROTESTS + RULINGS + PUBLICATION + MORE_ROUNDS + NOON_ANSWERS + NOON_PROTESTS + LONG_ROUND
    story = served + later
    made = replies(story) if "--replies" in sys.argv[1:] else [record(*one) for one in story]
    sys.stdout.buffer.write("".join(made).encode())
