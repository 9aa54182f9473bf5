"""What hallctl refuses and is refused, what it sends again, and where it says that a list or a sheet is wrong.
"""
from pathlib import Path

from .database import SUDOKU
from .staff_day import FIRST
from .staff_room import answered
from .wire import compact

MANY = "sudoku/4/4/v"
# What is changed in a good list or sheet, and how the line that is told begins.
LISTS = [
    ("tom,", "Tom,", ":5: F3 name"), ("entrant\n", "entrant+entrant\n", ":4: F3 roles"), ("rex,", "dora,", ":3: F4"),
    (",director\n", ",director+entrant\n", ":2: denied 20"), ("name,key,roles", "name;key;roles", ":1: F1"),
    ("tom,", "tom,,", ":5: F1"),
]
SHEETS = [
    ("penalty", "penality", ":7: F1"), ('"Round 1"', "“Round 1”", ":2: F1"),
    ("minutes = 60", 'minutes = "60"', ":4: F2 minutes"), ("points = 25", "points = 0", ":16: F3 points"),
    ('label = "r1-2"', "", ":13: F2 label"), ("09:00:00Z", "09:00", ":3: F5"), ("bonus = 2\n", "", ": F2 bonus"),
    ('author = "author-2"\nlabel = "r1-2"', 'author = "author-1"\nlabel = "r1-1"', ":13: F4"),
    ("version = 1", "version = 2", ":3: F5"), ("points = 20", "points = true", ":12: F2 points"),
    ('"Round 1"', '"Frühling"', ":2: F3 title"), ("05-02T", "11-31T", ":3: F5: There is no 31 November 2026."),
    ("T09:00:00Z", "T24:00:00Z", ":3: F5: There is no time 24:00:00."),
]
# A start of another version lacks its zone too.
NOT_ALONE = "version = 1"
# What `check` tells of a list and of sheets with more than one fault: line, code and field of each.
ALL = [
    ("all.csv", """name,key,roles
dora,dora-key-1,director
Bob,,author
rex,,judge
eve,,entrant+director
fay,short,entrant
"gus",,"entrant"
dora,,entrant
,,
hal,,entrant,
ivy,dora-key-1,entrant
""", [(3, "F3", "name"), (4, "F3", "roles"), (5, "20", None), (6, "F3", "key"), (8, "F4", None), (9, "F2", "name"),
      (10, "F1", None), (11, "F4", None)], 5),
    ("head.csv", "Name,Key,Roles\nbob,bob-key-1,author\nrex,,judge\n", [(1, "F1", None), (3, "F3", "roles")], 1),
    ("all.toml", """version = 2
title = “Noon”
start = "2026-02-30T11:00:00"
zone = "Europe/Berlin"
minutes = "60"
protest_minutes = 30
mode = instant
penality = 5
[[puzzle]]
author = "bob"
label = "first"
points = 4000
[[puzzle]]
author = "Bob"
points = 30
[[puzzle]]
author = "bob"
label = "first"
points = 30
""", [(None, "F2", "bonus"), (2, "F1", None), (3, "F5", None), (4, "F8", "zone"), (5, "F2", "minutes"), (7, "F1", None),
      (8, "F1", None), (12, "F3", "points"), (13, "F2", "label"), (14, "F3", "author"), (16, "F4", None)], 0),
    ("testers.toml", """version = 3
title = "Noon"
start = "2026-02-28T11:00:00"
zone = "UTC0"
minutes = 0
protest_minutes = 30
mode = "sealed"
penalty = 5
bonus = 2
testers = [
  "rex",
  "rex",
]
""", [(None, "F2", "puzzle"), (5, "F3", "minutes"), (10, "F4", None)], 0),
    ("open.toml", """version = 3
title = "Noon [1 ü"
start = "2026-02-28T25:00:00"
zone = "UTC0"
minutes = 60
protest_minutes = 30
mode = "sealed"
penalty = 5
bonus = 2
testers = ["rex", "tom"
[[puzzle]]
author = "bob"
label = "first"
points = 0
""", [(2, "F3", "title"), (3, "F5", None), (10, "F1", None), (14, "F3", "points")], 0),
    ("many.csv", "name,key,roles\n" + "A,,author\n" * 43, [(n, "F3", "name") for n in range(2, 45)], 43),
]


# Files as spreadsheets and editors save them, and what `check` says is to be done.
LIST = "name,key,roles\nbob,bob-key-1,author\n"
SAVED = [
    ("semicolons.csv", LIST.replace(",", ";").encode(), "save it with commas"),
    ("tabs.csv", LIST.replace(",", "\t").encode(), "save it with commas"),
    ("sheet.xlsx", b"PK\3\4\24\0", "a spreadsheet's own file"), ("wide.csv", LIST.encode("utf-16"), "save it as UTF-8"),
    ("latin.csv", LIST.replace("bob,", "böb,").encode("latin-1"), "no text in UTF-8"), ("empty.csv", b"", "is empty"),
    ("keyless.csv", LIST.replace("bob-key-1", "").encode(), "which `hallctl keys` fills in"),
    ("commas.csv", f"{LIST},,\n".encode(), "commas alone"), ("capital.csv", LIST.replace("author", "Author").encode(),
                                                             "joined by +"),
    ("curly.toml", 'version = 2\ntitle = “Noon”\n'.encode(), "write plain ones"),
    ("zone.toml", b'version = 2\ntitle = "Noon"\nstart = "2026-05-02T09:00:00"\nzone = "Europe/Berlin"\n',
     "CET-1CEST"),
]


def wrong_files(day):
    """Faults are planted in a good list and a good sheet, and each is found on its line."""
    room = day.room.room
    people, sheet = Path(f"{room}/people.csv").read_text(encoding="ascii"), day.rounds[0].sheet()
    for good, name, changes in ((people, "wrong.csv", LISTS), (sheet, "wrong.toml", SHEETS)):
        for old, new, begins in changes:
            Path(f"{room}/{name}").write_text(good.replace(old, new, 1), encoding="utf-8")
            got = day.run(None, "check", name, status=1, has=[f"{name}{begins}"])[1]
            day.check(f"faults beside {begins}", got.count(f"{name}:") - 1, old == NOT_ALONE)
    day.run(None, "check", "none.csv", status=2, has=["No such file"])
    day.run(None, "check", "wrong.csv", "--program", f"{room}/nothing", status=3, has=["isn't found"])
    Path(f"{room}/wrong.csv").write_text("name,key\nbob,\n", encoding="ascii")
    day.run(None, "keys", "wrong.csv", status=2, has=["hallctl check wrong.csv"])
    saved(day)
    slips(day)
    all_faults(day)


def all_faults(day):
    """Each fault of a file that has several is told, on its line."""
    for name, text, faults, keyless in ALL:
        Path(f"{day.room.room}/{name}").write_text(text, encoding="utf-8")
        got = day.data(None, "check", name, status=1)
        told = [(it["line"], it["code"], it["field"]) for it in got["faults"]]
        day.check(f"the faults of {name}", [told, got["keyless"]], [faults, keyless])
    told = ["many.csv:41: F3 name", "and 3 more faults", "43 people have no key"]
    day.run(None, "check", "many.csv", status=1, has=told)
    told = "keyless.csv: 1 person has no key yet, which `hallctl keys` fills in; all else is well\n"
    day.check("what is told of keys alone", day.run(None, "check", "keyless.csv", status=1)[1], told)


def saved(day):
    """What spreadsheets and editors make of a list or a sheet, and how it is told."""
    room = day.room.room
    for name, content, told in SAVED:
        Path(f"{room}/{name}").write_bytes(content)
        day.run(None, "check", name, status=1, has=[told])
    for name, told in (("semicolons.csv", "hallctl check semicolons.csv"), ("keyless.csv", "hallctl keys keyless.csv")):
        got = day.run("dora", "people", "add", name, status=2, has=[told])
        day.check(f"the body of {name}", "JSON" in got[2], False)
    day.run(None, "keys", "latin.csv", status=2, has=["latin.csv is no text in UTF-8"])
    Path(f"{room}/marked.csv").write_bytes(b"\xef\xbb\xbfname,key,roles\r\nbob,,author\r\n,,\r\n")
    day.run(None, "keys", "marked.csv", has=["1 of 1 person got a new key"])
    day.run(None, "check", "marked.csv", has=["is an entry list, of 1 line"])


def slips(day):
    """Keys are made, and slips printed, for no list that the hall refuses; and a slip says where the hall is."""
    path = Path(f"{day.room.room}/slips.csv")
    without = ["--program", f"{day.room.room}/nothing"]
    for row, words, told in (("Tom,,referee", [], ":3: F3 name"), ("tom,,judge", [], ":3: F3 roles"),
                             ("Tom,,referee", without, ":3: F3 name"), ("bob,,referee", [], ":3: F4")):
        text = f"name,key,roles\nbob,,author\n{row}\n"
        path.write_text(text, encoding="ascii")
        output = day.run(None, "keys", "slips.csv", *words, status=2, has=[f"slips.csv{told}", "No key was made"])[1]
        day.check(f"slips and list of {row}", [output, path.read_text(encoding="ascii")], ["", text])
    for words, has in (([], "Hall:  http"), (["--url", ""], "the slips lack the hall's address"),
                       (without, "the names alone are looked at")):
        path.write_text("name,key,roles\ntom,,referee\n", encoding="ascii")
        told = ["1 of 1 person got a new key", "; 1 slip\n", "Name:  tom    (referee)", has]
        day.run(None, "keys", *words, "slips.csv", has=told)


def retries(day):
    """What a proxy refuses, and replies that are lost, are sent again; what the hall refuses isn't."""
    plan, author = day.room.between.plan, "author-1"
    soon = b"Retry-After: 0\r\n"
    plan += [answered(429, b"Too Many Requests", b'{"fault":"proxy"}', soon),
             answered(502, b"Bad Gateway", b"<html>", soon),
             answered(504, b"Gateway Timeout", b'{"fault":"proxy"}', soon),
             answered(408, b"Request Timeout", b"", soon),
             answered(503, b"Service Unavailable", b'{"fault":"hall"}', soon)]
    beside = day.run(author, "puzzle", "put", f"{author}/again", SUDOKU, has=["is new"])[2]
    day.check("sent again after a proxy's replies", [beside.count("sent again"), plan], [5, []])
    plan += [answered(413, b"Payload Too Large", b"<html>")]
    day.run(author, "puzzle", "put", f"{author}/again", SUDOKU, status=2, has=["status 413"])
    plan += ["drop"]
    day.run(author, "puzzle", "certify", f"{author}/again", has=["again: one", "no reply"])
    # A machine that takes the request and never answers is left, while it still holds it.
    plan += ["hold"]
    beside = day.run(author, "puzzle", "put", f"{author}/again", SUDOKU, has=["again is one"])[2]
    day.check("sent again where nobody answers", [beside.count("no reply (TimeoutError)"), plan], [1, []])
    # A release is not the same twice: the hall denies the second, and hallctl sees that the first was done.
    puzzle = f'[[puzzle]]\nauthor = "{author}"\nlabel = "again"\npoints = 1\n'
    sheet = day.rounds[0].sheet().split("[[puzzle]]")[0].replace("2026-05-02", "2026-06-02") + puzzle
    Path(f"{day.room.room}/again.toml").write_text(sheet, encoding="ascii")
    day.run("dora", "round", "put", "again", "again.toml")
    plan += ["pass", "pass", "drop"]
    release = ["--yes", "round", "release", "again", "--sheet", "again.toml"]
    day.run("dora", *release, has=["again is released", "no reply"])
    day.run("dora", *release, status=2, has=["denied 13"])
    plan += [answered(403, b"Forbidden", b'{"fault":"proxy"}')]
    day.run(author, "puzzle", "certify", f"{author}/again", status=2, has=["the proxy doesn't let this address"])
    late(day)
    nobody(day)
    strangers(day)


def strangers(day):
    """What answers in a hall's place, and addresses that say nothing of how they are asked."""
    plan, page = day.room.between.plan, b"Content-Type: text/html\r\n"
    plan += [answered(200, b"OK", b"<h1>Log in</h1>", page)]
    day.run("dora", "round", "list", status=3, has=["the answer isn't a hall's"])
    plan += [answered(301, b"Moved", b"", b"Location: https://elsewhere.example/\r\n")]
    day.run("dora", "round", "list", status=3, has=["leads to https://elsewhere.example/"])
    plan += [answered(404, b"Not Found", b"<html>", page)]
    day.run("dora", "round", "list", status=2, has=["the answer isn't a hall's"])
    day.run("dora", "round", "list", url=day.room.between.url().removeprefix("http://"), has=["start here"])
    silent = {"status": 3, "url": "no-such-name.invalid"}
    day.run("dora", "--patience", "0", "round", "list", **silent, has=["https://no-such-name.invalid doesn't answer"])
    silent["url"] = f"http://{silent['url']}"
    day.run("dora", "--patience", "0", "round", "list", **silent, has=["can read your key"])
    plan += [answered(503, b"Service Unavailable", b'{"fault":"hall"}')]
    day.run("dora", "--patience", "0", "round", "list", status=3, has=["its disk or its memory is full"])


def late(day):
    """A puzzle that another round has, and a start that has come."""
    room = day.room
    sheet = Path(f"{room.room}/again.toml").read_text(encoding="ascii")
    Path(f"{room.room}/late.toml").write_text(sheet.replace("2026-06-02", "2026-04-02"), encoding="ascii")
    day.run("dora", "round", "put", "late", "late.toml", has=["can't be released"])
    told = ["denied 11", "number 1 stand in the released round again"]
    day.run("dora", "--yes", "round", "release", "late", status=2, has=told)
    day.run("dora", "round", "put", "again", "late.toml", status=2, has=["denied 13"])


def nobody(day):
    """Where nobody answers, and where words are wrong."""
    day.run("dora", "--patience", "0", "round", "list", url="http://127.0.0.1:1", status=3, has=["doesn't answer"])
    day.run("dora", "round", "list", url="ftp://hall", status=2, has=["no address of a hall"])
    day.run(None, "round", "list", status=64, has=["whose key?"])
    day.run("dora", "round", "lost", status=64, has=["invalid choice"])
    day.run("dora", status=64)
    day.run("dora", "rule", "r1", "entrant-1", "t", "perhaps", status=64)
    Path(f"{day.room.room}/wrong.key").write_text("käse\n", encoding="utf-8")
    day.run("wrong", "round", "list", status=2, has=["is no key", "chmod 600"])
    for name, content, status in (("slip", "Name:  dora\nKey:   dora-key-1\n", 2), ("none", "", 2),
                                  ("marked", f"\ufeff{day.keys['dora']}\r\n", 0)):
        path = Path(f"{day.room.room}/{name}.key")
        path.write_text(content, encoding="utf-8")
        path.chmod(0o600)
        day.run(name, "round", "list", status=status, has=["is no key"] if status else ["start here"])


EASY = "53..7....6..195....98....6.8...6...34..8.3..17...2...6.6....28....419..5....8..79"
EASY_TEXT = "sudoku/9/9/53h7j6h195j98j6g8i6i34h8g3h17i2i6g6j28j419h5j8h79"
SIGNS = "81 signs were read as a Sudoku of 9 by 9"
# Texts in a file or as a word, what the hall makes of them, and what is told to be mended.
WRITTEN = [
    (f"@{SUDOKU}\n", SUDOKU, []), (f"@\ufeff{SUDOKU}\r\n", SUDOKU, []),
    (f"@{SUDOKU}\n\n", SUDOKU, ["spaces or marks round the address were taken off"]),
    (EASY, EASY_TEXT, [SIGNS]), (EASY.replace(".", "0"), EASY_TEXT, [SIGNS]),
    ("@" + "\n".join(EASY[at:at + 9] for at in range(0, 81, 9)) + "\n", EASY_TEXT, [SIGNS]),
    ("1.........3....2", "sudoku/4/4/1o3j2", ["16 signs were read as a Sudoku of 4 by 4"]),
]


def written(day):
    """What is put as signs or in a file, and what is told to be mended."""
    author = "author-3"
    for given, text, told in WRITTEN:
        Path(f"{day.room.room}/text").write_text(given.removeprefix("@"), encoding="utf-8")
        got = day.data(author, "puzzle", "put", f"{author}/written", "@text" if given.startswith("@") else given)
        day.check(f"what {given!r} is", [got["text"], got["mended"]], [text, told])
    for signs in (EASY[1:], EASY[1:] + "x", "1.........5....2"):
        day.run(author, "puzzle", "put", f"{author}/written", signs, status=2, has=["refused E2"])


def puzzles_refused(day):
    """Texts that are none, puzzles of others, and searches that don't say one."""
    author = "author-2"
    day.run(author, "puzzle", "put", f"{author}/bad", "sudoku/4/4/5u", status=2, has=["refused E7 at place 0"])
    day.run(author, "puzzle", "put", f"{author}/bad", "sudoku/5/5/g", status=2, has=["refused E4", "side 4, 6, 9"])
    day.run(author, "puzzle", "put", f"{author}/bad", "tatami/5/5", status=2, has=["refused E2", "nurikabe"])
    told = ["entrant-1 is no person with the role author"]
    day.run("dora", "puzzle", "put", "entrant-1/p", SUDOKU, status=2, has=told)
    day.run(author, "puzzle", "put", f"{author}/BAD", SUDOKU, status=2, has=["refused F6"])
    day.run(author, "puzzle", "put", "bad", SUDOKU, status=2, has=["write AUTHOR/LABEL"])
    day.run(author, "puzzle", "put", "author-1/own", SUDOKU, status=2, has=["denied 3"])
    day.run(author, "puzzle", "put", f"{author}/many", "-", said="HTTPS://puzz.link/p?sudoku_edit/v:/4/4/v \n",
            has=["mended: the flag v:", "mended: the word sudoku_edit", "many is new: sudoku/4/4/v"])
    day.run(author, "puzzle", "certify", f"{author}/many", status=1, has=["many: more", "add a clue"])
    day.run(author, "puzzle", "put", f"{author}/hard", MANY)
    told = ["gave up", "hall solve --budget 1000000"]
    day.run(author, "puzzle", "certify", f"{author}/hard", "--budget", "1", status=1, has=told)
    told = ["denied 4", f"{author}/none-there wasn't certified"]
    day.run(author, "puzzle", "certify", f"{author}/none-there", status=2, has=told)
    day.run(author, "puzzle", "show", "author-1/r1-1", status=2, has=["denied 3"])
    day.run("entrant-1", "puzzle", "list", status=2, has=["denied 2", "who has the role"])
    day.run("dora", "puzzle", "put", "author-1/r1-1", MANY, status=2, has=["denied 11", "under a new label"])


def rounds_refused(day):
    """Sheets and drafts that can't be put or released."""
    room = day.room
    sheet = day.rounds[0].sheet()
    for name, old, new in (("missing", "r1-2", "nowhere"), ("bad", "penalty", "penality"),
                           ("lacking", 'author-2"\nlabel = "r1-2', 'author-2"\nlabel = "many')):
        Path(f"{room.room}/{name}.toml").write_text(sheet.replace(old, new), encoding="ascii")
    told = ["denied 4", "where a round is put, a puzzle of the sheet isn't there", "no puzzle author-2/nowhere"]
    day.run("dora", "round", "put", "x1", "missing.toml", status=2, has=told)
    day.run("dora", "round", "put", "x1", "bad.toml", status=2, has=["refused F1", "hallctl check bad.toml"])
    beside = day.run("dora", "round", "put", "X1", "lacking.toml", status=2, has=["refused F6"])[2]
    day.check("the sheet isn't looked at for a wrong id", "hallctl check" in beside, False)
    told = ["number 2, author-2/many, isn't ready", "testers none"]
    day.run("dora", "round", "put", "x1", "lacking.toml", has=told)
    for words in ([], ["--sheet", "lacking.toml"]):
        day.run("dora", "--yes", "round", "release", "x1", *words, status=1, has=["more", "see to these puzzles first"])
    day.run("dora", "--yes", "round", "release", "x1", "--sheet", "again.toml", status=2, has=["put the sheet first"])
    day.run("rex", "round", "put", "x1", "lacking.toml", status=2, has=["denied 2"])
    day.run("dora", "round", "show", "x9", status=2, has=["denied 4", "hallctl round list"])
    day.run("entrant-1", "round", "show", "r1", status=2, has=["denied 7"])
    if len(day.rounds) > 2:
        shown = day.run("tom", "round", "show", "r3", has=["Round 3"])[1]
        day.check("a referee isn't told whose puzzles they are", "author-" in shown, False)


def refusals(day):
    """What the hall denies before and after its time, each with its sentence and what to do."""
    room = day.room
    written(day)
    puzzles_refused(day)
    rounds_refused(day)
    Path(f"{room.room}/other.csv").write_text(f"name,key,roles\nrex,{day.keys['rex']},director\n", encoding="ascii")
    day.run("dora", "people", "add", "other.csv", status=2, has=["denied 20", "keeps its key"])
    day.run("rex", "people", "add", "people.csv", status=2, has=["denied 2"])
    day.check("denied in JSON", day.data("rex", "people", "add", "people.csv", status=2), {"denied": 2})
    day.run("dora", "--yes", "publish", "r1", status=2, has=["denied 9"])
    day.run(None, "table", "r1", status=2, has=["denied 15"])
    day.run(None, "ranking", "r1", "r2", status=2, has=["denied 15", "there is no table of r1"])
    day.run(None, "ranking", "r1", "r1", status=2, has=["r1 is named twice"])
    day.run("author-1", "answers", "x1", status=2, has=["denied 2"])
    day.run("dora", "answers", "x1", status=2, has=["denied 4"])
    day.run("dora", "protests", "x9", status=2, has=["denied 4"])
    rulings_refused(day)


def rulings_refused(day):
    """A round of its own, with one answer and one protest: who may rule, and how often."""
    room, start = day.room, FIRST + 31 * 86_400
    room.at(start)
    key = day.keys["rae"]
    room.ask(key, "PUT", "/rounds/again/answers/1/a", compact({"answer": "1234341221434321"}))
    room.at(start + 3600)
    room.ask(key, "PUT", "/rounds/again/protests/p", compact({"number": 1, "text": "too small"}))
    rule = ["rule", "again", "rae", "p"]
    day.run("rae", "--yes", *rule, "rejected", status=2, has=["denied 17", "Another referee"])
    day.run("rex", "--yes", *rule, "rejected", "--points", "3", status=2, has=["has no points"])
    day.run("rex", "--yes", *rule, "upheld", "--points", "2000", status=2, has=["refused F3 points"])
    day.run("dora", "--yes", *rule, "rejected", status=2, has=["denied 2"])
    day.run("rex", "--yes", "rule", "again", "rae", "q", "rejected", status=2, has=["denied 4"])
    day.run("rex", *rule, "rejected", said="", status=1, has=["too small", "ruled once", "Nothing was done"])
    room.at(start + 5400)
    day.run("dora", "--yes", "publish", "again", status=2, has=["denied 16", "open 1"])
    day.run("rex", *rule, "upheld", "--points", "-1", said="yes\n", has=["ruled upheld, -1 points"])
    day.run("rex", "--yes", *rule, "upheld", "--points", "-1", has=["ruled upheld"])
    day.run("rex", "--yes", *rule, "rejected", status=2, has=["denied 18", "A ruling is given once"])
    day.room.between.plan += ["pass", "pass", "drop"]
    day.run("dora", "--yes", "publish", "again", has=["again is published", "no reply"])
    day.run("dora", "--yes", "publish", "again", status=2, has=["denied 15"])
    day.run(None, "table", "again", "--csv", has=["1,rae,"])
    room.at(FIRST - 3600)
