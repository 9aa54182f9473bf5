"""A championship day with hallctl alone, over the built program as a server whose clock is set: 8 rounds, 30 puzzles,
40 entrants, 58 protests.

The hall is killed and started again in the midst of it, replies are lost, and a proxy refuses. Each table is compared
with the totals that the listings give. Each command of hallctl is run, and its refusals.
"""
import json
import os
import random
import subprocess
from pathlib import Path

from . import checks, staff_day
from .running import PATIENCE, with_people
from .staff_day import AUTHORS, FIRST
from .staff_refusals import refusals, retries, wrong_files
from .staff_room import Room
from .wire import compact


class Day:
    """The day as it goes: the room, the keys, and so many of its rounds."""

    def __init__(self, room, program, count=None):
        self.room, self.keys, self.sent = Room(room, program), {}, 0
        self.rounds = list(staff_day.rounds())[:count]
        self.chance = random.Random(54)

    def check(self, name, got, want):
        """Sees whether something is as wanted."""
        checks.check(name, got, want)

    def holds(self, name, text, *parts):
        """Sees whether a text has these parts."""
        self.check(name, [it for it in parts if it not in text] and f"{text!r} without {parts}", [])

    def run(self, who, *words, status=0, has=(), **how):
        """Runs a command, and sees its status and what it wrote."""
        got = self.room.hallctl(who, *words, **how)
        name = f"hallctl {' '.join(words)}"
        self.check(f"{name}, its status", (got[0], got[2] if got[0] != status else ""), (status, ""))
        self.holds(name, got[1] + got[2], *has)
        return got

    def data(self, who, *words, **how):
        """What a command writes in JSON."""
        return json.loads(self.run(who, "--json", *words, **how)[1])


def people(day):
    """Keys are made for all, the director's alone are imported by the program, the others by hallctl."""
    room = day.room
    path = f"{room.room}/people.csv"
    Path(path).write_text(staff_day.people_list(), encoding="ascii")
    made = day.data(None, "keys", "people.csv")
    day.keys = staff_day.keys_of(path)
    day.check("new keys", [len(made), len(set(day.keys.values())), os.stat(path).st_mode & 0o777], [49, 49, 0o600])
    day.check("keys once more", [day.data(None, "keys", "people.csv"), staff_day.keys_of(path)], [[], day.keys])
    day.run(None, "keys", "--all", "people.csv", has=["Name:  entrant-40    (entrant)", f"Key:   {day.keys['tom']}"])
    for name, key in day.keys.items():
        room.key_file(name, key)
    Path(f"{room.room}/first.csv").write_text(f"name,key,roles\ndora,{day.keys['dora']},director\n", encoding="ascii")
    with_people(room.program, f"{room.room}/hall.db", f"{room.room}/first.csv")
    room.at(FIRST - 86_400)
    room.start()
    day.run(None, "check", "people.csv", has=["is an entry list"])
    day.run("dora", "people", "add", "people.csv", has=["added 48"])
    day.check("people once more", day.data("dora", "people", "add", "people.csv"), {"added": 0})
    crowd = "".join(f"crowd-{n},crowd-key-{n:012},entrant\n" for n in range(2000))
    Path(f"{room.room}/crowd.csv").write_text(f"name,key,roles\n{crowd}", encoding="ascii")
    day.run("dora", "people", "add", "crowd.csv", has=["in 2 parts", "added 2000"])


def puzzles(day):
    """Each author puts their puzzles, one of them by an address as a browser shows it, and certifies them."""
    for of in day.rounds:
        for at, (author, label, text, *_) in enumerate(of.puzzles):
            shown = f" https://puzz.link/p?{text.replace('slither', 'slitherlink')}&lang=ja " if at == 0 else text
            got = day.data(author, "puzzle", "put", f"{author}/{label}", shown)
            day.check(f"{author}/{label} is put", [got["state"], bool(got["mended"])], ["new", at == 0])
    lacking = day.data("dora", "puzzle", "list", "--lacking")
    day.check("puzzles without a certificate", len(lacking), sum(of.count for of in day.rounds))
    for author in AUTHORS:
        own = [f"{author}/{it[1]}" for of in day.rounds for it in of.puzzles if it[0] == author]
        day.check(f"{author}'s certificates", day.data(author, "puzzle", "certify", *own), dict.fromkeys(own, "one"))
    day.check("puzzles without a certificate", day.data("dora", "puzzle", "list", "--lacking"), [])
    shown = day.run(AUTHORS[0], "puzzle", "show", f"{AUTHORS[0]}/r1-1")[1]
    day.holds("puzzle show", shown, "state one: there is exactly one solution", "\n+")
    day.check("no address in it", "http" in shown, False)
    day.run("dora", "puzzle", "list", "--csv", has=["author,label,state\nauthor-1,r1-1,one\n"])


def releases(day):
    """The director drafts all rounds, sees to what one of them lacks, and releases them."""
    for of in day.rounds:
        Path(f"{day.room.room}/{of.id}.toml").write_text(of.sheet(), encoding="ascii")
        if of.number < 3:
            day.run(None, "check", f"{of.id}.toml", has=["is a round sheet", f"{of.count} puzzles"])
        day.run("dora", "round", "put", of.id, f"{of.id}.toml", has=[f"{of.id} is a draft: Round {of.number + 1}"])
    edited(day)
    got = day.run("dora", "round", "release", "r1", said="n\n", status=1)
    day.holds("a release is asked for", got[1] + got[2], "2026-05-02 09:00:00 UTC", "Sat 2026-05-02 11:00:00 CEST",
              "in 23 h 59 min", "stopped or taken back", "Nothing was done")
    day.run("dora", "round", "release", "r1", said="y\n", has=["r1 is released", "author-1/r1-1"])
    for of in day.rounds[1:]:
        day.run("dora", "--yes", "round", "release", of.id, "--sheet", f"{of.id}.toml", has=[f"{of.id} is released"])
    listed = day.data("entrant-1", "round", "list")
    day.check("released rounds", [it["id"] for it in listed], ["again", *[of.id for of in day.rounds]])
    day.run("dora", "round", "list", has=["to come", day.rounds[-1].id])


def edited(day):
    """A draft's sheet is written anew, and makes the same draft."""
    data = day.data("dora", "round", "show", "r1")
    day.check("r1's puzzles", [it["puzzle"] for it in data["puzzles"]],
              ["/".join(it[:2]) for it in day.rounds[0].puzzles])
    told = ["testers", "in UTC", "edited.toml is the sheet of r1"]
    beside = day.run("dora", "round", "edit", "r1", "edited.toml", has=told)[2]
    day.check("a draft isn't released", "is released" in beside, False)
    day.run("dora", "round", "edit", "r1", "edited.toml", status=2, has=["is there already"])
    day.run("dora", "round", "put", "edited", "edited.toml")
    day.check("the draft of it", day.data("dora", "round", "show", "edited"), {**data, "id": "edited"})
    day.run("dora", "round", "edit", "again", "released.toml", has=["again is released"])


def play(day, of):
    """The entrants answer. In the fourth round the hall is killed in the midst of an answer, and started again."""
    room, sent = day.room, staff_day.answers(of, day.chance)
    counts = {}
    for place, (moment, entrant, number, token, text) in enumerate(sent):
        room.at(moment)
        asked = (day.keys[entrant], "PUT", f"/rounds/{of.id}/answers/{number}/{token}", compact({"answer": text}))
        if of.number == 3 and place % 40 == 20:
            room.send_alone(*asked)
            room.kill()
            room.start()
        status, body = room.ask(*asked)
        counts[entrant, number] = counts.get((entrant, number), 0) + 1
        if status != 200 or json.loads(body)["received"] != counts[entrant, number]:
            day.check(f"{of.id}, {entrant}'s answer {token}", (status, body), (200, counts[entrant, number]))
    day.sent += len(sent)
    told = day.data("dora", "answers", of.id, "--texts")
    day.check(f"{of.id}, {len(sent)} answers", len(told), len(sent))
    day.check(f"{of.id}, answers of each", day.data("dora", "answers", of.id), staff_day.tallies(told))
    if of.number == 0:
        day.run("dora", "answers", of.id, has=[f"{len(sent)} answers of ", "entrant-1 ", "r right, w wrong"])
        day.run("dora", "answers", of.id, "--csv", has=["entrant,number,right,wrong,untold,first,last\nentrant-1,"])


def protest(day, of):
    """The entrants protest, and the referees rule: where the hall is down, hallctl waits for it."""
    room, listed = day.room, list(staff_day.protests(of, day.chance))
    room.at(of.end)
    for entrant, token, number, text, *_ in listed:
        body = compact({"number": number, "text": text})
        status, told = room.ask(day.keys[entrant], "PUT", f"/rounds/{of.id}/protests/{token}", body)
        day.check(f"{of.id}, {entrant} protests", (status, told), (200, compact({"protest": token})))
    day.check(f"{of.id}, open protests", len(day.data("rex", "protests", of.id, "--open")), of.protests)
    for place, (entrant, token, _, text, upheld, points) in enumerate(listed):
        words = ["upheld", "--points", str(points)] if upheld else ["rejected"]
        words = ["--yes", "rule", of.id, entrant, token, *words]
        if of.number in (1, 5) and place == 2:
            room.kill()
            room.between.was_down.clear()
            with room.begin("rex", *words) as it:
                room.between.was_down.wait(PATIENCE)
                room.start()
                written = it.communicate(timeout=PATIENCE)
            waited = it.returncode, "sent again" in written[1]
            day.check(f"{of.id}, a ruling while the hall is down", waited, (0, True))
        else:
            day.run("rex", *words, has=[text, f"ruled {'upheld' if upheld else 'rejected'}, {points} point"])
    day.check(f"{of.id}, open protests", day.data("dora", "protests", of.id, "--open"), [])


def publish(day, of):
    """The director publishes, and the table is what the listings give."""
    day.room.at(of.close)
    day.run("dora", "publish", of.id, said="y\n", has=[f"{of.id} is published", "open 0"])
    data, rows = day.data("dora", "round", "show", of.id), day.data("dora", "answers", of.id, "--texts")
    wanted = staff_day.reckoned(data, rows, day.data("dora", "protests", of.id))
    day.check(f"the table of {of.id}", day.data(None, "table", of.id), wanted)
    text = day.run(None, "table", of.id)[1]
    lines = "".join(f"{it['rank']:4} {it['name']:24} {it['total']:8}\n" for it in wanted)
    day.check(f"the lines of {of.id}", text, lines)
    return {it["name"]: it["total"] for it in wanted}


def ranking(day, totals):
    """The sums of all tables, with the spoken names of some."""
    names = [of.id for of in day.rounds]
    sums = {who: sum(of.get(who, 0) for of in totals) for who in {who for of in totals for who in of}}
    got = day.data(None, "ranking", *names)
    ranks = [{name: it[name] for name in ("rank", "name", "total")} for it in got]
    day.check("the ranking", ranks, staff_day.ranked(sums))
    day.check("the rounds of the ranking", [[it[name] for name in names] for it in got],
              [[of.get(it["name"], "") for of in totals] for it in got])
    spoken = "name,spoken,country\nentrant-1,Žofie Nováková,CZ\n"
    Path(f"{day.room.room}/names.csv").write_text(spoken, encoding="utf-8")
    text = day.run(None, "ranking", *names, "--names", "names.csv", "--csv")[1]
    day.holds("the ranking with names", text, "rank,name,spoken,country,r1,", "entrant-1,Žofie Nováková,CZ,")
    day.run(None, "ranking", *names, "--names", "names.csv", has=["names.csv has no line for entrant-10, entrant-11"])
    Path(f"{day.room.room}/names.csv").write_text(spoken.replace(",", ";"), encoding="utf-8")
    day.run(None, "ranking", *names, "--names", "names.csv", status=2, has=["is to be name,spoken,country"])


def archive(day):
    """The archive is whole, and holds no key."""
    left_out = "again has no solutions yet: denied 9"
    day.run("dora", "archive", "day", has=[f"rounds {4 + len(day.rounds)}", "keys are nowhere in it", left_out])
    folder = Path(f"{day.room.room}/day")
    words = ["sha256sum", "--check", "--quiet", "SHA256SUMS"]
    sums = subprocess.run(words, cwd=folder, capture_output=True, check=False)
    day.check("the checksums of the archive", (sums.returncode, sums.stdout), (0, b""))
    text = "".join(it.read_text(encoding="utf-8") for it in folder.rglob("*") if it.is_file())
    day.check("keys in the archive", [name for name, key in day.keys.items() if key in text], [])
    answers = json.loads((folder / "r1/answers.json").read_text(encoding="utf-8"))
    day.check("the archive's answers", answers, day.data("dora", "answers", "r1", "--texts"))
    table = (folder / "r1/table.txt").read_text(encoding="ascii")
    day.check("the archive's table", table, day.run(None, "table", "r1")[1])
    day.run("dora", "archive", "day", status=2, has=["isn't empty"])


def the_day(day):
    """The whole day."""
    people(day)
    wrong_files(day)
    puzzles(day)
    retries(day)
    releases(day)
    refusals(day)
    totals = []
    for of in day.rounds:
        play(day, of)
        protest(day, of)
        totals.append(publish(day, of))
    ranking(day, totals)
    archive(day)
