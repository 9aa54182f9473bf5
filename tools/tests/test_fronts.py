"""The entry list and the sheets of examples/, cut short at each byte and with each left out.

What is wanted is computed here, by Python's own readers of CSV and TOML and the rules of docs/USING.md. Each list is
imported into a new file, begins a replay, and is sent by a director where it is refused; each sheet is put, and the
round read.
"""
import csv
import datetime
import io
import re
import tomllib
from pathlib import Path

import pytest
from harness.rows import Program, Row, Table, ask_lists, ask_sheets
from harness.running import ROOT

NAME, KEY, TITLE = (re.compile(it, re.A) for it in (r"[a-z0-9-]{1,24}", r"[A-Za-z0-9-]{8,64}", r"[ -~]{1,60}"))
ROLES = ["director", "author", "referee", "entrant"]
START = r"(\d{4})-(\d\d)-(\d\d)T([01]\d|2[0-3]):([0-5]\d):([0-5]\d)"
OFFSET = r"(Z|[+-]([01]\d|2[0-3]):[0-5]\d)"
ZONE = "CET-1CEST,M3.5.0,M10.5.0/3"
# People who may test a round, and the puzzles that are there.
TESTERS = ["ada", "eve", "fay", "rex"]
SHEETS = [f"sheets/{name}.toml" for name in ("morning", "summer", "tested")]
SHEETS += [f"requests/{name}.toml" for name in ("late", "uncertain", "noon")]
V = b"sudoku/4/4/v"
PUT_V = [b"1", b"bob-key-1", b"PUT /puzzles/bob/v", b'{"text":"%s"}' % V, b"200", b'{"state":"new","text":"%s"}' % V]


class Refused(Exception):
    """The code, and the field where there is one."""


def of_person(row, people):
    """A line's person: its fields are counted, then none may be empty, then each is of its form, then name and key are
    new."""
    if len(row) != 3:
        raise Refused("F1")
    for field, cell in zip(("name", "key", "roles"), row):
        if not cell:
            raise Refused(f"F2 {field}")
    name, key, roles = row
    words = roles.split("+")
    are_roles = set(words) <= set(ROLES) and len(set(words)) == len(words)
    for field, is_whole in [("name", NAME.fullmatch(name)), ("key", KEY.fullmatch(key)), ("roles", are_roles)]:
        if not is_whole:
            raise Refused(f"F3 {field}")
    if any(name == other[0] or key == other[1] for other in people):
        raise Refused("F4")
    return name, key, "+".join(role for role in ROLES if role in words)


def people_of(content):
    """What is told of a list: the people, or why it is refused or denied."""
    rows = [row for row in csv.reader(io.StringIO(content.decode("ascii"), newline=""), strict=True) if row]
    people = []
    try:
        if not rows or rows[0] != ["name", "key", "roles"]:
            raise Refused("F1")
        for row in rows[1:]:
            people.append(of_person(row, people))
    except Refused as fault:
        return str(fault)
    if any("director" in roles and "entrant" in roles for *_, roles in people):
        return "denied 20"
    return "; ".join(" ".join(person) for person in people) or "nobody"


class Sheet:
    """A sheet's fields, read in the order in which they are asked."""

    def __init__(self, fields):
        self.fields = fields
        self.version = fields.get("version") if self.is_number("version") and fields["version"] in (1, 2, 3) else 1

    def is_number(self, name):
        return type(self.fields.get(name)) is int

    def names(self):
        first = ["version", "title", "start", "minutes", "protest_minutes", "mode", "penalty", "bonus", "puzzle"]
        return first + ["zone"] * (self.version > 1) + ["testers"] * (self.version > 2)

    def read(self):
        """What the round tells, or the fault."""
        places = self.fields.get("puzzle")
        inner = [it for it in places if isinstance(it, dict)] if isinstance(places, list) else []
        if set(self.fields) - set(self.names()) or any(set(it) - {"author", "label", "points"} for it in inner):
            raise Refused("F1")
        self.number("version", 1, 3)
        told = {
            "title": self.text("title", TITLE),
            "start": self.start(),
            "minutes": self.number("minutes", 1, 1_440),
            "protest_minutes": self.number("protest_minutes", 0, 10_080),
            "mode": self.text("mode", re.compile("instant|sealed")),
            "penalty": self.number("penalty", 0, 1_000),
            "bonus": self.number("bonus", 0, 1_000),
        }
        testers = self.testers() if self.version > 2 else []
        return testers, self.puzzles(), told

    def number(self, name, least, most, of=None):
        value = (of or self.fields).get(name)
        if type(value) is not int:
            raise Refused(f"F2 {name}")
        if not least <= value <= most:
            raise Refused(f"F3 {name}")
        return value

    def text(self, name, form, of=None):
        value = (of or self.fields).get(name)
        if not isinstance(value, str):
            raise Refused(f"F2 {name}")
        if not form.fullmatch(value):
            raise Refused(f"F3 {name}")
        return value

    def start(self):
        text = self.text("start", re.compile(".*", re.S))
        found = re.fullmatch(START + (OFFSET if self.version == 1 else ""), text, re.A)
        try:
            day = datetime.datetime(*map(int, found.groups()[:6]), tzinfo=datetime.timezone.utc) if found else None
        except ValueError:
            day = None
        if day is None:
            raise Refused("F5")
        moment = int(day.timestamp()) - (self.offset(found[7]) if self.version == 1 else self.zone(day))
        if not 0 <= moment <= 4_102_444_800:
            raise Refused("F3 start")
        return moment

    def offset(self, text):
        return 0 if text == "Z" else int(text[0] + "1") * (3600 * int(text[1:3]) + 60 * int(text[4:6]))

    def zone(self, day):
        """The offset in the one zone of these sheets, with summer time from the last Sunday of March at two o'clock to
        that of October at three."""
        if self.text("zone", re.compile("[ -~]{1,64}")) != ZONE:
            raise Refused("F8 zone")
        ends = [datetime.datetime(day.year, month, 31, hour, tzinfo=day.tzinfo) for month, hour in ((3, 2), (10, 3))]
        begins, ends = (it - datetime.timedelta(days=(it.weekday() + 1) % 7) for it in ends)
        # in the gap the offset before it, in the fold the first of the two
        return 7200 if begins + datetime.timedelta(hours=1) <= day < ends else 3600

    def testers(self):
        names = self.fields.get("testers")
        if not isinstance(names, list) or not all(isinstance(it, str) for it in names):
            raise Refused("F2 testers")
        if len(names) > 20 or not all(map(NAME.fullmatch, names)):
            raise Refused("F3 testers")
        if len(set(names)) < len(names):
            raise Refused("F4")
        return names

    def puzzles(self):
        places, found = self.fields.get("puzzle"), []
        if not isinstance(places, list) or not all(isinstance(it, dict) for it in places):
            raise Refused("F2 puzzle")
        if not 1 <= len(places) <= 40:
            raise Refused("F3 puzzle")
        for place in places:
            key = f"{self.text('author', NAME, place)}/{self.text('label', NAME, place)}"
            points = self.number("points", 1, 1_000, place)
            if any(key == other for other, _ in found):
                raise Refused("F4")
            found.append((key, points))
        return found


def round_of(content, texts):
    """What is told of a sheet where these puzzles are there."""
    try:
        testers, places, told = Sheet(tomllib.loads(content.decode("ascii"))).read()
    except tomllib.TOMLDecodeError:
        return "F1"
    except Refused as fault:
        return str(fault)
    if not set(testers) <= set(TESTERS) or not {key for key, _ in places} <= set(texts):
        return "denied 4"
    puzzles = ", ".join(f"{key} {points}" for key, points in places)
    return "; ".join(f"{field} {value}" for field, value in told.items()) + f"; puzzles {puzzles}"


class Cut:
    """As a table: a file cut short at each byte, and with each byte left out, and what is told then."""

    def __init__(self, name, told, before=()):
        self.rows, self.shown, self.before = [], [], list(before)
        whole = Path(ROOT, "examples", name).read_bytes()
        cuts = [(f"the first {size} bytes", whole[:size]) for size in range(len(whole) + 1)]
        for what, content in cuts + [(f"without byte {at}", whole[:at] + whole[at + 1 :]) for at in range(len(whole))]:
            row = Row(f"{name}, {what}", [])
            self.rows.append(row)
            self.shown.append((row, content, told(content)))

    def ordered(self, word):
        return {"told": ["usual"], "one": []}[word]

    def inputs(self):
        return self.shown


def is_asked(shown):
    """A zone with a byte left out may be one; examples/sheets/zones.rows has such."""
    _, content, told = shown
    return told != "F8 zone"


def asked(cut, ask, program, room):
    """Asks what is cut, but for what isn't asked."""
    cut.shown = list(filter(is_asked, cut.shown))
    ask(cut, Program(program, room))
    assert cut.shown


def test_list(program, room):
    asked(Cut("people.csv", people_of), ask_lists, program, room)


@pytest.mark.parametrize("name", SHEETS, ids=lambda it: it.partition("/")[2])
def test_sheet(name, program, room):
    before = [*Table(Path(ROOT, "examples/requests/puzzles.rows")).rows, Row("bob/v", PUT_V)]
    put = [row.cells[2].decode() for row in before if row.cells[4] == b"200"]
    texts = [line.removeprefix("PUT /puzzles/") for line in put if line.startswith("PUT /puzzles/")]
    asked(Cut(name, lambda content: round_of(content, texts), before), ask_sheets, program, room)
