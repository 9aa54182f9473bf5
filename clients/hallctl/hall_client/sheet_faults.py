"""Says where a round sheet is wrong. It asks `hall` itself about parts of it, whose reader is proved, and so needs no
copy of the rules."""
import calendar
import datetime
import difflib
import json
import re
from pathlib import Path

from .faults import FORMS, Found, shown
from .local_hall import record, replayed
from .printing import counted
from .rounds import places_of, sheet_of

DIRECTOR, KEY = "hallctl-check", "hallctl-check"
PUZZLE = re.compile(rb"^\s*\[\[\s*puzzle\s*\]\]")
OF_A_PUZZLE = ("author", "label", "points")
ARRAY = re.compile(rb"[^=\"']*=\s*\[")
KEY_OF_LINE = re.compile(r"\s*([\w-]+)\s*=")
START = re.compile(r"[\"'](\d{4}-\d\d-\d\d)T(\d\d):(\d\d):(\d\d)(?:Z|[+-]\d\d:\d\d)?[\"']")
# Values that are right, for the look at what else is wrong; a start's depends on the version.
GOOD = {"version": [], "title": ['"a"'], "start": ['"2030-01-01T00:00:00Z"', '"2030-01-01T00:00:00"'],
        "zone": ['"UTC0"'], "minutes": ["60"], "protest_minutes": ["0"], "mode": ['"instant"'], "penalty": ["0"],
        "bonus": ["0"], "testers": ["[]"], "author": ['"a"'], "label": [], "points": ["1"]}
TWICE = "a name stands twice among the testers"
ANY_TEXT = b'{"text":"sudoku/4/4/v"}'


class SheetReader:
    """The reader of sheets: a replay over a hall in memory, which knows a director alone."""

    def __init__(self, path, room):
        self.path, self.people = path, f"{room}/people.csv"
        self.write_people(())

    def write_people(self, names):
        lines = [f"{name},hallctl-key-{at},author+entrant\n" for at, name in enumerate(names)]
        Path(self.people).write_text(f"name,key,roles\n{DIRECTOR},{KEY},director\n{''.join(lines)}", encoding="ascii")

    def verdicts(self, texts):
        """(code, field) of the first fault of each text; none where it is a sheet."""
        asked = [record(KEY, "PUT", "/rounds/check", text) for text in texts]
        for status, body in replayed(self.path, self.people, asked):
            data = json.loads(body)
            yield (data["form"], data.get("field")) if status == 400 else None

    def round_of(self, text):
        """The round that the sheet makes, where its puzzles and testers are there."""
        sheet = sheet_of(text)
        places = places_of(sheet)
        names = sorted({author for author, _ in places} | set(sheet.get("testers", [])))
        self.write_people(names)
        puts = [record(KEY, "PUT", f"/puzzles/{author}/{label}", ANY_TEXT) for author, label in places]
        asked = [*puts, record(KEY, "PUT", "/rounds/check", text), record(KEY, "GET", "/rounds/check")]
        status, body = replayed(self.path, self.people, asked)[-1]
        return json.loads(body) if status == 200 else None


def line_of(lines, field):
    """The line on which a field stands, in front of the puzzles."""
    for number, line in enumerate(lines, 1):
        if PUZZLE.match(line):
            return None
        if re.match(rb"\s*" + field.encode() + rb"\s*=", line):
            return number
    return None


def blocks_of(lines):
    """The first line of each puzzle, counted from 1, and the number of lines and one."""
    return [number for number, line in enumerate(lines, 1) if PUZZLE.match(line)] + [len(lines) + 1]


def cut(lines, starts, numbers):
    """The sheet with these of its puzzles, counted from 0."""
    kept = [line for it in numbers for line in lines[starts[it] - 1:starts[it + 1] - 1]]
    return b"".join([*lines[:starts[0] - 1], *kept])


def wrong_puzzle(reader, lines, fault):
    """A fault of a puzzle, or a puzzle or a tester that stands twice."""
    starts = blocks_of(lines)
    count = len(starts) - 1
    if not count:
        return Found(*fault, *([line_of(lines, "testers"), TWICE] if fault[0] == "F4" else []))
    upto = list(reader.verdicts([cut(lines, starts, range(n + 1)) for n in range(count)]))
    at = next((n for n, it in enumerate(upto) if it == fault), count - 1)
    if fault[0] != "F4":
        line = next((n for n in range(starts[at], starts[at + 1])
                     if re.match(rb"\s*" + (fault[1] or "").encode() + rb"\s*=", lines[n - 1])), starts[at])
        return Found(*fault, line, f"it is puzzle {at + 1} of the sheet; {FORMS[fault[1]]}")
    if at == 0:
        return Found(*fault, line_of(lines, "testers"), TWICE)
    pairs = list(reader.verdicts([cut(lines, starts, [n, at]) for n in range(at)]))
    twin = next((n for n, it in enumerate(pairs) if it == fault), 0)
    more = f"puzzle {at + 1} is puzzle {twin + 1} once more, which begins on line {starts[twin]}"
    return Found(*fault, starts[at], more)


def wrong_in_sheet(reader, lines):
    """The first fault of a sheet; none where there is none."""
    text = b"".join(lines)
    fault = next(reader.verdicts([text]))
    if fault is None:
        return None
    code, field = fault
    if code == "F1":
        # An array that goes over lines is no TOML where it is cut, so the last good front counts.
        fronts = list(reader.verdicts([b"".join(lines[:n]) for n in range(len(lines) + 1)]))
        good = max((n for n, it in enumerate(fronts) if it is None or it[0] != "F1"), default=0)
        number = min(good + 1, len(lines))
        return Found(code, field, number if lines else None, no_toml(lines, number))
    if code == "F4" or field in OF_A_PUZZLE:
        return wrong_puzzle(reader, lines, fault)
    field_is = "start" if code == "F5" else field
    line = line_of(lines, field_is)
    more = FORMS.get(field_is, "")
    if not line:
        more = f"there is no line {field_is} = .. in front of the puzzles{f': {more}' if more else ''}"
    if field == "puzzle":
        line, more = None, f"the sheet has {counted(len(blocks_of(lines)) - 1, 'puzzle')}, and may have 1 to 40"
    return (no_date(lines, line) if code == "F5" else None) or Found(code, field, line, more)


def no_date(lines, number):
    """The fault of a start of the right form that is no date or time; none where it is another fault."""
    found = START.search(shown(lines[number - 1])) if number else None
    if not found:
        return None
    day, *clock = found.groups()
    try:
        datetime.date.fromisoformat(day)
    except ValueError:
        year, month, of_month = day.split("-")
        name = calendar.month_name[int(month)] if 1 <= int(month) <= 12 else f"month {month}"
        return Found("F5", None, number, instead=f"There is no {int(of_month)} {name} {year}.")
    is_time = all(int(it) < most for it, most in zip(clock, (24, 60, 60)))
    return None if is_time else Found("F5", None, number, instead=f"There is no time {':'.join(clock)}.")


def no_toml(lines, number):
    """Why a line is no TOML of a sheet, as far as it can be seen."""
    if not lines:
        return "the file is empty"
    if {"“", "”", "„"} & set(shown(lines[number - 1])):
        return 'the quotes are those of a printed page: write plain ones, "'
    near = near_key(lines, number)
    meant = f"; is it to be {near}?" if near else ""
    return f"no TOML, or a key that isn't listed for this version (docs/USING.md has the list){meant}"


def key_of(lines, number):
    """The key that is given on a line; nothing where none is."""
    found = KEY_OF_LINE.match(shown(lines[number - 1]))
    return found[1] if found else ""


def near_key(lines, number):
    """The listed key that the unknown one of a line looks like; nothing where it has none or looks like none."""
    is_of_puzzle = any(PUZZLE.match(line) for line in lines[:number])
    listed, key = OF_A_PUZZLE if is_of_puzzle else [it for it in GOOD if it not in OF_A_PUZZLE], key_of(lines, number)
    near = difflib.get_close_matches(key, listed, 1) if key and key not in listed else []
    return near[0] if near else ""


def replaced(lines, number, text):
    """The lines with a text in the place of one, and of those that its array goes on over."""
    last, next_puzzle = number, next(at for at in blocks_of(lines) if at >= number)
    if ARRAY.match(lines[number - 1]):
        last = next((at for at in range(number, next_puzzle) if b"]" in lines[at - 1]), number)
    return [*lines[:number - 1], f"{text}\n".encode(), *[b"\n"] * (last - number), *lines[last:]]


def added(lines, number, text):
    """The lines with a text behind one of them, as a part of it, so that the others keep their numbers."""
    return [*lines[:number - 1], lines[number - 1] + f"\n{text}\n".encode(), *lines[number:]]


def good_of(lines, field, number):
    """Values that are right for a field, of which one fits the version."""
    if field == "version":
        there = [of for of, version in (("testers", "3"), ("zone", "2")) if line_of(lines, of)]
        return ["3" if "testers" in there else "2" if there else "1"]
    return [f'"check-{number}"'] if field == "label" else GOOD.get(field, [])


def mends(lines, found):
    """Ways to mend a fault so that the next one is seen: the lines of each."""
    starts, number, field = blocks_of(lines), found.line, "start" if found.code == "F5" else found.field
    if found.code == "F1" and number:
        plain = re.sub("[“”„]", '"', shown(lines[number - 1]))
        key, near = key_of(lines, number), near_key(lines, number)
        texts = [plain, *([f"{near} ={plain.partition('=')[2]}"] if near else [])]
        texts += [f"{key} = {it}" for it in good_of(lines, key, number)]
        yield from (replaced(lines, number, it) for it in [*texts, ""])
    elif found.code == "F4" and number in starts:
        block = range(number, starts[starts.index(number) + 1])
        yield [b"\n" if at in block else line for at, line in enumerate(lines, 1)]
    elif field == "puzzle":
        yield [line if at < starts[min(40, len(starts) - 1)] else b"\n" for at, line in enumerate(lines, 1)]
    elif number in starts[:-1] or not number and starts[0] > 1:
        at = number or starts[0] - 1
        yield from (added(lines, at, f"{field} = {it}") for it in good_of(lines, field, at))
    elif number:
        name = "testers" if found.code == "F4" else field
        yield from (replaced(lines, number, f"{name} = {it}") for it in good_of(lines, name, number))


def faults_in_sheet(reader, lines):
    """All faults of a sheet, and whether they are all: each is mended for the look at the next one."""
    found, fault, left = [], wrong_in_sheet(reader, lines), lines
    while fault:
        found.append(fault)
        seen, old = {it.place() for it in found}, fault
        for left in mends(left, old):
            fault = wrong_in_sheet(reader, left)
            # No mend makes TOML into none: what isn't TOML was told first.
            if not fault or fault.place() not in seen and (fault.code != "F1" or old.code == "F1"):
                break
        else:
            return found, False
    return found, True
