"""Says where an entry list is wrong. It asks `hall` itself about its lines, whose reader is proved, and so needs no
copy of the rules."""
import csv
import io
import json
from pathlib import Path

from .faults import FORMS, Found, shown
from .local_hall import record, replayed, run
from .printing import counted

DIRECTOR = KEY = "hallctl-check"
HEAD = b"name,key,roles\n"
PARTED = {b";": "semicolons", b"\t": "tabs"}
# How a file begins that a spreadsheet or an editor saved in another form, and what it is.
OTHERS = [(b"PK", "a spreadsheet's own file: save it as `CSV UTF-8`"), (b"\xff\xfe", "UTF-16: save it as UTF-8"),
          (b"\xd0\xcf", "a spreadsheet's own file: save it as `CSV UTF-8`"), (b"\xfe\xff", "UTF-16: save it as UTF-8")]


def cells_of(line):
    """The cells of a line; none where it is longer than any cell may be."""
    try:
        return next(csv.reader([shown(line)]), [])
    except csv.Error:
        return []


def without_key(line):
    """A line of a list as it is shown, without the person's secret."""
    cells = shown(line).split(",")
    return ",".join([cells[0], "*" * len(cells[1]), *cells[2:]]).encode() if len(cells) > 2 else line


def form_of(lines, number):
    """What is wrong with the form of a line of a list."""
    if not lines:
        return "the file is empty"
    line = lines[number - 1]
    other = next((told for begin, told in OTHERS if lines[0].startswith(begin)), None)
    if other:
        return f"this is {other}"
    try:
        line.decode()
    except UnicodeDecodeError:
        return "the line is no text in UTF-8: save the list as `CSV UTF-8`"
    if number > 1:
        return "a line has three fields and two commas"
    parted = next((name for sign, name in PARTED.items() if sign in line), "")
    told = f"; the fields are parted by {parted} here: save it with commas" if parted else ""
    return f"the first line is name,key,roles, in small letters and no more{told}"


def is_other(head):
    """Whether a list with this first line was saved in another form, so that each of its lines is wrong."""
    return head.startswith(tuple(begin for begin, _ in OTHERS)) or any(sign in head for sign in PARTED)


def value_of(line, field):
    """What stands in a field of a line, and what it is to be; a key isn't shown."""
    cells = [*cells_of(line), "", "", ""]
    if not any(cell.strip() for cell in cells):
        return "the line has commas alone: take it out"
    if field not in ("name", "key", "roles"):
        return ""
    it = cells[["name", "key", "roles"].index(field)]
    if not it:
        return f"the {field} is empty" + (": `hallctl keys` fills it in" if field == "key" else f": {FORMS[field]}")
    value = f"of {counted(len(it), 'letter')}" if field == "key" else f"{it!r}, of {counted(len(it), 'letter')}"
    return f"{field}: {value}; {FORMS[field]}"


class ListReader:
    """The readers of lists: `hall init` into a file that is thrown away, and a replay over a hall in memory."""

    def __init__(self, path, room):
        self.path, self.room, self.asked = path, room, 0
        self.director = f"{room}/director.csv"
        Path(self.director).write_text(f"name,key,roles\n{DIRECTOR},{KEY},director\n", encoding="ascii")

    def whole(self, content):
        """(code, field) of the first fault of a list; none where the list is taken."""
        self.asked += 1
        people, database = f"{self.room}/{self.asked}.csv", f"{self.room}/{self.asked}.db"
        Path(people).write_bytes(content)
        output, _ = run(self.path, ["init", "--db", database, "--people", people])
        words = output.decode().split()
        return None if words[:1] == ["added"] else (words[1], words[2] if len(words) > 2 else None)

    def each(self, head, lines):
        """(code, field) of the fault of each line, where those before it were added; none where it is added too."""
        asked = [record(KEY, "POST", "/people", head + line) for line in lines]
        for _, body in replayed(self.path, self.director, asked):
            data = json.loads(body)
            if "form" in data:
                yield data["form"], data.get("field")
            elif "denied" in data:
                yield str(data["denied"]), None
            else:
                # Whoever stands there with the same key and roles is passed over.
                yield None if data["added"] else ("F4", None)


def with_key(line, number):
    """A line of a list, with a key that nobody has where its own is still to be made."""
    try:
        cells = next(csv.reader([line.decode()]), [])
    except (UnicodeDecodeError, csv.Error):
        return line
    if len(cells) != 3 or cells[1].strip() or not any(cells):
        return line
    text = io.StringIO()
    csv.writer(text, lineterminator="\n").writerow([cells[0], f"{KEY}-{number}", cells[2]])
    return text.getvalue().encode()


def firsts_of(lines):
    """The first line that has each name, and each key: by 0 and the name, by 1 and the key."""
    found = {}
    for number, line in enumerate(lines[1:], 2):
        for it in enumerate(cells_of(line)[:2]):
            found.setdefault(it, number)
    return found


def of_a_stranger(line, number):
    """A line of a list with a name and a key that nobody has, and with its own roles."""
    roles = cells_of(line)[2]
    return f"check-{number},{KEY}-of-{number},{roles}\n".encode()


def told_twice(reader, lines, verdicts):
    """The verdicts with `F4` where a line is `denied 20` for what stands in front of it, and not for its roles."""
    denied = [number for number, fault in verdicts if fault and fault[0] == "20"]
    alone = reader.each(HEAD, [of_a_stranger(lines[number - 1], number) for number in denied])
    twice = {number for number, fault in zip(denied, alone) if not fault}
    return [(number, ("F4", None) if number in twice else fault) for number, fault in verdicts]


def fault_of_line(lines, firsts, number, code, field):
    more = value_of(lines[number - 1], field) if field else form_of(lines, number) if code == "F1" else ""
    if code == "F4":
        twin = min(firsts[it] for it in enumerate(cells_of(lines[number - 1])[:2]))
        more = f"the same name or key stands on line {twin}"
    return Found(code, field, number, more)


def faults_in_list(reader, lines):
    """The faults of a list, each on its line. Where the first line is of another form, it alone is looked at."""
    if reader.whole(b"".join(lines)) is None:
        return []
    head = lines[0] if lines else b""
    found = []
    if reader.whole(head) is not None:
        found = [Found("F1", None, 1 if lines else None, form_of(lines, 1))]
        if not lines or is_other(head):
            return found
        head = HEAD
    numbers = [number for number, line in enumerate(lines[1:], 2) if line.strip(b"\r\n")]
    verdicts = list(zip(numbers, reader.each(head, [lines[number - 1] for number in numbers])))
    firsts = firsts_of(lines)
    found += [fault_of_line(lines, firsts, number, *it) for number, it in told_twice(reader, lines, verdicts) if it]
    wrong = {it.line for it in found}
    rest = reader.whole(b"".join([head, *[line for number, line in enumerate(lines[1:], 2) if number not in wrong]]))
    return [*found, Found(*rest, None, FORMS.get(rest[1], ""))] if rest else found
