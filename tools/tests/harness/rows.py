"""The tables of examples/: each row tells its input, and what is told of it. examples/README.md tells how one is
written."""
import itertools
import json
import os
import re
import shlex
import sqlite3
import subprocess
from http import HTTPStatus
from pathlib import Path

from . import checks, running
from .database import FIRST_ROWS, FIRST_TABLES, ROWS, TABLES, written
from .wire import compact, replies

ROOT = Path(running.ROOT)
EXAMPLES = ROOT / "examples"
PEOPLE = EXAMPLES / "people.csv"
ESCAPES = {b"n": b"\n", b"r": b"\r", b"t": b"\t", b"\\": b"\\"}
ROLES = {"director": 1, "author": 2, "referee": 4, "entrant": 8}
# The greatest body of a request.
BODY = 65_536
# A list of one director, whom no table names.
ZOE = b"name,key,roles\nzoe,zoe-key-1,director\n"


class Row:
    """A row of a table: where it stands, and its cells."""

    def __init__(self, place, cells):
        self.place, self.cells = place, cells

    def check(self, got, want):
        checks.check(self.place, got, want)


class Table:
    """The rows of a file, the texts `$NAME` that stand in them as {NAME}, and its orders: `@word rest`."""

    def __init__(self, path):
        self.folder, self.texts, self.rows, self.orders = path.parent, {}, [], []
        for number, line in whole_lines(path):
            times = re.match(r"\* (\d+) = ", line)
            line = re.sub(r"\{([A-Z_0-9]+)\}", lambda name: self.texts.get(name[1], name[0]), line)
            if times:
                for n in range(int(times[1])):
                    self.add(path, number, line[times.end() :].replace("{n}", str(n)))
            elif line.startswith("$"):
                self.define(line)
            elif line.startswith("@"):
                word, _, rest = line[1:].partition(" ")
                self.orders.append((word, rest))
            else:
                self.add(path, number, line)
        # What is asked before.
        self.before = [row for name in self.ordered("after") for row in Table(self.folder / name).rows]

    def add(self, path, number, line):
        """The rows of a line: one for each of its choices."""
        choices = [re.split(r" \|\|(?= |$)", cell) for cell in re.split(r" \|(?= |$)", line)]
        place = f"{os.path.relpath(path, ROOT)}:{number}"
        self.rows += [Row(place, [bytes_of(cell.strip()) for cell in cells]) for cells in itertools.product(*choices)]

    def define(self, line):
        """`$NAME = text`, `$NAME < file`, or `$NAME * count = text`, in which {n} is 0, 1, .. in turn."""
        name, sign, count, text = re.fullmatch(r"\$([A-Z_0-9]+) (=|<|\* (\d+) =) ?(.*)", line).groups()
        if sign == "<":
            text = "".join(escaped(byte) for byte in (self.folder / text).read_bytes())
        self.texts[name] = "".join(text.replace("{n}", str(n)) for n in range(int(count))) if count else text

    def ordered(self, word):
        return [rest for name, rest in self.orders if name == word]

    def inputs(self):
        """Each row with its input and what is told of it: the input stands in the row, or is a file with a part
        changed, or each front of a file."""
        for name in self.ordered("edited"):
            before = (self.folder / name).read_bytes()
            return [(row, edited(before, *row.cells[:2]), row.cells[2].decode()) for row in self.rows]
        for name in self.ordered("fronts"):
            whole = (self.folder / name).read_bytes()
            least = [int(row.cells[0]) for row in self.rows] + [len(whole) + 1]
            sizes = [range(*of) for of in zip(least, least[1:])]
            return [(row, whole[:it], row.cells[1].decode()) for row, of in zip(self.rows, sizes) for it in of]
        return [(row, row.cells[0], row.cells[1].decode()) for row in self.rows]


def edited(content, part, other):
    at = content.index(part)
    return content[:at] + other + content[at + len(part) :]


def whole_lines(path):
    """The lines of a file with their numbers, each with the lines after it that begin with spaces."""
    whole = []
    for number, line in enumerate(path.read_text(encoding="ascii").splitlines(), 1):
        if line.startswith(" ") and whole:
            parts = " " if line.strip().startswith("|") or whole[-1][1].endswith(" |") else ""
            whole[-1][1] += parts + line.strip()
        elif line and not line.startswith("#"):
            whole.append([number, line])
    return whole


def escaped(byte):
    return chr(byte) if 32 <= byte < 127 and byte != 92 else f"\\x{byte:02x}"


def bytes_of(cell):
    def byte(escape):
        return bytes.fromhex(escape[1][1:].decode()) if len(escape[1]) == 3 else ESCAPES[escape[1]]

    return re.sub(rb"\\(x[0-9a-f]{2}|.)", byte, cell.encode("ascii"))


class Program:
    """The built program, run in a folder."""

    def __init__(self, path, room):
        self.path, self.room = path, Path(room)

    def file(self, name, content):
        (self.room / name).write_bytes(content)
        return name

    def ran(self, words, given=b""):
        """(output, exit status, standard error)"""
        ran = subprocess.run([self.path, *words], cwd=self.room, input=given, capture_output=True, timeout=120)
        return ran.stdout, ran.returncode, ran.stderr

    def told(self, people, records):
        """The replies of one replay."""
        return replies(self.ran(["replay", "--people", people], b"".join(records))[0])

    def replayed(self, people, asked):
        """Asks one replay all of (row, record, reply)."""
        output, status, _ = self.ran(["replay", "--people", people], b"".join(record for _, record, _ in asked))
        told = replies(output)
        for place, (row, _, want) in enumerate(asked):
            row.check(told[place] if place < len(told) else None, want)
        asked[-1][0].check((status, len(told)), (0, len(asked)))


def record_of(moment, asked):
    return f"@{moment} {len(asked)}\n".encode() + asked


def record(moment, key, line, body=b""):
    asked = f"{line} HTTP/1.1\r\nHall-Key: {key}\r\nContent-Length: {len(body)}\r\n\r\n".encode() + body
    return record_of(moment, asked)


def reply(status, body):
    # the table of a round alone is no JSON
    form = "application/json" if body.startswith(b"{") else "text/plain"
    head = f"HTTP/1.1 {status} {HTTPStatus(status).phrase}\r\nContent-Type: {form}\r\n"
    return f"{head}Content-Length: {len(body)}\r\n\r\n".encode() + body


def told_reply(status, told):
    return reply(status, compact(told).encode())


def refusal(told):
    """The reply that tells `F2 key` or `denied 20`; none of anything else."""
    if found := re.fullmatch(r"(F\d)(?: (\w+))?", told):
        return told_reply(400, {"form": found[1]} | ({"field": found[2]} if found[2] else {}))
    if told.startswith("denied "):
        return told_reply(404 if told == "denied 4" else 403, {"denied": int(told[7:])})
    return None


def told_line(told):
    """The line that a command writes of a list that is refused or denied."""
    return (told if told.startswith("denied") else f"refused {told}").encode() + b"\n"


def check_text(row, got, want):
    """A text in `..` is one that the whole has in it."""
    is_part = want.startswith(b"..") and want.endswith(b"..") and len(want) > 4
    row.check(want if is_part and want[2:-2] in got else got, want)


def ask_commands(table, program):
    """Rows of words, standard input, exit status, standard output, standard error; `@file NAME = text`, `@published
    NAME` and `@first NAME` are there before."""
    for rest in table.ordered("file"):
        name, _, text = rest.partition(" = ")
        program.file(name, bytes_of(text))
    for name in table.ordered("published"):
        written(program.room / name, TABLES, ROWS)
    for name in table.ordered("first"):
        written(program.room / name, FIRST_TABLES, FIRST_ROWS)
    program.file("people.csv", PEOPLE.read_bytes())
    for row in table.rows:
        words, given, status, output, error = [*row.cells, *[b""] * (5 - len(row.cells))]
        got = program.ran(shlex.split(words.decode()), given)
        row.check(got[1], int(status))
        check_text(row, got[0], output)
        check_text(row, got[2], error)


def people_in(path):
    """The people of a database file, as a row tells them."""
    conn = sqlite3.connect(path)
    rows = conn.execute("SELECT name, pass, roles FROM people ORDER BY rowid").fetchall()
    conn.close()
    held = [(name, key, [role for role, bit in ROLES.items() if roles & bit]) for name, key, roles in rows]
    return "; ".join(f"{name} {key} {'+'.join(roles)}" for name, key, roles in held)


def check_import(row, program, db, content, told):
    """Imports the list into the file: `added 6`, or the people, who are then all that the file has."""
    ran = program.ran(["init", "--db", db, "--people", program.file("list.csv", content)])
    if refusal(told):
        row.check(ran, (told_line(told), 2, b""))
    elif told.startswith("added"):
        row.check(ran, (f"{told}\n".encode(), 0, b""))
    else:
        count = len(told.split("; ")) if told != "nobody" else 0
        row.check(ran, (f"added {count}\n".encode(), 0, b""))
        row.check(people_in(program.room / db) or "nobody", told)


def ask_lists(table, program):
    """Rows of a list and what is told: `F2 key`, `denied 20`, `added 6` or the people. With `@one` all lists are
    imported into one file, in their order. Else a replay begins with each; one that is taken is imported into a new
    file, and a director sends another, where it is no longer than a body."""
    if table.ordered("one"):
        for row, content, told in table.inputs():
            check_import(row, program, "one.db", content, told)
        return
    sent = []
    for number, (row, content, told) in enumerate(table.inputs()):
        ran = program.ran(["replay", "--people", program.file("list.csv", content)])
        row.check(ran, (told_line(told), 2, b"") if refusal(told) else (b"", 0, b""))
        if not refusal(told):
            check_import(row, program, f"{number}.db", content, told)
        elif len(content) <= BODY:
            sent.append((row, record(0, "zoe-key-1", "POST /people", content), refusal(told)))
    if sent:
        program.replayed(program.file("zoe.csv", ZOE), sent)


def told_sheet(name, fields, texts):
    """The reply that tells the round of this name and these fields, the puzzles as `bob/p1 40, ada/q1 30`."""
    told = {field: int(value) if value.isdecimal() else value for field, value in fields.items()}
    puzzles = [puzzle.split() for puzzle in fields["puzzles"].split(", ")]
    entries = [{"number": n, "points": int(points), "text": texts[key]} for n, (key, points) in enumerate(puzzles, 1)]
    return told_reply(200, told | {"id": name, "puzzles": entries})


def fields_of(told):
    return dict(part.split(" ", 1) for part in told.split("; ")) if told != "usual" else {}


def ask_sheets(table, program):
    """Rows of a sheet and what is told: `F2 version`, or the fields that the round has otherwise than the order `@told`
    says."""
    asked = [of_request(row) for row in table.before]
    puts = {row.cells[2].decode(): row.cells[3] for row in table.before}
    put = "PUT /puzzles/"
    texts = {line.removeprefix(put): json.loads(body)["text"] for line, body in puts.items() if line.startswith(put)}
    usual = fields_of(table.ordered("told")[0])
    for number, (row, sheet, told) in enumerate(table.inputs()):
        name = f"s{number}"
        put = record(1, "dora-key", f"PUT /rounds/{name}", sheet)
        if refusal(told):
            asked.append((row, put, refusal(told)))
        else:
            asked.append((row, put, told_reply(200, {"round": name})))
            want = told_sheet(name, usual | fields_of(told), texts)
            asked.append((row, record(1, "dora-key", f"GET /rounds/{name}"), want))
    program.replayed(PEOPLE, asked)


def of_request(row):
    """A row of a moment, a key, a method and path, a body, a status and a reply; or of a moment, the bytes of a
    request, a status and a reply."""
    moment, *asked, status, told = row.cells
    if len(asked) == 1:
        return row, record_of(int(moment), asked[0]), reply(int(status), told)
    key, line, body = asked
    return row, record(int(moment), key.decode(), line.decode(), body), reply(int(status), told)


def ask_requests(table, program):
    """Rows of requests, in one replay after those of `@after TABLE`, or each in one of its own (`@each`)."""
    rows = [[row] for row in table.rows] if table.ordered("each") else [table.rows]
    for some in rows:
        program.replayed(PEOPLE, [of_request(row) for row in table.before + some])


def told_to(key, asked, told):
    """The replies to the requests under the key."""
    return [reply for (row, _, _), reply in zip(asked, told, strict=True) if row.cells[1] == key]


def exchanged(row, name, first, second):
    """The request with each of the two answers for the other, where it hands one in to the round."""
    one, other = (f'{{"answer":"{it}"}}'.encode() for it in (first, second))
    texts = {one: other, other: one}
    changed = Row(row.place, list(row.cells))
    if row.cells[2].startswith(f"PUT /rounds/{name}/answers/".encode()):
        changed.cells[3] = texts.get(row.cells[3], row.cells[3])
    return changed


def ask_secrecy(table, program):
    """Rows of requests, asked as those, and then once more without what must not be learnt; a reply that tells it goes
    to the last row. `@hides KEY OTHER`: the replies to KEY are the same bytes without OTHER's requests. `@exchanges
    ROUND A B`: those to each caller are the same bytes but for the texts where the answers A and B are exchanged in the
    round; `@tells_apart ROUND A B`: they are not."""
    rows = table.before + table.rows
    ask_requests(table, program)
    asked = [of_request(row) for row in rows]
    told = program.told(PEOPLE, [record for _, record, _ in asked])
    for key, other in (rest.encode().split() for rest in table.ordered("hides")):
        kept = [one for one in asked if one[0].cells[1] != other]
        table.rows[-1].check(len(kept) < len(asked), True)
        without = program.told(PEOPLE, [record for _, record, _ in kept])
        table.rows[-1].check(told_to(key, kept, without), told_to(key, asked, told))
    for word in ["exchanges", "tells_apart"]:
        for rest in table.ordered(word):
            name, first, second = rest.split()
            changed = [of_request(exchanged(row, name, first, second)) for row in rows]
            others = program.told(PEOPLE, [record for _, record, _ in changed])
            for key in sorted({row.cells[1] for row in table.rows}):
                one, other = [told_to(key, asked, some) for some in (told, others)]
                table.rows[-1].check(one != other, True)
                texts = re.compile(f"{re.escape(first)}|{re.escape(second)}".encode())
                without = [[texts.sub(b"", reply) for reply in some] for some in (one, other)]
                table.rows[-1].check(without[0] == without[1], word == "exchanges")


KINDS = {
    "lines": ask_commands, "words": ask_commands, "replays": ask_commands, "lists": ask_lists, "sheets": ask_sheets,
    "requests": ask_requests, "secrecy": ask_secrecy,
}


def ask(path, program, room):
    """Asks a table, by the kind that its folder names, and returns how many rows it has."""
    table = Table(path)
    KINDS[path.parent.name](table, Program(program, room))
    return len(table.rows)
