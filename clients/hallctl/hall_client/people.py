"""The people of a hall: adding a list, and keys for those who have none yet."""
import csv
import io
import os
import re
import secrets
import tempfile

from . import told, wire
from .faults import FORMS, Found
from .list_faults import ListReader, faults_in_list, without_key
from .local_hall import NoProgram, program
from .printing import counted, note, text_of

HEAD = ["name", "key", "roles"]
# What a name is, where no program `hall` is there to say so.
NAME = re.compile(r"[a-z0-9-]{1,24}")
# Letters and digits that can't be taken for one another when they are read from paper.
LETTERS = "abcdefghjkmnpqrstuvwxyz23456789"


def rows_of(path):
    """The rows of a list, with the line that each begins on."""
    reader = csv.reader(io.StringIO(text_of(path), newline=""))
    return [(reader.line_num, row) for row in reader if row]


def as_csv(rows):
    text = io.StringIO()
    csv.writer(text, lineterminator="\n").writerows(rows)
    return text.getvalue().encode()


def as_list(rows):
    return as_csv([HEAD, *rows])


def parts_of(content, rows):
    """The list as bodies that a request holds: as it is, or where it is too long in parts."""
    if len(content) <= wire.LARGEST_BODY:
        return [content]
    parts, part = [], []
    for row in rows:
        if len(as_list([*part, row])) > wire.LARGEST_BODY:
            parts.append(as_list(part))
            part = []
        part.append(row)
    return [*parts, as_list(part)]


def add(args, hall, out):
    """Adds the people of a list."""
    with open(args.list, "rb") as file:
        content = file.read()
    parts = [content]
    if len(content) > wire.LARGEST_BODY:
        parts = parts_of(content, [row for _, row in rows_of(args.list)][1:])
        note(f"{args.list} has {len(content):,} bytes, and a request holds {wire.LARGEST_BODY:,}:"
             f" it is added in {len(parts)} parts, each of them whole or not at all")
    added, is_again = 0, False
    for part in parts:
        try:
            reply = hall.done("POST", "/people", part)
        except wire.Refused as refused:
            explain(args.list, refused.reply.data() or {})
            raise
        added += reply.data()["added"]
        is_again = is_again or reply.tries > 1
    out.say(f"added {added}")
    if is_again and not added:
        out.say("It was sent more than once, so they may have been added the first time: all of them stand there now.")
    out.value({"added": added})
    return told.DONE


def explain(path, data):
    """Says where the fault of a list is to be looked for."""
    if data.get("form") == "F2" and data.get("field") == "key":
        note(f"`hallctl keys {path}` fills in the keys that are missing")
    elif data.get("form"):
        note(f"`hallctl check {path}` says on which line, and what to do")


def new_key():
    """A key of 20 letters out of 31: some 99 bits by the system's own chance."""
    return "-".join("".join(secrets.choice(LETTERS) for _ in range(4)) for _ in range(5))


def written(path, rows):
    """Puts the list in the place of the old one, whole, and for its owner's eyes alone."""
    other = f"{path}.new"
    with open(os.open(other, os.O_WRONLY | os.O_CREAT | os.O_TRUNC, 0o600), "wb") as file:
        file.write(as_list(rows))
    os.replace(other, path)


def slip(row, url):
    """What is handed out to a person."""
    name, key, roles = row
    lines = [f"Name:  {name}    ({', '.join(roles.split('+'))})", f"Key:   {key}", *([f"Hall:  {url}"] if url else []),
             "Whoever shows this key is taken for you. Keep it to yourself: it can't be changed."]
    return "\n".join([*lines, "- " * 36]).rstrip() + "\n"


def faults_of(args, numbered):
    """The faults of a list whose keys are filled in, as the hall finds them, with the list's lines. Rows come with the
    lines of the file that they are on."""
    lines = [b"\n"] * numbered[-1][0]
    for at, row in numbered:
        lines[at - 1] = as_csv([row])
    try:
        path = program(args.program)
    except NoProgram as fault:
        note(f"the names alone are looked at, since {fault}")
        wrong = [at for at, row in numbered[1:] if not NAME.fullmatch(row[0])]
        return [Found("F3", "name", at, FORMS["name"]) for at in wrong], lines
    with tempfile.TemporaryDirectory(prefix="hallctl-keys-") as room:
        return faults_in_list(ListReader(path, room), lines), lines


def keys(args, _, out):
    """Fills the empty keys of a list, and prints slips."""
    numbered = rows_of(args.list)
    rows = [row for _, row in numbered]
    if rows[:1] != [HEAD] or any(len(row) != 3 for row in rows):
        note(f"{args.list} is no list of the columns name, key and roles: `hallctl check {args.list}` says where")
        return told.REFUSED
    # Spreadsheets write lines of commas alone behind the last one.
    numbered = [(at, row) for at, row in numbered if any(cell.strip() for cell in row)]
    has_empty, rows = len(numbered) < len(rows), [row for _, row in numbered[1:]]
    filled = [row for row in rows if not row[1].strip()]
    for row in filled:
        row[1] = new_key()
    found, lines = faults_of(args, numbered)
    if found:
        shown = [lines[0], *map(without_key, lines[1:])]
        note(*[line for it in found for line in it.lines(args.list, shown)], "No key was made.")
        return told.REFUSED
    if filled or has_empty:
        written(args.list, rows)
    shown = rows if args.all else filled
    note(f"{len(filled)} of {counted(len(rows), 'person', 'people')} got a new key, which stands in {args.list};"
         f" {counted(len(shown), 'slip')}")
    if shown and not args.url:
        note("the slips lack the hall's address: name it by --url, or in the variable HALL_URL")
    for row in shown:
        out.say(slip(row, args.url))
    out.value([dict(zip(HEAD, row)) for row in shown])
    return told.DONE
