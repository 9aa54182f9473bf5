"""The command that says where a list or a sheet is wrong."""
import tempfile
from pathlib import Path

from . import told
from .list_faults import OTHERS, ListReader, faults_in_list, with_key, without_key
from .local_hall import program
from .printing import counted, note, told_in, when
from .rounds import times
from .sheet_faults import SheetReader, faults_in_sheet

# So many faults are told; of more their number.
MANY = 40


def is_list(path, content):
    """Whether the file is to be an entry list: by its ending, or by its first bytes."""
    if content.startswith(tuple(begin for begin, _ in OTHERS)):
        return True
    if path.endswith((".csv", ".toml")):
        return path.endswith(".csv")
    return content.removeprefix(b"\xef\xbb\xbf").lstrip(b"\r\n").lower().startswith(b"name")


def say_round(data, sheet_path, hall, out):
    if not data:
        out.say(f"{sheet_path} is a round sheet")
        return
    start, end, close = times(data)
    now = hall.now()
    points = sum(it["points"] for it in data["puzzles"])
    out.say(f"{sheet_path} is a round sheet: {data['title']}, {data['mode']},"
            f" {counted(len(data['puzzles']), 'puzzle')}, {counted(points, 'point')}",
            f"start  {when(start, now)}", f"end    {when(end, now)}", f"close  {when(close, now)}")
    if start <= now:
        out.say(f"Its start has come {told_in(now - start)} ago: a draft of it can't be released.")


def check_list(path, room, lines, name, out):
    """The faults of a list, and how many of its people have no key yet: for the look at all else they get one."""
    keyed = [lines[0], *[with_key(line, at) for at, line in enumerate(lines[1:], 2)]] if lines else []
    found = faults_in_list(ListReader(path, room), keyed)
    keyless = sum(old != new for old, new in zip(lines, keyed))
    if found or keyless:
        return found, keyless
    out.say(f"{name} is an entry list, of {counted(max(len(lines) - 1, 0), 'line')} behind the first")
    note("Whether its names and keys fit with those whom a hall knows is seen as it is added.")
    return [], 0


def check_sheet(path, room, lines, name, hall, out):
    """The faults of a sheet, as far as it was looked at."""
    reader = SheetReader(path, room)
    found, is_all = faults_in_sheet(reader, lines)
    if not found:
        say_round(reader.round_of(b"".join(lines)), name, hall, out)
        note("Whether its puzzles and testers are there is seen as it is put.")
    if not is_all:
        note("Mend this first: what stands behind it wasn't looked at.")
    return found


def check(args, hall, out):
    """Checks a list or a sheet, and tells all its faults."""
    content = Path(args.file).read_bytes()
    lines, path, keyless = content.splitlines(keepends=True), program(args.program), 0
    with tempfile.TemporaryDirectory(prefix="hallctl-check-") as room:
        if is_list(args.file, content):
            found, keyless = check_list(path, room, lines, args.file, out)
            lines = [*lines[:1], *map(without_key, lines[1:])]
        else:
            found = check_sheet(path, room, lines, args.file, hall, out)
    found.sort(key=lambda it: it.line or 0)
    for fault in found[:MANY]:
        out.say(*fault.lines(args.file, lines))
    if len(found) > MANY:
        out.say(f"{args.file}: and {counted(len(found) - MANY, 'more fault')}")
    if keyless:
        lacking = f"{counted(keyless, 'person has', 'people have')} no key yet, which `hallctl keys` fills in"
        out.say(f"{args.file}: {lacking}{'' if found else '; all else is well'}")
    out.value({"faults": [it.value() for it in found], "keyless": keyless})
    return told.OTHERWISE if found or keyless else told.DONE
