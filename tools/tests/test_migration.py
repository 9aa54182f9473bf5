"""`hall migrate`: files that the program of the first version left (examples/first_version), and files of sqlite3."""
import os
import re
import socket

from harness import database
from harness.checks import check
from harness.database import FIRST_ROWS, FIRST_TABLES, kept, written
from harness.running import PEOPLE, ROOT, bytes_of, connected, content_of, hall, library, read_off, removed, serving
from harness.running import set_clock
from harness.wire import records, replies

NAMES = re.findall(r"CREATE TABLE (\w+)", FIRST_TABLES)
# The rows of examples/first_version/round.db.
ROUND_ROWS = 6 + 3 + 2 + 3 + 3 + 2
# People, puzzles, rounds, places, answers and protests of FIRST_ROWS.
WRITTEN_ROWS = 5 + 1 + 2 + 2 + 3 + 1


def rows_of(path, names):
    """The rows of these tables, in the order of their columns."""
    found = content_of(path)
    return {name: found[name] for name in names}


def migrate(source, target):
    return hall("migrate", "--from", source, "--to", target)


def is_migrated(name, source, target, count):
    """Sees that the source's rows, so many, are migrated into a new file, once, and that the source stays as it was."""
    before = content_of(source)
    check(name, migrate(source, target), (f"migrated {count}\n".encode(), 0, False))
    check(f"{name}, its rows", rows_of(target, NAMES), rows_of(source, NAMES))
    check(f"{name}, its testers", rows_of(target, ["testers"]), {"testers": []})
    check(f"{name} again", migrate(source, target), (b"migrated 0\n", 0, False))
    check(f"{name}, the source", content_of(source), before)


def is_refused(name, source, target, what, status=2):
    """Sees that the source isn't migrated, and that both files stay as they were."""
    before, other = content_of(source), content_of(target)
    said = (b"", status, True) if what is None else (f"refused {what}\n".encode(), status, False)
    was_there = os.path.exists(target)
    check(name, migrate(source, target), said)
    check(f"{name}, the source", content_of(source), before)
    check(f"{name}, the target", content_of(target), other)
    check(f"{name}, whether the target is there", os.path.exists(target), was_there)


def test_files_of_the_first_program(room):
    people, round_file = kept(room, "people"), kept(room, "round")
    left = [bytes_of(people), bytes_of(round_file)]
    is_migrated("the people alone", people, f"{room}/new_people.db", 6)
    told = hall("init", "--db", f"{room}/new_people.db", "--people", PEOPLE)
    check("the people again", told, (b"added 0\n", 0, False))
    is_migrated("a round", round_file, f"{room}/new_round.db", ROUND_ROWS)
    told = hall("table", "--db", f"{room}/new_round.db", "--round", "noon")
    check("the round's table", told, (database.TABLE, 0, False))
    told = hall("table", "--db", round_file, "--round", "noon")
    check("the table of a file of the first version", told, (b"", 3, True))
    is_refused("a target with other rows", round_file, f"{room}/new_people.db", "target")
    is_refused("a target with more rows", people, f"{room}/new_round.db", "target")
    is_refused("a source of the second version", f"{room}/new_round.db", f"{room}/none.db", "source")
    is_refused("a target of the first version", people, round_file, None, 3)
    check("the bytes of the files of the first version", [bytes_of(people), bytes_of(round_file)], left)


def moment_of(record):
    return int(record[1:].split(b" ", 1)[0])


def runs(asked):
    """The records, cut where a moment lies before the last one."""
    found = []
    for record in asked:
        if not found or moment_of(record) < moment_of(found[-1][-1]):
            found.append([])
        found[-1].append(record)
    return found


def served_at(program, room, path, asked):
    """What each record's request is replied, where the file is served and the time of day is the record's moment. While
    a hall runs its moments never go back, so where they do it is started anew."""
    clock, got = f"{room}/clock", []
    env = {"LD_PRELOAD": library(room, "clock"), "CLOCK": clock}
    for run in runs(asked):
        with serving(path, len(run), program, env) as (server, port):
            for record in run:
                set_clock(clock, moment_of(record))
                with connected(server, port) as client:
                    client.sendall(record.split(b"\n", 1)[1])
                    client.shutdown(socket.SHUT_WR)
                    got.append(read_off(client))
            check("the server's status", server.wait(60), 0)
    return got


def test_a_round_on_other_files(program, room):
    """The example of a whole round, over a hall whose people came from a file of the first version, and over tables
    that sqlite3 made: each reply is that of a replay."""
    example = f"{ROOT}/examples/rounds/round"
    with open(f"{example}.txt", "rb") as asked, open(f"{example}.out", "rb") as wanted:
        asked, wanted = records(asked.read()), replies(wanted.read())
    written(f"{room}/played_plain.db", database.PLAIN)
    for name in ("played", "played_plain"):
        told = migrate(kept(room, "people"), f"{room}/{name}.db")
        check(f"the people's rows, {name}", told, (b"migrated 6\n", 0, False))
        got = served_at(program, room, f"{room}/{name}.db", asked)
        for number, (one, other) in enumerate(zip(got, wanted, strict=True), 1):
            check(f"request {number} of the round, {name}", one, other)


def files_of(room, name, tables, target):
    """Files of both versions whose tables stand in these words."""
    worded = written(f"{room}/{name}.db", tables, FIRST_ROWS)
    is_migrated(f"sqlite3's rows, {name}", worded, f"{room}/from_{name}.db", WRITTEN_ROWS)
    told = hall("table", "--db", f"{room}/from_{name}.db", "--round", "r1")
    check(f"the table of them, {name}", told, (database.TABLE, 0, False))
    into = written(f"{room}/into_{name}.db", target)
    is_migrated(f"sqlite3's rows, {name} into its tables", worded, into, WRITTEN_ROWS)
    second = written(f"{room}/second_{name}.db", target, FIRST_ROWS)
    is_refused(f"a source of the second version, {name}", second, f"{room}/none.db", "source")


def test_files_of_sqlite(room):
    source = written(f"{room}/theirs.db", FIRST_TABLES, FIRST_ROWS)
    is_migrated("sqlite3's rows", source, f"{room}/from_theirs.db", WRITTEN_ROWS)
    told = hall("table", "--db", f"{room}/from_theirs.db", "--round", "r1")
    check("the table of sqlite3's rows", told, (database.TABLE, 0, False))
    files_of(room, "plain", database.PLAIN_FIRST, database.PLAIN)
    files_of(room, "mixed", database.MIXED_FIRST, database.MIXED)
    tested = written(f"{room}/tested.db", database.TABLES, FIRST_ROWS, "INSERT INTO testers VALUES ('r1', 'rex')")
    is_refused("a target with a tester", source, tested, "target")
    theirs = written(f"{room}/seven.db", database.TABLES, FIRST_ROWS)
    check("a target that sqlite3 filled", migrate(source, theirs), (b"migrated 0\n", 0, False))
    empty = written(f"{room}/empty.db", FIRST_TABLES)
    is_migrated("no row", empty, f"{room}/from_empty.db", 0)
    other = written(f"{room}/other.db", "CREATE TABLE note (id INTEGER PRIMARY KEY)")
    is_refused("a source of another program", other, f"{room}/none.db", "source")


BAD_ROWS = [
    ("roles of 0", "UPDATE people SET roles = 0 WHERE name = 'rex'"),
    ("a puzzle's body that is no text", "UPDATE puzzles SET body = 'sudoku/4'"),
    ("a round's mode of 5", "UPDATE rounds SET mode = 5 WHERE id = 'r1'"),
    ("a place of 0 points", "UPDATE round_puzzles SET points = 0"),
    ("a verdict of 65536", "UPDATE answers SET verdict = 65536 WHERE n = 2"),
    ("a ruling of 3", "UPDATE protests SET ruling = 3"),
]


def test_rows_that_are_no_records(room):
    tables = [*NAMES, "testers"]
    for name, change in BAD_ROWS:
        bad = written(f"{room}/bad.db", FIRST_TABLES, FIRST_ROWS, change)
        before = content_of(bad)
        check(name, migrate(bad, f"{room}/from_bad.db"), (b"", 3, True))
        check(f"{name}, the source", content_of(bad), before)
        check(f"{name}, the target", rows_of(f"{room}/from_bad.db", tables), {it: [] for it in tables})
        removed(bad)
        removed(f"{room}/from_bad.db")


def test_files_that_are_none(room):
    is_missing = migrate(f"{room}/nowhere.db", f"{room}/none.db")
    check("no source", is_missing, (b"refused source\n", 2, False))
    made = [it for it in ("nowhere", "none") if os.path.exists(f"{room}/{it}.db")]
    check("no source, no file is made", made, [])
    people = kept(room, "people")
    got = migrate(people, people)
    check("the same file twice", got[1], 3)
