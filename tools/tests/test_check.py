"""`hall check` over files that sqlite3 wrote and broke, and over copies of a hall's own: what it tells, and that it
changes no byte of a file or its log and makes none."""
import os
import re
import shutil
import sqlite3
import subprocess
import tomllib
from pathlib import Path

import pytest
from harness.checks import check, need
from harness.database import FIRST_ROWS, FIRST_TABLES, ROWS, TABLES, written
from harness.running import PEOPLE, ROOT, advised, connected, hall, serving

with open(f"{ROOT}/examples/databases/breaches.toml", "rb") as of_breaches:
    BREACHES = tomllib.load(of_breaches)

# The rows of the tests, of which the second round is a draft: so the world is sane.
SANE, FIRST_SANE = (re.sub(r"('r2', .*), 1, 0\)", r"\1, 0, 0)", rows) for rows in (ROWS, FIRST_ROWS))
COUNTS = "people 5, puzzles 1, rounds 2, answers 3, protests 1"
NOT_SEARCHED = "sane as far as is stored: whether a solution is the only one wasn't searched anew"
# What is told of a file of the first version, ahead of all else.
FIRST = "a file of the first version: `hall migrate` copies its rows into one that can be served"
# Twenty are told of a kind.
MANY, TOLD = 30, 20
GREATEST = 9223372036854775807
TABLE_NAMES = "people", "puzzles", "rounds", "round_puzzles", "answers", "protests", "testers"


def held(folder):
    """The bytes of each file of the folder."""
    files = {}
    for name in sorted(os.listdir(folder)):
        with open(f"{folder}/{name}", "rb") as it:
            files[name] = it.read()
    return files


def checked(name, folder, lines, status, *budget):
    """Sees what is told of the file hall.db of the folder, and that the folder stays as it was."""
    before = held(folder)
    wanted = "".join(f"{line}\n" for line in lines).encode()
    check(name, hall("check", "--db", f"{folder}/hall.db", *budget), (wanted, status, status == 3))
    check(f"{name}, the files", held(folder) == before, True)


def status_of(lines):
    """The status that goes with these lines; none are written of a file that is refused."""
    return int(any(line.startswith("broken") for line in lines)) if lines else 3


@pytest.mark.parametrize("row", BREACHES["sentences"], ids=lambda row: row["name"])
def test_sentences(room, row):
    written(f"{room}/hall.db", TABLES, BREACHES["world"], f"PRAGMA foreign_keys = OFF; {row['change']}")
    told = row["told"]
    checked(row["name"], room, told, status_of(told))
    searched = row.get("searched", [line if line != NOT_SEARCHED else "sane" for line in told])
    checked(f"{row['name']}, searched", room, searched, status_of(searched), "--budget", "200000")


@pytest.mark.parametrize("row", BREACHES["breaches"], ids=lambda row: row["name"])
def test_breaches(room, row):
    written(f"{room}/hall.db", TABLES, SANE, row["change"])
    budget = ["--budget", row["budget"]] if "budget" in row else []
    checked(row["name"], room, [COUNTS, *row["told"]], status_of(row["told"]), *budget)


@pytest.mark.parametrize("row", BREACHES["no_records"], ids=lambda row: row["change"])
def test_rows_that_are_no_record(room, row):
    written(f"{room}/hall.db", TABLES, SANE, row["change"])
    checked(row["change"], room, row["told"], 1)
    os.remove(f"{room}/hall.db")
    written(f"{room}/hall.db", FIRST_TABLES, FIRST_SANE, row["change"])
    checked(f"{row['change']}, first version", room, [FIRST, *row["told"]], 1)


def test_many_rows(room):
    more = "".join(f"INSERT INTO people VALUES ('N {n}', 'key-of-{n}', 1);" for n in range(MANY))
    written(f"{room}/hall.db", TABLES, SANE, more)
    lines = [f"broken: a row is no record: people rowid={6 + n}" for n in range(TOLD)]
    checked("many", room, [*lines, f"broken: and {MANY - TOLD} more rows are no record: people"], 1)


def test_first_version(room):
    written(f"{room}/hall.db", FIRST_TABLES, FIRST_SANE)
    checked("the first version", room, [FIRST, COUNTS, "sane"], 0, "--budget", "1000")


def ends_at(table, path):
    """Gives the last row of the table the greatest rowid of all."""
    last = f"UPDATE {table} SET rowid = {GREATEST} WHERE rowid = (SELECT max(rowid) FROM {table})"
    written(path, f"PRAGMA foreign_keys = OFF; {last}")


@pytest.mark.parametrize("table", TABLE_NAMES)
def test_no_row_can_be_added(room, table):
    db = written(f"{room}/hall.db", TABLES, SANE, "INSERT OR IGNORE INTO testers VALUES ('r2', 'rex')")
    ends_at(table, db)
    told = f"broken: no row can be added after this one: {table} rowid={GREATEST}"
    checked("the greatest rowid", room, [told], 1)
    written(db, f"PRAGMA foreign_keys = OFF; UPDATE {table} SET rowid = rowid - 1 WHERE rowid = {GREATEST}")
    check("the one before it", hall("check", "--db", db)[1], 0)


def test_nobody_can_be_added(room):
    ends_at("people", written(f"{room}/hall.db", TABLES, SANE))
    check("a list", hall("init", "--db", f"{room}/hall.db", "--people", PEOPLE), (b"", 3, True))
    ends_at("people", written(f"{room}/old.db", FIRST_TABLES, FIRST_SANE))
    told = f"{FIRST}\nbroken: no row can be added after this one: people rowid={GREATEST}\n".encode()
    check("the first version", hall("check", "--db", f"{room}/old.db"), (told, 1, False))
    check("it is migrated", hall("migrate", "--from", f"{room}/old.db", "--to", f"{room}/new.db")[1], 0)
    check("the new file", hall("check", "--db", f"{room}/new.db")[1], 0)


def refused(name, db, telling):
    """Sees that the commands tell this of the file, and that none of them changes it."""
    before = Path(db).read_bytes() if os.path.isfile(db) else b""
    for words in (["check"], ["table", "--round", "r1"], ["init", "--people", PEOPLE], ["serve", "--port", "1"]):
        status, told = advised(*words, "--db", db)
        check(f"{name}, {words[0]}", (status, telling if telling in told else told), (3, telling))
    status, told = advised("migrate", "--from", db, "--to", f"{db}.new")
    check(f"{name}, migrate", (status, telling if telling in told else told), (3, telling))
    check(f"{name}, the file", before == (Path(db).read_bytes() if os.path.isfile(db) else b""), True)


@pytest.fixture
def own(room):
    """The path of a file in a folder of its own."""
    os.mkdir(f"{room}/own")
    return f"{room}/own/hall.db"


def test_a_lost_reference(own):
    written(own, TABLES, SANE, "PRAGMA foreign_keys = OFF; DELETE FROM people WHERE name = 'eve'")
    refused("a lost reference", own, "a row or table breaks the file's own rules")
    rows = sqlite3.connect(own).execute("PRAGMA foreign_key_check").fetchall()
    check("what sqlite3 names", {row[0] for row in rows}, {"answers", "protests"})


@pytest.mark.parametrize("begins, telling, mends", [
    ("PRAGMA encoding = 'UTF-16le'", "UTF-16", ".dump"), ("PRAGMA encoding = 'UTF-16be'", "UTF-16", ".dump"),
    ("PRAGMA auto_vacuum = FULL", "auto_vacuum", "PRAGMA auto_vacuum = 0; VACUUM"),
    ("PRAGMA auto_vacuum = INCREMENTAL", "auto_vacuum", "PRAGMA auto_vacuum = 0; VACUUM"),
], ids=["UTF-16le", "UTF-16be", "full", "incremental"])
def test_files_of_another_form(room, own, begins, telling, mends):
    need("sqlite3")
    written(own, begins, TABLES, SANE)
    refused(begins, own, telling)
    asked = {"check": True, "capture_output": True, "text": True, "timeout": 60}
    rows = subprocess.run(["sqlite3", own, mends], **asked).stdout
    if rows:
        own = f"{room}/new.db"
        subprocess.run(["sqlite3", own], input=rows, **asked)
    told = f"{COUNTS}\n{NOT_SEARCHED}\n".encode()
    check(f"{begins}, mended", hall("check", "--db", own), (told, 0, False))


def test_an_analyzed_file(own):
    written(own, TABLES, SANE, "ANALYZE")
    for words in (["check", "--db", own], ["table", "--db", own, "--round", "r1"]):
        status, told = advised(*words)
        check(words[0], (status, "`ANALYZE`" in told), (3, True))
    written(own, "DROP TABLE sqlite_stat1")
    check("without its tables", hall("check", "--db", own)[1], 0)
    written(own, "CREATE TABLE other (a INTEGER) STRICT")
    check("with another", ["other tables" in advised("check", "--db", own)[1]], [True])


def test_a_journal_that_is_left(own):
    written(own, TABLES, SANE)
    left = sqlite3.connect(own, isolation_level=None)
    more = "CREATE TABLE more (x);" + "INSERT INTO more VALUES (zeroblob(20000));" * 20
    left.executescript(f"PRAGMA cache_size = 1; BEGIN IMMEDIATE; UPDATE rounds SET minutes = 1; {more}")
    folder = os.path.dirname(own)
    shutil.copytree(folder, f"{folder}.left")
    left.close()
    db = f"{folder}.left/hall.db"
    check("a journal is left", os.path.getsize(f"{db}-journal") > 0, True)
    refused("a journal", db, "a journal that SQLite left")
    sqlite3.connect(db).execute("SELECT count(*) FROM people").fetchall()
    check("once sqlite3 has read it", hall("check", "--db", db)[1], 0)


def test_what_is_no_file(own):
    os.mkfifo(own)
    refused("a pipe", own, "no regular file")
    os.remove(own)
    os.mkdir(own)
    refused("a folder", own, "no regular file")
    refused("a device", "/dev/zero", "no regular file")


def test_copies(room, program):
    own, copy = f"{room}/own", f"{room}/copy"
    os.mkdir(own)
    check("people", hall("init", "--db", f"{own}/hall.db", "--people", PEOPLE), (b"added 6\n", 0, False))
    lines = ["people 6, puzzles 0, rounds 0, answers 0, protests 0", NOT_SEARCHED]
    checked("a hall's own file", own, lines, 0)
    with serving(f"{own}/hall.db", 1_000_000, program) as (server, port):
        connected(server, port).close()
        checked("one that is served", own, [], 3)
    shutil.copytree(own, copy)
    checked("a copy", copy, lines, 0)
    os.remove(f"{copy}/hall.db-wal")
    checked("a copy without its log", copy, [], 3)
    with open(f"{copy}/hall.db", "r+b") as it:
        it.truncate(0)
    checked("a file without a byte", copy, [], 3)
    os.remove(f"{copy}/hall.db")
    checked("no file", copy, [], 3)
