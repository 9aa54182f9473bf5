"""`hall init` and `hall table` over database files of many kinds; SQLite's own library looks into each."""
import os
import re
import shutil
import sqlite3
import tomllib

import pytest
from harness.checks import check
from harness.database import MIXED, PLAIN, ROWS, TABLE, TABLES, written
from harness.running import PEOPLE, ROOT, hall

with open(f"{ROOT}/examples/databases/shapes.toml", "rb") as of_shapes:
    SHAPES = tomllib.load(of_shapes)


def looked_into(name, path):
    conn = sqlite3.connect(path)
    check(f"{name}, integrity_check", conn.execute("PRAGMA integrity_check").fetchall(), [("ok",)])
    check(f"{name}, foreign_key_check", conn.execute("PRAGMA foreign_key_check").fetchall(), [])
    tables = [row[0] for row in conn.execute("SELECT name FROM sqlite_master WHERE type = 'table' ORDER BY rowid")]
    people = conn.execute("SELECT name, pass, roles FROM people ORDER BY name").fetchall()
    conn.close()
    return tables, people


def test_own_files(room):
    path = f"{room}/new.db"
    check("a new file", hall("init", "--db", path, "--people", PEOPLE), (b"added 6\n", 0, False))
    check("the same file", hall("init", "--db", path, "--people", PEOPLE), (b"added 0\n", 0, False))
    before = looked_into("the same file", path)
    check("its tables", before[0], ["people", "puzzles", "rounds", "round_puzzles", "answers", "protests", "testers"])
    check("its people", before[1][:2], [("ada", "ada-key-1", 10), ("bob", "bob-key-1", 2)])
    other = f"{room}/other.csv"
    with open(PEOPLE, encoding="ascii") as read, open(other, "w", encoding="ascii") as write:
        write.write(read.read().replace("eve-key-1", "eve-key-2"))
    check("another key", hall("init", "--db", path, "--people", other), (b"denied 20\n", 2, False))
    check("another key, the file", looked_into("another key", path), before)
    check("no such round", hall("table", "--db", path, "--round", "r9"), (b"denied 4\n", 2, False))
    check("no round's id", hall("table", "--db", path, "--round", "R 9"), (b"denied 4\n", 2, False))
    check("no list", hall("init", "--db", f"{room}/none.db", "--people", f"{room}/none.csv"), (b"", 3, True))
    check("no list, no file", os.path.exists(f"{room}/none.db"), False)
    check("no file", hall("table", "--db", f"{room}/none.db", "--round", "r1"), (b"", 3, True))
    check("no file is made", os.path.exists(f"{room}/none.db"), False)


def test_files_of_sqlite(room):
    path = written(f"{room}/theirs.db", TABLES, ROWS)
    check("a table of sqlite3's rows", hall("table", "--db", path, "--round", "r1"), (TABLE, 0, False))
    told = hall("table", "--db", path, "--round", "r2")
    check("a round of sqlite3's that isn't published", told, (b"denied 15\n", 2, False))
    check("people into sqlite3's file", hall("init", "--db", path, "--people", PEOPLE), (b"added 1\n", 0, False))
    looked_into("people into sqlite3's file", path)
    for name, tables in (("plain", PLAIN), ("mixed", MIXED)):
        other = written(f"{room}/{name}.db", tables, ROWS)
        told = hall("table", "--db", other, "--round", "r1")
        check(f"a table of sqlite3's rows, {name}", told, (TABLE, 0, False))
        added = hall("init", "--db", other, "--people", PEOPLE)
        check(f"people into sqlite3's file, {name}", added, (b"added 1\n", 0, False))
        looked_into(f"people into sqlite3's file, {name}", other)
    empty = written(f"{room}/tables.db", TABLES)
    check("people into sqlite3's tables", hall("init", "--db", empty, "--people", PEOPLE), (b"added 6\n", 0, False))
    looked_into("people into sqlite3's tables", empty)


def is_refused(name, room, *scripts):
    """Sees that the file that the scripts make is refused, and stays as it was."""
    path = written(f"{room}/shape.db", *scripts)
    with open(path, "rb") as it:
        before = it.read()
    check(name, hall("init", "--db", path, "--people", PEOPLE), (b"", 3, True))
    with open(path, "rb") as it:
        check(f"{name}, the file", it.read() == before, True)
    os.remove(path)


def is_taken(name, room, *scripts):
    """Sees that the file that the scripts make is taken over, and holds nobody."""
    path = written(f"{room}/shape.db", *scripts)
    check(name, hall("init", "--db", path, "--people", PEOPLE), (b"added 6\n", 0, False))
    looked_into(name, path)
    for ending in ("", "-wal"):
        if os.path.exists(path + ending):
            os.remove(path + ending)


def with_table(table, by, part=None):
    """The tables with another statement in the place of the one that makes this table, or with another part in it."""
    made = {it.split()[0]: f"CREATE TABLE {it}" for it in TABLES.split("CREATE TABLE ")[1:]}
    if part is None:
        made[table] = f"{by}\n;"
    else:
        assert made[table].count(part) == 1, part
        made[table] = made[table].replace(part, by)
    return "".join(made.values())


def shapes(kind):
    """The tables of each shape of that kind, by what tells it."""
    return {" ".join(of.values()): with_table(**of) for of in SHAPES[kind]}


def test_shapes_that_are_taken(room):
    is_taken("an empty file", room)
    for change in SHAPES["left"]:
        is_taken(change, room, TABLES, change)
    is_taken("no ON UPDATE", room, PLAIN)
    is_taken("some ON UPDATE", room, MIXED)
    for name, made in shapes("worded").items():
        is_taken(name, room, made)


@pytest.mark.parametrize("kind", ["added", "others", "changed", "missing"])
def test_shapes_that_are_refused(room, kind):
    if kind == "added":
        scripts = {change: [TABLES, change] for change in SHAPES["added"]}
    elif kind == "others":
        scripts = {change: [change] for change in SHAPES["others"]}
    elif kind == "changed":
        scripts = {name: [made] for name, made in shapes("changed").items()}
    else:
        scripts = {f"no table {name}": [with_table(name, "")] for name in re.findall("CREATE TABLE (\\w+)", TABLES)}
    assert scripts
    for name, made in scripts.items():
        is_refused(name, room, *made)


def test_rows_that_are_none(room):
    for name, change in [
        ("a verdict of 65536", "UPDATE answers SET verdict = 65536 WHERE n = 2"),
        ("a puzzle's body that is no text", "UPDATE puzzles SET body = 'sudoku/4'"),
        ("a round's mode of 5", "UPDATE rounds SET mode = 5 WHERE id = 'r1'"),
        ("a ruling of 3", "UPDATE protests SET ruling = 3"),
        ("points of 1001", "UPDATE protests SET points = 1001"),
        ("a token that is none", "UPDATE answers SET token = 'no token' WHERE n = 2"),
    ]:
        path = written(f"{room}/row.db", TABLES, ROWS, change)
        got = hall("table", "--db", path, "--round", "r1")
        # the table doesn't read the puzzles
        check(name, got, (TABLE, 0, False) if "body" in name else (b"", 3, True))
        os.remove(path)
    path = written(f"{room}/place.db", TABLES, ROWS)
    conn = sqlite3.connect(path)
    conn.execute("UPDATE answers SET number = 7 WHERE n = 2")
    conn.commit()
    conn.close()
    check("an answer whose place is missing", hall("table", "--db", path, "--round", "r1"), (b"", 3, True))


def test_files_that_are_none(room):
    whole = written(f"{room}/whole.db", TABLES, ROWS)
    size = os.path.getsize(whole)
    for name, content in [
        ("zeros", bytes(8192)),
        ("a text", b"name,key,roles\n" * 100),
        ("a file cut in half", open(whole, "rb").read()[: size // 2]),
    ]:
        path = f"{room}/none_of_it.db"
        with open(path, "wb") as it:
            it.write(content)
        check(name, hall("table", "--db", path, "--round", "r1"), (b"", 3, True))
        with open(path, "rb") as it:
            check(f"{name}, the file", it.read() == content, True)
        os.remove(path)
    check("a directory", hall("init", "--db", room, "--people", PEOPLE), (b"", 3, True))
    told = hall("init", "--db", f"{room}/none/hall.db", "--people", PEOPLE)
    check("a folder that isn't there", told, (b"", 3, True))
    if os.geteuid():
        shutil.copyfile(whole, f"{room}/read.db")
        os.chmod(f"{room}/read.db", 0o444)
        told = hall("init", "--db", f"{room}/read.db", "--people", PEOPLE)
        check("a file that may not be written", told, (b"", 3, True))
