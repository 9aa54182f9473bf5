"""Database files as sqlite3 writes them: the tables, some rows, and what the first version left."""
import lzma
import re
import shutil
import sqlite3

from .running import ENDINGS, ROOT

# A puzzle, its solution, and an answer that breaks the rules U2 and U4.
SUDOKU, RIGHT, WRONG = "sudoku/4/4/123434122143432g", "1234341221434321", "1234341221434312"

# The seven tables, as docs/RUNNING.md gives their columns and keys; written as a person would, and not as the program
# does.
TABLES = """
CREATE TABLE people (
    name TEXT NOT NULL PRIMARY KEY,
    pass TEXT NOT NULL UNIQUE,
    roles INTEGER NOT NULL
) STRICT;
CREATE TABLE puzzles (
    author TEXT NOT NULL REFERENCES people (name) ON DELETE RESTRICT ON UPDATE RESTRICT,
    label TEXT NOT NULL,
    body TEXT NOT NULL,
    state INTEGER NOT NULL,
    solution TEXT NOT NULL,
    PRIMARY KEY (author, label)
) STRICT;
CREATE TABLE rounds (
    id TEXT NOT NULL PRIMARY KEY,
    title TEXT NOT NULL,
    start INTEGER NOT NULL,
    minutes INTEGER NOT NULL,
    protest_minutes INTEGER NOT NULL,
    mode INTEGER NOT NULL,
    penalty INTEGER NOT NULL,
    bonus INTEGER NOT NULL,
    released INTEGER NOT NULL,
    published INTEGER NOT NULL
) STRICT;
CREATE TABLE round_puzzles (
    round TEXT NOT NULL REFERENCES rounds (id) ON DELETE CASCADE ON UPDATE CASCADE,
    number INTEGER NOT NULL,
    author TEXT NOT NULL,
    label TEXT NOT NULL,
    points INTEGER NOT NULL,
    PRIMARY KEY (round, number),
    FOREIGN KEY (author, label) REFERENCES puzzles (author, label) ON DELETE RESTRICT ON UPDATE RESTRICT
) STRICT;
CREATE TABLE answers (
    entrant TEXT NOT NULL REFERENCES people (name) ON DELETE RESTRICT ON UPDATE RESTRICT,
    round TEXT NOT NULL,
    number INTEGER NOT NULL,
    token TEXT NOT NULL,
    n INTEGER NOT NULL,
    moment INTEGER NOT NULL,
    answer TEXT NOT NULL,
    verdict INTEGER NOT NULL,
    PRIMARY KEY (entrant, round, number, token),
    UNIQUE (entrant, round, number, n),
    FOREIGN KEY (round, number) REFERENCES round_puzzles (round, number) ON DELETE RESTRICT ON UPDATE RESTRICT
) STRICT;
CREATE TABLE protests (
    entrant TEXT NOT NULL REFERENCES people (name) ON DELETE RESTRICT ON UPDATE RESTRICT,
    round TEXT NOT NULL,
    token TEXT NOT NULL,
    number INTEGER NOT NULL,
    body TEXT NOT NULL,
    ruling INTEGER NOT NULL,
    points INTEGER NOT NULL,
    PRIMARY KEY (entrant, round, token),
    FOREIGN KEY (round, number) REFERENCES round_puzzles (round, number) ON DELETE RESTRICT ON UPDATE RESTRICT
) STRICT;
CREATE TABLE testers (
    round TEXT NOT NULL REFERENCES rounds (id) ON DELETE CASCADE ON UPDATE CASCADE,
    name TEXT NOT NULL REFERENCES people (name) ON DELETE RESTRICT ON UPDATE RESTRICT,
    PRIMARY KEY (round, name)
) STRICT;
"""

# A published round of one puzzle: fay's answer was right at once, eve's after a wrong one, and a protest of hers was
# upheld.
ROWS = f"""
INSERT INTO people VALUES ('dora', 'dora-key', 1), ('bob', 'bob-key-1', 2), ('eve', 'eve-key-1', 8),
    ('fay', 'fay-key-1', 8), ('rex', 'rex-key-1', 4);
INSERT INTO puzzles VALUES ('bob', 'p1', '{SUDOKU}', 1, '1234341221434321');
INSERT INTO rounds VALUES ('r1', 'Morning', 1777712400, 60, 30, 0, 5, 0, 1, 1),
    ('r2', 'Late', 1777712400, 60, 30, 0, 5, 0, 1, 0);
INSERT INTO round_puzzles VALUES ('r1', 1, 'bob', 'p1', 40), ('r2', 1, 'bob', 'p1', 40);
INSERT INTO answers VALUES ('eve', 'r1', 1, 'a', 1, 1777712500, '1234341221434312', 20),
    ('eve', 'r1', 1, 'b', 2, 1777712600, '1234341221434321', 0),
    ('fay', 'r1', 1, 'a', 1, 1777712700, '1234341221434321', 0);
INSERT INTO protests VALUES ('eve', 'r1', 'w', 1, 'The third row is unclear.', 1, 3);
INSERT INTO testers VALUES ('r1', 'rex');
"""
# The same tables as one would write them of the table of columns and keys alone, without ON UPDATE.
PLAIN = re.sub(" ON UPDATE [A-Z]+", "", TABLES)
# Some of the references with ON UPDATE, each another.
MIXED = re.sub("(REFERENCES people .*) ON UPDATE RESTRICT", r"\1 ON UPDATE NO ACTION", TABLES).replace(
    " ON UPDATE CASCADE", ""
)
TABLE = b"   1 fay                            40\n   2 eve                            38\n"

# The tables of the first version: the seven without the last.
FIRST_TABLES, PLAIN_FIRST, MIXED_FIRST = (it[: it.index("CREATE TABLE testers")] for it in (TABLES, PLAIN, MIXED))
FIRST_ROWS = re.sub(r"INSERT INTO testers .*\n", "", ROWS)


def written(path, *scripts):
    """The path of the file, once these scripts were run over it."""
    conn = sqlite3.connect(path)
    conn.execute("PRAGMA foreign_keys = ON")
    for script in scripts:
        conn.executescript(script)
    conn.commit()
    conn.close()
    return path


def kept(room, name):
    """The file of examples/first_version, as the program of that version left it."""
    for ending in ENDINGS:
        packed = f"{ROOT}/examples/first_version/{name}.db{ending}.xz"
        with lzma.open(packed) as file, open(f"{room}/{name}.db{ending}", "wb") as it:
            shutil.copyfileobj(file, it)
    return f"{room}/{name}.db"
