"""A file with as many answers as one likes, and the requests that are measured over it."""
import json
import sqlite3
import time

from .database import RIGHT, SUDOKU, TABLES, WRONG

PUZZLES = 25


def fill(path, answers, tables=TABLES, others=20, solvers=40):
    """A round that runs now (`now`) and a published one (`then`), each with 25 puzzles; `answers` answers of others in
    the first, 10 of eve's and 50 of ivy's, and 1,000 of others in the second. There are at least so many others, and so
    many solvers, who have handed in nothing."""
    now, entrants = int(time.time()), [f"e{k}" for k in range(max(others, answers // 1000))]
    names = ["eve", "ivy", *(f"s{k}" for k in range(solvers)), *entrants]
    places = [(round, k + 1, f"p{k}") for round in ("now", "then") for k in range(PUZZLES)]
    rounds = [("now", "Now", now - 600, 1440, 60, 0), ("then", "Then", now - 100_000, 60, 0, 1)]
    conn = sqlite3.connect(path)
    conn.executescript("PRAGMA journal_mode = DELETE;" + tables)
    people = [("bob", "bob-key-1", 2), *((name, f"{name}-key-{name}", 8) for name in names)]
    conn.executemany("INSERT INTO people VALUES (?, ?, ?)", people)
    puzzles = [(f"p{k}", SUDOKU, RIGHT) for k in range(PUZZLES)]
    conn.executemany("INSERT INTO puzzles VALUES ('bob', ?, ?, 1, ?)", puzzles)
    conn.executemany("INSERT INTO rounds VALUES (?, ?, ?, ?, ?, 0, 5, 2, 1, ?)", rounds)
    conn.executemany("INSERT INTO round_puzzles VALUES (?, ?, 'bob', ?, 40)", places)
    rows = [*handed_in("now", answers, entrants, now - 500), *handed_in("then", 1000, entrants, now - 99_000)]
    rows += [("eve", "now", 1, f"t{k}", k + 1, now - 400, WRONG, 20) for k in range(10)]
    rows += handed_in("now", 2 * PUZZLES, ["ivy"], now - 400)
    conn.executemany("INSERT INTO answers VALUES (?, ?, ?, ?, ?, ?, ?, ?)", rows)
    conn.commit()
    conn.close()


def fill_sane(path, answers, solvers=40):
    """The same, without the published round: it has the puzzles of the other one, so that no check finds it sane."""
    fill(path, answers, solvers=solvers)
    conn = sqlite3.connect(path)
    for table, column in (("answers", "round"), ("round_puzzles", "round"), ("rounds", "id")):
        conn.execute(f"DELETE FROM {table} WHERE {column} = 'then'")
    conn.commit()
    conn.close()
    return path


def handed_in(round, count, entrants, moment):
    """The rows of so many wrong answers, by the entrants in turn and to each puzzle in turn."""
    for k in range(count):
        turn, place = divmod(k // len(entrants), PUZZLES)
        yield entrants[k % len(entrants)], round, place + 1, f"t{turn}", turn + 1, moment, WRONG, 20


def requests(kind, count, first=0):
    """So many requests of a kind. Of Submits, the one at this place and those after it."""
    for k in range(first, first + count):
        if kind == "ReadRound":
            yield "GET", "/rounds/now", "eve-key-eve", None
        elif kind == "Answers":
            yield "GET", "/rounds/now/answers", "eve-key-eve", None
        elif kind == "50 Answers":
            yield "GET", "/rounds/now/answers", "ivy-key-ivy", None
        elif kind == "Table":
            yield "GET", "/rounds/then/table", "", None
        else:
            who, place = f"s{k // PUZZLES % 40}", k % PUZZLES + 1
            yield "PUT", f"/rounds/now/answers/{place}/m{k}", f"{who}-key-{who}", json.dumps({"answer": WRONG})
