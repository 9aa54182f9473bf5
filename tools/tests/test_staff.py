"""hallctl: a championship day with it alone (harness/staff.py), and the rehearsal that it offers."""
import re
import socket
import subprocess
import sys
from pathlib import Path

import pytest
from harness import running
from harness.checks import check, tell
from harness.running import ROOT
from harness.staff import Day, the_day

sys.path.append(f"{ROOT}/clients/hallctl")
from hall_client.drawing import drawn  # noqa: E402
from hall_client.faults import FORMS  # noqa: E402
from hall_client.printing import csv_text  # noqa: E402
from hall_client.results import cell, tallies  # noqa: E402
from hall_client.wire import KEEPALIVE, Hall, watch  # noqa: E402


@pytest.fixture
def day(program, room):
    made = Day(room, program)
    yield made
    made.room.close()


def test_a_championship_day(day):
    the_day(day)
    protests = sum(of.protests for of in day.rounds)
    tell(f"staff: {len(day.rounds)} rounds, {day.sent} answers, {protests} protests")


def test_a_rehearsal(day):
    """It takes two minutes."""
    with day.room.begin(None, "rehearse") as it:
        output, _ = it.communicate(timeout=running.PATIENCE)
    day.check("the rehearsal", (it.returncode, "The rehearsal went as it should." in output), (0, True))
    table = "".join(f"{rank:4} {name:24} {total:8}\n" for rank, name, total in ((1, "fay", 70), (2, "eve", 38)))
    day.holds("the rehearsal's table", output, table)


BOARDS = [
    ("sudoku/6/6/1zl6", """
+-------+-------+
| 1 . . | . . . |
| . . . | . . . |
+-------+-------+
| . . . | . . . |
| . . . | . . . |
+-------+-------+
| . . . | 6 . . |
| . . . | . . . |
+-------+-------+"""),
    ("sudoku/4/4/12k4", """
+-----+-----+
| 1 2 | . . |
| . . | . 4 |
+-----+-----+
| . . | . . |
| . . | . . |
+-----+-----+"""),
    ("slither/3/2/2b.5", """
+   +   +   +
  2   1
+   +   +   +
      ?   0
+   +   +   +"""),
    ("nurikabe/4/2/2i.+100", """
+-----------------+
|   2   .   .   . |
|   ? 256   .   . |
+-----------------+"""),
]


@pytest.mark.parametrize("text, lines", BOARDS, ids=[text for text, _ in BOARDS])
def test_boards_are_drawn(text, lines):
    check(text, "\n".join(["", *drawn(text)]), lines)


def test_large_boards_fit():
    """Boards of 50 columns, of 25 numbers and of empty cells alone have lines that a terminal holds."""
    for text in ("slither/50/20/", "nurikabe/50/20/9", "sudoku/25/25/-19"):
        check(text, max(map(len, drawn(text))) <= 110, True)


def test_a_machine_that_is_gone():
    """The system is told to notice it, on the connection of each request; a certificate alone is waited for longer."""
    with socket.create_server(("127.0.0.1", 0)) as listener:
        hall = Hall(f"http://127.0.0.1:{listener.getsockname()[1]}", None)
        conn = hall.connection()
        conn.connect()
        watch(conn.sock, hall.timeout)
        got = {name: conn.sock.getsockopt(socket.IPPROTO_TCP, getattr(socket, name)) for name in KEEPALIVE}
        got["SO_KEEPALIVE"] = conn.sock.getsockopt(socket.SOL_SOCKET, socket.SO_KEEPALIVE)
        check("what is set", got, {**KEEPALIVE, "SO_KEEPALIVE": 1})
        check("its timeout", conn.sock.gettimeout(), 10)
        conn.close()


ROWS = [("eve", 2, 720, "right"), ("eve", 2, 300, "wrong U2 U4"), ("eve", 2, 420, "wrong U2"),
        ("dan", 1, 3599, "wrong A0"), ("eve", 1, 60, None), ("eve", 1, 119, None)]
CELLS = {("dan", 1): "1w 59", ("eve", 1): "2? 1", ("eve", 2): "1r 2w 5-12"}


def test_cells_of_the_grid():
    """Answers of entrants to puzzles, with and without verdicts, in the round that began at 0."""
    lines = [{"entrant": who, "number": number, "moment": moment, **({"verdict": verdict} if verdict else {})}
             for who, number, moment, verdict in ROWS]
    check("cells", {(it["entrant"], it["number"]): cell(it, 0) for it in tallies(lines)}, CELLS)


def test_csv_has_no_formulas():
    """An entrant's words are no formula of the director's spreadsheet; names and numbers stay as they are."""
    rows = [["=1+1", "+1", "@A1", "-1+A1"], ["-eve", -3, "", "a=b"]]
    told = "a,b,c,d\n'=1+1,'+1,'@A1,'-1+A1\n-eve,-3,,a=b\n"
    check("rows as CSV", csv_text(["a", "b", "c", "d"], rows), told)


def test_what_fields_are_to_be():
    """What `check` says of a sheet's fields is what the page says: the same numbers."""
    page = Path(f"{ROOT}/docs/USING.md").read_text(encoding="utf-8")
    rows = {found[1]: found[0] for found in re.finditer(r"^\| `(\w+)` \|.*$", page, re.M) if found[1] in FORMS}
    check("fields with a row", set(rows) >= {"title", "minutes", "protest_minutes", "penalty", "bonus"}, True)
    for name in ("title", "minutes", "protest_minutes", "penalty", "bonus"):
        numbers = [set(re.findall(r"\d+", text.replace(",", ""))) for text in (FORMS[name], rows[name])]
        check(f"the numbers of {name}", numbers[0], numbers[1])


def test_an_old_python():
    """Is told, before anything is read that it can't read."""
    script = f"import runpy, sys; sys.version_info = (3, 10, 13); runpy.run_path('{ROOT}/clients/hallctl/hallctl')"
    ran = subprocess.run([sys.executable, "-c", script], capture_output=True, text=True, check=False)
    check("its status", ran.returncode, 3)
    check("what is told", "Python 3.11 or later is needed" in ran.stderr, True)
