"""What the benchmarks lend each other. Once it is imported, tools/tests/harness can be, where what tests lend them
stands."""
import http.server
import json
import os
import resource
import subprocess
import sys
import time

HERE = os.path.dirname(os.path.realpath(__file__))
sys.path[:0] = [f"{HERE}/../tools/tests", f"{HERE}/../examples/rounds"]
import setting  # noqa: E402
from harness.database import RIGHT  # noqa: E402
from harness.running import PEOPLE, PROGRAM  # noqa: E402, F401
from harness.wire import record, replies, request  # noqa: E402

# Of how many runs the least time is taken.
RUNS = 5
BEFORE = 1777700000
DURING = 1777714300
LIMIT = 50
# Who may hand in, to which round, and the right answer.
PAIRS = [
    ("ada-key-1", "r1", RIGHT),
    ("eve-key-1", "r2", ".###"),
    ("fay-key-1", "r1", RIGHT),
    ("fay-key-1", "r2", ".###"),
    ("eve-key-1", "r1", RIGHT),
]
MOST = LIMIT * len(PAIRS)


def submit(place):
    """The hand-in at this place, by the entrants in turn: its token stands nowhere else."""
    key, round_id, answer = PAIRS[place % len(PAIRS)]
    return record(DURING, request(key, "PUT", f"/rounds/{round_id}/answers/1/k{place}", '{"answer":"%s"}' % answer))


def opening(stored):
    """Puts puzzles and drafts, certifies two puzzles, releases their rounds, and stores so many answers."""
    return [
        *[it.decode() for it in setting.records()],
        record(BEFORE, request("bob-key-1", "POST", "/puzzles/bob/p1/certificate", '{"budget":200000}')),
        record(BEFORE, request("ada-key-1", "POST", "/puzzles/ada/q1/certificate", '{"budget":200000}')),
        record(BEFORE, request("dora-key", "POST", "/rounds/r1/release")),
        record(BEFORE, request("dora-key", "POST", "/rounds/r2/release")),
        *[submit(place) for place in range(stored)],
    ]


def run_replay(program, records):
    """The replies that are written, and the seconds of processor time."""
    before = resource.getrusage(resource.RUSAGE_CHILDREN)
    words = [program, "replay", "--people", PEOPLE]
    done = subprocess.run(words, input="".join(records).encode(), capture_output=True, check=False)
    after = resource.getrusage(resource.RUSAGE_CHILDREN)
    if done.returncode:
        sys.exit(f"the replay ended with status {done.returncode}")
    spent = after.ru_utime + after.ru_stime - before.ru_utime - before.ru_stime
    return replies(done.stdout), spent


def least_time(program, records):
    return min(run_replay(program, records)[1] for _ in range(RUNS))


def run_desk(program, word, stored, rows, count):
    """The nanoseconds of processor time that the requests took."""
    words = [program, word, str(stored), str(rows), str(count)]
    done = subprocess.run(words, capture_output=True, text=True, check=False)
    if done.returncode:
        sys.exit(f"{' '.join(words)} ended with status {done.returncode}")
    wanted, spent = map(int, done.stdout.split())
    if wanted != count:
        sys.exit(f"{' '.join(words)}: {wanted} of {count} replies were as wanted")
    return spent


class Plain(http.server.BaseHTTPRequestHandler):
    """Reads and writes the rows of harness/filled.py with SQLite's own library, and judges nothing."""
    protocol_version = "HTTP/1.1"
    conn = None

    def log_message(self, *_):
        pass

    def reply(self, value):
        body = value if isinstance(value, bytes) else json.dumps(value, separators=(",", ":")).encode()
        self.send_response(200)
        self.send_header("Content-Length", str(len(body)))
        self.end_headers()
        self.wfile.write(body)

    def caller(self):
        return self.one("SELECT name, roles FROM people WHERE pass = ?", self.headers["Hall-Key"])

    def one(self, statement, *values):
        return self.conn.execute(statement, values).fetchone()

    def all(self, statement, *values):
        return self.conn.execute(statement, values).fetchall()

    def do_GET(self):
        parts = self.path.split("/")
        head = self.one("SELECT * FROM rounds WHERE id = ?", parts[2])
        of_round = "FROM round_puzzles WHERE round = ? ORDER BY number"
        places = self.all(f"SELECT number, author, label, points {of_round}", parts[2])
        if parts[-1] == "table":
            totals = {}
            in_order = "FROM answers WHERE round = ? ORDER BY entrant, number, n"
            for entrant, _, verdict in self.all(f"SELECT entrant, number, verdict {in_order}", parts[2]):
                totals[entrant] = totals.get(entrant, 0) + (40 if verdict == 0 else 0)
            self.all("SELECT * FROM protests WHERE round = ?", parts[2])
            order = sorted(totals, key=lambda name: (-totals[name], name))
            self.reply("".join(f"{k + 1:4} {name:32} {totals[name]}\n" for k, name in enumerate(order)).encode())
        elif parts[-1] == "answers":
            name, _ = self.caller()
            own = "FROM answers WHERE round = ? AND entrant = ? ORDER BY number, n"
            rows = self.all(f"SELECT number, token, n, moment, answer, verdict {own}", parts[2], name)
            self.reply({"answers": rows})
        else:
            self.caller()
            body = "SELECT body FROM puzzles WHERE author = ? AND label = ?"
            texts = [self.one(body, *place[1:3])[0] for place in places]
            self.reply({"id": head[0], "title": head[1], "start": head[2], "puzzles": texts})

    def do_PUT(self):
        _, _, round, _, number, token = self.path.split("/")
        answer = json.loads(self.rfile.read(int(self.headers["Content-Length"])))["answer"]
        name, _ = self.caller()
        self.one("SELECT * FROM rounds WHERE id = ?", round)
        place = self.one("SELECT author, label FROM round_puzzles WHERE round = ? AND number = ?", round, number)
        key = (name, round, int(number), token)
        of_place = "FROM answers WHERE entrant = ? AND round = ? AND number = ?"
        stored = self.one(f"SELECT * {of_place} AND token = ?", *key)
        count = self.all(f"SELECT n {of_place}", *key[:3])
        solution = self.one("SELECT solution FROM puzzles WHERE author = ? AND label = ?", *place)[0]
        verdict = 0 if answer == solution else 20
        received = stored[4] if stored else len(count) + 1
        if not stored:
            row = (*key, received, int(time.time()), answer, verdict)
            self.conn.execute("INSERT INTO answers VALUES (?, ?, ?, ?, ?, ?, ?, ?)", row)
            self.conn.commit()
        self.reply({"received": received, "verdict": "right" if verdict == 0 else "wrong"})


def sized(method, path, key, body):
    """The request's bytes, after a line with their number."""
    text = f"{method} {path} HTTP/1.1\r\nHost: 127.0.0.1\r\nHall-Key: {key}\r\n"
    text += "\r\n" if body is None else f"Content-Length: {len(body)}\r\n\r\n{body}"
    return f"{len(text)}\n{text}"
