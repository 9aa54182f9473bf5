"""Puts three puzzles and three drafts in front of the replays of examples/.

`python3 examples/rounds/setting.py FOLDER/NAME..` changes examples/FOLDER/NAME.txt and NAME.out: six records stand in
front of the input, by which the authors put their puzzles and the director the drafts, and six replies in front of the
output. The replies come from the rules in plain words and not from the program. A replay that begins with the six
records stays as it is.
"""
import json
import sys
from pathlib import Path

EXAMPLES = Path(__file__).resolve().parent.parent
MOMENT = 1777699990

SHEET = """version = 1
title = "{title}"
start = "{start}"
minutes = 60
protest_minutes = 30
mode = "{mode}"
penalty = {penalty}
bonus = {bonus}

[[puzzle]]
author = "{author}"
label = "{label}"
points = {points}
"""

MORNING = {
    "title": "Morning", "start": "2026-05-02T09:00:00Z", "mode": "instant", "penalty": 5, "bonus": 2,
    "author": "bob", "label": "p1", "points": 40,
}
LATE = {
    "title": "Late", "start": "2026-05-02T10:30:00+01:00", "mode": "sealed", "penalty": 0, "bonus": 0,
    "author": "ada", "label": "q1", "points": 30,
}
PUZZLES = [
    ("bob", "p1", "sudoku/4/4/123434122143432g"),
    ("ada", "q1", "nurikabe/2/2/1i"),
    ("bob", "v", "sudoku/4/4/v"),
]
DRAFTS = [("r1", MORNING), ("r2", LATE), ("r3", {**MORNING, "label": "v"})]


def compact(value):
    return json.dumps(value, separators=(",", ":"))


def record(target, key, body):
    head = f"PUT {target} HTTP/1.1\r\nHall-Key: {key}\r\nContent-Length: {len(body)}\r\n\r\n"
    request = (head + body).encode()
    return f"@{MOMENT} {len(request)}\n".encode() + request


def reply(value):
    body = compact(value)
    head = f"HTTP/1.1 200 OK\r\nContent-Type: application/json\r\nContent-Length: {len(body)}\r\n\r\n"
    return (head + body).encode()


def records():
    puts = [record(f"/puzzles/{author}/{label}", f"{author}-key-1", compact({"text": text}))
            for author, label, text in PUZZLES]
    return puts + [record(f"/rounds/{id}", "dora-key", SHEET.format(**sheet)) for id, sheet in DRAFTS]


def replies():
    puts = [reply({"state": "new", "text": text}) for _, _, text in PUZZLES]
    return puts + [reply({"round": id}) for id, _ in DRAFTS]


def set_out(name):
    asked, told = EXAMPLES / f"{name}.txt", EXAMPLES / f"{name}.out"
    setting = b"".join(records())
    if not asked.read_bytes().startswith(setting):
        asked.write_bytes(setting + asked.read_bytes())
        told.write_bytes(b"".join(replies()) + told.read_bytes())


if __name__ == "__main__":
    for name in sys.argv[1:]:
        set_out(name)
