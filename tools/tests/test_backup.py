"""The file of a hall that serves is copied, while entrants hand in as fast as it takes them:
examples/running/backup.sh.

SQLite's own check passes on each copy. It holds each answer that was acknowledged before the copy began, and of each
entrant the first ones without a gap.
"""
import os
import shutil
import subprocess
import threading
import time

import pytest
from harness import filled, running
from harness.checks import check, tell
from harness.handed_in import Entrant, faults

SCRIPT = f"{running.ROOT}/examples/running/backup.sh"
# So many hand in at once: as many as harness/filled.py puts into the file. How many answers stand there before.
ENTRANTS, ANSWERS, COPIES = 40, 10_000, 5


def copied(path, folder, program, entrants):
    """What is wrong with one more copy, and how long it took to be made and opened."""
    told = {it.name_of: it.told for it in entrants}
    begun = time.monotonic()
    made = subprocess.run([SCRIPT, path, folder, program], capture_output=True, check=False, timeout=600)
    took = time.monotonic() - begun
    if made.returncode != 0 or b"people" not in made.stdout:
        return [f"backup.sh ended with {made.returncode}: {made.stderr.decode().strip()[-300:]}"], took
    found = faults(f"{folder}/hall.db", told)
    shutil.rmtree(folder)
    return found, took


@pytest.fixture
def db(room):
    filled.fill(f"{room}/hall.db", ANSWERS)
    return f"{room}/hall.db"


def test_copies(served, db, program, room):
    over, times = threading.Event(), []
    entrants = [Entrant(served[1], f"s{k}", over) for k in range(ENTRANTS)]
    for number in range(COPIES):
        found, took = copied(db, f"{room}/copy", program, entrants)
        times.append(took)
        check(f"copy {number}", found, [])
    busy = sum(it.is_alive() for it in entrants)
    over.set()
    for it in entrants:
        it.join()
    check("entrants who weren't told that their answers stand", [it.fault for it in entrants if it.fault], [])
    told = sum(it.told for it in entrants)
    tell(f"copies of a hall that serves: {told} answers were handed in meanwhile, {busy} entrants to the end; a copy "
         f"took {sorted(times)[len(times) // 2]:.1f} s, at most {max(times):.1f}")
    check(f"{told} answers are more than {COPIES} copies", told > COPIES, True)


def test_which_program_opens_the_copy(served, db, program, room):
    """The one of the path where none is named, as after the package; and where there is none, nothing is copied."""
    os.mkdir(f"{room}/bin")
    os.symlink(program, f"{room}/bin/hall")
    env = {**os.environ, "PATH": f"{room}/bin:/usr/bin:/bin"}
    for folder, words, status, told in (("found", [], 0, "people"), ("none", [f"{room}/nothing"], 1, "no program")):
        asked = [SCRIPT, db, f"{room}/{folder}", *words]
        ran = subprocess.run(asked, env=env, capture_output=True, text=True, check=False)
        check(f"{folder}, its status", (ran.returncode, ran.stderr if status == 0 else ""), (status, ""))
        check(f"{folder}, what is told", told in ran.stdout + ran.stderr, True)
    check("a folder without a copy", os.path.exists(f"{room}/none"), False)
