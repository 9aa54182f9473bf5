#!/usr/bin/env python3
"""Proves all crates and their tests by `rt ci`, tries the wrong bodies, and prints what processor time each crate took.

    python3 tools/build/gate.py [--anew]

Run by ./check --prove. What `rt ci` proved on this machine before, of the same sources by the same kit, it keeps and
takes; with --anew it proves all. Where a crate has must-fail edits, it proves it a second time and then tries each edit
by itself; so it is given a copy of the crates without them, and tools/build/wrong_bodies.py tries them over the
libraries that it has proved there. The program that it has built goes to crates/hall/out. The last line is 'N passed, M
failed', the crates, programs and edits of both.

In the table a task is `proof`, `tests` (the proof with a crate's tests) or `edits`. The time is read off the processes
twice a second, so the last half second of each is missing.
"""
import argparse
import os
import re
import shutil
import subprocess
import sys
import tempfile
import time
from collections import defaultdict

import build

ROOT = os.path.realpath(f"{__file__}/../../..")
EVERY = 0.5
# What one check takes at the most, in bytes (the last column of the table), with room to spare.
MOST_OF_ONE = 5_000_000_000
# The budget in processor minutes, and what the proofs of crates that seldom change took of the machine by which it is
# set (docs/PROVING.md): they are as they were then. Another machine took two and a half times as long.
BUDGET = 220
REFERENCE = {"hall_grid": 2.0, "hall_nurikabe": 3.6, "hall_policy": 2.1, "hall_score": 1.3, "hall_sheet": 2.2,
             "hall_slither": 3.3}
TICK, PAGE = os.sysconf("SC_CLK_TCK"), os.sysconf("SC_PAGE_SIZE")
TASKS = ("proof", "tests", "edits")
COUNTS = re.compile(r"^(\d+) passed, (\d+) failed$")
# What `rt ci` says of a crate that it proved before.
KEPT = re.compile(r"^rt: (\w+) is kept: ", re.M)


def read(path):
    with open(path, "rb") as it:
        return it.read().decode(errors="replace")


def provers():
    """The prover's processes: (pid, start), words, folder, seconds used, bytes of memory."""
    for pid in filter(str.isdigit, os.listdir("/proc")):
        try:
            words = read(f"/proc/{pid}/cmdline").split("\0")
            if os.path.basename(words[0]).startswith("rattle") and "--crate-name" in words:
                fields = read(f"/proc/{pid}/stat").rsplit(")", 1)[1].split()
                used = (int(fields[11]) + int(fields[12])) / TICK
                yield (pid, fields[19]), words, os.readlink(f"/proc/{pid}/cwd"), used, int(fields[21]) * PAGE
        except OSError:
            continue


class Times:
    """Seconds by crate and task, and the most memory of one process of a crate."""

    def __init__(self, root):
        self.root, self.used, self.most = root, {}, defaultdict(int)

    def look(self):
        for process, words, folder, seconds, memory in provers():
            name = words[words.index("--crate-name") + 1]
            is_edit = "/rt-edit-" in folder
            at = f"{self.root}/crates/{name}"
            if os.path.isdir(at) if is_edit else f"{folder}/".startswith(f"{self.root}/"):
                task = "edits" if is_edit else "tests" if "--test" in words else "proof"
                self.used[process] = name, task, seconds
                self.most[name] = max(self.most[name], memory)

    def table(self):
        minutes = defaultdict(lambda: dict.fromkeys(TASKS, 0.0))
        for name, task, seconds in self.used.values():
            minutes[name][task] += seconds / 60
        sums = {task: sum(row[task] for row in minutes.values()) for task in TASKS}
        rows = sorted(minutes.items(), key=lambda row: -sum(row[1].values())) + [("all", sums)]
        self.most["all"] = max(self.most.values(), default=0)
        yield f"{'processor minutes':24}" + "".join(f"{task:>8}" for task in (*TASKS, "sum", "GB"))
        for name, row in rows:
            numbers = *row.values(), sum(row.values()), self.most[name] / 1e9
            yield f"{name:24}" + "".join(f"{it:8.1f}" for it in numbers)
        here = [minutes[name]["proof"] for name in REFERENCE]
        if all(here):
            slowness = sum(here) / sum(REFERENCE.values())
            yield (f"proofs take {slowness:.2f} times as long here as where the budget was set: all took "
                   f"{sum(sums.values()) / slowness:.1f} minutes of that machine, of {BUDGET}")


def lanes():
    """How many crates to prove side by side. `rt ci` itself reckons with up to three times what a check takes, and lets
    processors idle."""
    available = int(re.search(r"MemAvailable:\s+(\d+)", read("/proc/meminfo"))[1]) * 1024
    return max(1, min(len(os.sched_getaffinity(0)), available // MOST_OF_ONE))


def counts_in(path, status):
    """What the last line of a log counts as passed and failed."""
    found = [it for it in map(COUNTS.match, read(path).split("\n")) if it]
    passed, failed = map(int, found[-1].groups()) if found else (0, 1)
    return passed, failed or int(status != 0)


def copy_crates(room):
    """Makes a repository of the crates without their must-fail edits."""
    left_out = shutil.ignore_patterns("out", "must-fail")
    shutil.copytree(f"{ROOT}/crates", f"{room}/crates", symlinks=True, ignore=left_out)
    for name in ("crates.txt", "HANDLES"):
        shutil.copy(f"{ROOT}/{name}", room)
    # It is the top of a repository.
    os.mkdir(f"{room}/.git")


def run(room, anew, times, logs):
    """Proves the crates in the room, tries the wrong bodies over them, tells what both say, and returns both."""
    how = {"stdin": subprocess.DEVNULL, "stderr": subprocess.STDOUT, "env": {"RT_JOBS": str(lanes()), **os.environ}}
    edits = ["nice", sys.executable, f"{ROOT}/tools/build/wrong_bodies.py", "--over", room, "--after", logs[0]]
    with open(logs[0], "wb") as proofs_said, open(logs[1], "wb") as edits_said:
        proving = subprocess.Popen(["rt", "ci", *["--anew"] * anew], cwd=room, stdout=proofs_said, **how)
        running = [proving, subprocess.Popen(edits, cwd=ROOT, stdout=edits_said, **how)]
        telling = subprocess.Popen(["tail", "-q", "-n", "+1", "-f", *logs, f"--pid={os.getpid()}"])
        while any(it.poll() is None for it in running):
            times.look()
            time.sleep(EVERY)
            if proving.poll() is not None and not any(map(COUNTS.match, read(logs[0]).split("\n"))):
                # It was killed, and tells nothing more to wait for.
                running[1].terminate()
        time.sleep(2)
        telling.terminate()
        telling.wait()
    return running


def take_program(room, begun):
    """Takes the program that was proved there. A source that has changed since is newer than it."""
    program = build.program_named(room, "hall")
    os.makedirs(f"{ROOT}/crates/hall/out", exist_ok=True)
    build.put(build.program_of(program), f"{ROOT}/crates/hall/out/hall", begun)
    build.keep(program, build.program_of(program))


def main():
    words = argparse.ArgumentParser()
    words.add_argument("--anew", action="store_true", help="prove again what this machine has proved before")
    anew, begun = words.parse_args().anew, time.time()
    with tempfile.TemporaryDirectory(prefix="hall-gate-") as room:
        room = os.path.realpath(room)
        copy_crates(room)
        times, logs = Times(room), [f"{room}/.git/{name}" for name in ("proofs", "edits")]
        running = run(room, anew, times, logs)
        if running[0].returncode == 0:
            take_program(room, begun)
        counts = [counts_in(path, it.returncode) for path, it in zip(logs, running)]
        kept = len(KEPT.findall(read(logs[0])))
    for line in times.table():
        print(line)
    if kept:
        print(f"of {kept} crates the proofs that this machine has kept were taken: ./check --prove --anew proves all")
    print(f"{(time.time() - begun) / 60:.1f} minutes on {os.cpu_count()} processors")
    passed, failed = (sum(it) for it in zip(*counts))
    print(f"{passed} passed, {failed} failed", flush=True)
    return 1 if failed else 0


if __name__ == "__main__":
    sys.exit(main())
