"""What ./check runs, in which order, and what it counts and says, with stand-ins for all that it runs."""
import importlib
import os
import shutil
import subprocess
import sys

import pytest
from harness.checks import check, must_be
from harness.running import ROOT

# What stands for a script: it notes how it was called, tells its line, and ends with its status.
STAND_IN = """#!/bin/sh
echo "{path}${{*:+ $*}}${{HALL_PROVED:+ proved}}" >> calls
echo '{line}'
exit {status}
"""
UNPROVED, PROVED = (f"hall: commit c, built {it} proofs" for it in ("without", "of"))
# The line and the status of each, where all goes well.
WELL = {
    "tools/tests/install.sh": ("", 0),
    "tools/build/ready.py": ("ready", 0),
    "tools/pages/promises.py": ("", 0),
    "tools/build/allocations.py": ("", 0),
    "tools/build/gate.py": ("5 passed, 0 failed", 0),
    "hall": (UNPROVED, 0),
    "tools/tests/run.py": ("7 passed, 0 failed, 2 skipped", 0),
}
COMPARED = ["tools/tests/install.sh", "tools/build/ready.py", "tools/pages/promises.py --check",
            "tools/build/allocations.py"]
PROCESSORS = int(subprocess.run(["nproc"], capture_output=True, text=True, check=True).stdout)
# Most tests wait by the clock.
TESTED = f"tools/tests/run.py -n {max(4, PROCESSORS)}"
LEFT_OUT = {
    UNPROVED: "check: no proofs were made: ./check --prove makes them, and tries the wrong bodies",
    PROVED: "check: no wrong bodies were tried: ./check --prove tries them",
}


@pytest.fixture
def run(room):
    """Runs ./check with these words, where some scripts end otherwise: its lines, its status, and what it called."""
    def run(*words, **other):
        named = {os.path.basename(path).split(".")[0]: path for path in WELL}
        for path, (line, status) in {**WELL, **{named[name]: end for name, end in other.items()}}.items():
            os.makedirs(os.path.dirname(f"{room}/{path}"), exist_ok=True)
            with open(f"{room}/{path}", "w", encoding="utf-8") as file:
                file.write(STAND_IN.format(path=path, line=line, status=status))
            os.chmod(f"{room}/{path}", 0o755)
        open(f"{room}/calls", "w", encoding="utf-8").close()
        env = {it: value for it, value in os.environ.items() if it != "HALL_PROVED"}
        ran = subprocess.run([f"{room}/check", *words], env=env, capture_output=True, text=True, check=False)
        with open(f"{room}/calls", encoding="utf-8") as file:
            return ran.stdout.splitlines(), ran.returncode, file.read().splitlines()

    shutil.copy(f"{ROOT}/check", room)
    return run


@pytest.mark.parametrize("built", LEFT_OUT, ids=("unproved", "proved"))
def test_the_tests_alone(run, built):
    lines, status, called = run(hall=(built, 0))
    check("the last lines", lines[-2:], [LEFT_OUT[built], "10 passed, 0 failed, 2 skipped"])
    check("the status and the calls", (status, called), (0, [*COMPARED, "hall --version", TESTED, "hall --version"]))


def test_the_whole_gate(run):
    for words in (["--prove"], ["--prove", "--anew"]):
        lines, status, called = run(*words, hall=(PROVED, 0))
        check("the last line", (lines[-1], status), ("15 passed, 0 failed, 2 skipped", 0))
        gate = " ".join(["tools/build/gate.py", *words[1:]])
        check("the calls", called, [*COMPARED, gate, "hall --version proved", f"{TESTED} proved"])
        check("whether something was left out", [it for it in lines if it in LEFT_OUT.values()], [])


def test_the_gates_table_is_told_again_at_the_end(run):
    table = ["processor minutes   proof", "all   1.0", "1.0 minutes on 4 processors"]
    lines, _, _ = run("--prove", gate=("\n".join([*table, "5 passed, 0 failed"]), 0))
    check("the last lines", lines[-4:], [*table, "15 passed, 0 failed, 2 skipped"])


@pytest.mark.parametrize("other, counts", [
    ({"ready": ("1 found", 1)}, "9 passed, 1 failed, 2 skipped"),
    ({"run": ("6 passed, 1 failed", 1)}, "9 passed, 1 failed"),
    ({"run": ("7 passed, 0 failed", 1)}, "10 passed, 1 failed"),
    ({"run": ("it was killed", 137)}, "3 passed, 1 failed"),
    ({"hall": ("", 3)}, "3 passed, 1 failed"),
])
def test_what_fails(run, other, counts):
    lines, status, _ = run(**other)
    must_be("the last line and the status", (lines[-1], status), (counts, 1))


def test_without_pytest_the_tests_are_skipped(run):
    lines, status, _ = run(run=("0 passed, 0 failed, 30 skipped", 77))
    must_be("the last line and the status", (lines[-1], status), ("3 passed, 0 failed, 30 skipped", 0))


def test_the_table_is_told_in_minutes_of_the_machine_of_the_budget(monkeypatch):
    monkeypatch.setattr(sys, "path", [f"{ROOT}/tools/build", *sys.path])
    gate = importlib.import_module("gate")
    times = gate.Times("/nowhere")
    times.used = {name: (name, "proof", 120 * minutes) for name, minutes in gate.REFERENCE.items()}
    times.used["edits"] = "hall_http", "edits", 6000
    taken = sum(gate.REFERENCE.values()) + 50
    check("the last line", list(times.table())[-1], "proofs take 2.00 times as long here as where the budget was set: "
          f"all took {taken:.1f} minutes of that machine, of 220")
    del times.used["hall_grid"]
    check("where some were kept", [it for it in times.table() if it.startswith("proofs take")], [])


def test_words(run):
    lines, status, called = run("--help")
    check("--help", (status, called, any("./check --prove [--anew]" in it for it in lines)), (0, [], True))
    for words in (["--anew"], ["--prove", "--all"], ["prove"]):
        check(f"{words}", run(*words), ([], 2, []))
