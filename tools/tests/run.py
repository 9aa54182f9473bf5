#!/usr/bin/env python3
"""Runs the tests of the built program, of its clients and of its package, by pytest.

    python3 tools/tests/run.py [-k NAME] [-n 4] [--program PATH] [--all] [FILE[::TEST] ..]

-k picks tests by their names, -n runs so many at once, and FILE is one of this folder. The program is PATH, or HALL of
the environment, or else the one that ./hall runs. --all leaves out no call and no request for memory, which takes
hours; --every N, --seed N and --pictures FOLDER are told where they are used. All other words are pytest's.
The last line is 'N passed, M failed', or 'N passed, M failed, K skipped'. Where no Python here has pytest, each file of
tests counts as skipped, and the status is 77.
"""
import glob
import os
import subprocess
import sys

HERE = os.path.dirname(os.path.realpath(__file__))
# Debian's packages are for this Python, which needn't be the first of the path.
PYTHONS = (sys.executable, "/usr/bin/python3")
NEEDED = ("pytest", "xdist", "selenium", "jsonschema")
SKIPPED_STATUS = 77
# What pytest takes with a word after it.
WITH_A_WORD = ("-k", "-n", "-m", "-p", "--program", "--every", "--seed", "--pictures", "--tb")


def modules_of(python):
    """Which of the modules that tests need this Python has; none where it has no pytest."""
    script = f"import importlib.util as of, pytest; print(*(it for it in {NEEDED} if of.find_spec(it)))"
    ran = subprocess.run([python, "-c", script], capture_output=True, text=True, check=False)
    return ran.stdout.split() if ran.returncode == 0 else []


def files_in(words):
    """The words that name files or tests."""
    return [it for before, it in zip(["", *words], words) if not it.startswith("-") and before not in WITH_A_WORD]


def placed(word):
    """The word, where it names a file of this folder, with its path."""
    there = os.path.join(HERE, word)
    return there if os.path.exists(there.partition("::")[0]) and not os.path.exists(word.partition("::")[0]) else word


def one_by_one(words):
    """The words without -n, for a Python that has no xdist."""
    return [it for before, it in zip(["", *words], words) if "-n" not in (before, it)]


def main():
    words = sys.argv[1:]
    if "--help" in words:
        print(__doc__)
        return 0
    python = max(filter(os.path.exists, PYTHONS), key=lambda it: len(modules_of(it)))
    modules = modules_of(python)
    if not modules:
        count = len(glob.glob(f"{HERE}/test_*.py"))
        print(f"SKIPPED: no Python here has pytest (Debian: python3-pytest), which {count} files of tests need")
        print(f"0 passed, 0 failed, {count} skipped")
        return SKIPPED_STATUS
    files = files_in(words)
    words = words if "xdist" in modules else one_by_one(words)
    # The files stand first, where pytest looks for what knows the other words.
    words = [*([placed(it) for it in files] or [HERE]), *[it for it in words if it not in files]]
    how = ["-c", f"{HERE}/pytest.ini", "--rootdir", HERE]
    os.execv(python, [python, "-B", "-m", "pytest", *how, *words])


if __name__ == "__main__":
    sys.exit(main())
