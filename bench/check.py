#!/usr/bin/env python3
"""Measures `hall check`: how long it takes for files with so many people, each with ten answers, and how much memory.

    python3 bench/check.py [--people N,N..] [--program PATH ..]

Each program must tell the same, or the end is 1.
"""
import argparse
import os
import sys
import tempfile

from lent import PROGRAM
from harness.filled import fill

EACH = 10


def checked(program, path):
    """What the program tells of the file, the seconds of processor time and the megabytes of memory that it took."""
    reading, writing = os.pipe()
    child = os.fork()
    if not child:
        os.dup2(writing, 1)
        os.execv(program, [program, "check", "--db", path])
    os.close(writing)
    with open(reading, encoding="utf-8") as told:
        text = told.read()
    _, status, used = os.wait4(child, 0)
    return (text, os.waitstatus_to_exitcode(status)), used.ru_utime + used.ru_stime, used.ru_maxrss / 1024


def main():
    words = argparse.ArgumentParser()
    words.add_argument("--people", default="2000,8000,32000")
    words.add_argument("--program", nargs="+", default=[PROGRAM])
    given = words.parse_args()
    differ = False
    for people in map(int, given.people.split(",")):
        with tempfile.TemporaryDirectory(prefix="hall-check-") as room:
            fill(f"{room}/hall.db", EACH * people, others=people)
            size = os.path.getsize(f"{room}/hall.db") / 1e6
            first = None
            for program in given.program:
                told, seconds, most = checked(program, f"{room}/hall.db")
                first = first or told
                differ = differ or told != first
                print(f"{people} people with {EACH} answers each, {size:.0f} MB: {seconds:.1f} s with {most:.0f} MB, "
                      f"status {told[1]}, {len(told[0])} bytes told ({program})", flush=True)
    sys.exit("what the programs tell differs" if differ else 0)


if __name__ == "__main__":
    main()
