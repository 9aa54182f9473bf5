#!/usr/bin/env python3
"""Measures `hall migrate`: how long it takes for files of the first version with so many answers, and how much memory.

    python3 bench/migrate.py [--answers N,N..]
"""
import argparse
import resource
import subprocess
import tempfile
import time

from lent import PROGRAM
from harness.database import FIRST_TABLES
from harness.filled import fill
from harness.running import bytes_of


def main():
    words = argparse.ArgumentParser()
    words.add_argument("--answers", default="1000,10000,100000")
    for count in map(int, words.parse_args().answers.split(",")):
        with tempfile.TemporaryDirectory(prefix="hall-migrate-") as room:
            fill(f"{room}/old.db", count, FIRST_TABLES)
            begun = time.time()
            words = [PROGRAM, "migrate", "--from", f"{room}/old.db", "--to", f"{room}/new.db"]
            ran = subprocess.run(words, capture_output=True, check=False)
            seconds = time.time() - begun
            # the greatest of all children so far: the counts rise
            most = resource.getrusage(resource.RUSAGE_CHILDREN).ru_maxrss / 1024
            size = sum(map(len, bytes_of(f"{room}/new.db")))
            print(f"{count} answers: {ran.stdout.decode().strip()} in {seconds:.1f} s with {most:.0f} MB, "
                  f"{size / 1e6:.0f} MB written", flush=True)


if __name__ == "__main__":
    main()
