#!/usr/bin/env python3
"""Measures Submits over a volume of GlusterFS with whole copies on three machines, beside the local disk.

    python3 bench/second.py [--clients N,N..] [--all N] [--times N] [--program PATH] [--folder FOLDER]

The machines are namespaces of this one, with the settings of examples/running/pair, so that all copies are on one disk.
So many clients on kept connections hand in one wrong answer after another, N in all, on the machine that serves, but no
more than the 1,250 each that a round of 25 puzzles takes. Told are Submits a second, the time to the whole reply
(median, 99th of a hundred, greatest), and the syncs that the hall made for them, where strace can count them: in a turn
of its own, since it makes them slower. All is done TIMES times, the local disk and the volume in turn, as others may
have the machine too. Only root can make machines.
"""
import argparse
import os
import shlex
import shutil
import subprocess
import tempfile

from crowd import fill, ran
from late import submits
from lent import PROGRAM
from harness.beside import within
from harness.running import ROOT, removed, traced
from harness.volume import Volume, waited

PORT, LIMIT, MOST_EACH = 8080, 120, 1250


class Local:
    """This system itself, with the file on its own disk."""
    name = "the local disk"

    def __init__(self, room):
        self.place = f"{room}/local"
        os.makedirs(self.place, exist_ok=True)

    def inside(self, words):
        return words


class Remote:
    """A machine that has the volume."""
    name = "GlusterFS"

    def __init__(self, volume):
        self.machine, self.place = volume["one"], volume.mount("one")
        waited("its mount speaks to all copies", lambda: volume.is_linked("one"))

    def inside(self, words):
        return self.machine.inside(words)


def handed_in(where, program, room, tool, clients, each):
    """The seconds that a crowd took, and what came of each request, at a hall with a new file."""
    path = f"{where.place}/hall.db"
    removed(f"{room}/filled")
    fill(f"{room}/filled", clients)
    subprocess.run(where.inside(["sh", "-c", f"rm -f {path}*; cp {room}/filled {path}"]), check=True)
    words = f"echo $$ >{room}/pid; exec {program} serve --db {path} --port {PORT}"
    hall = subprocess.Popen(where.inside(["sh", "-c", words]), stderr=subprocess.DEVNULL)
    try:
        asked = where.inside(["curl", "-s", "-o", "/dev/null", f"http://127.0.0.1:{PORT}/rounds"])
        waited("the hall serves", lambda: subprocess.run(asked, check=False).returncode == 0)
        with open(f"{room}/there", "w", encoding="ascii") as file:
            file.write(f'#!/bin/sh\nexec {shlex.join(where.inside([tool]))} "$@"\n')
        os.chmod(f"{room}/there", 0o755)
        return ran(f"{room}/there", PORT, submits(clients, each, "many"), True, LIMIT)
    finally:
        with open(f"{room}/pid", encoding="ascii") as file:
            subprocess.run(where.inside(["kill", "-9", file.read().strip()]), check=True)
        hall.wait()


def measured(where, args, room, tool, clients):
    each = max(1, min(MOST_EACH, args.all // clients))
    spent, found = handed_in(where, args.program, room, tool, clients, each)
    took = [it.took / 1e6 for it in found if it.status == 200]
    waits = " / ".join(f"{within(took, part):.3f}" for part in (0.5, 0.99, 1))
    syncs = ""
    if shutil.which("strace"):
        _, counted = handed_in(where, traced(args.program, room, "-e", "trace=fdatasync"), room, tool, clients, each)
        with open(f"{room}/calls", encoding="ascii") as file:
            made = sum("fdatasync(" in line for line in file)
        syncs = f"; {made} syncs for {sum(it.status == 200 for it in counted)} of another turn"
    print(f"{where.name}, {clients} clients: {len(took) / spent:.0f} Submits a second, waits {waits} s, "
          f"{len(found) - len(took)} not answered{syncs}; load {os.getloadavg()[0]:.1f}", flush=True)


def main():
    parser = argparse.ArgumentParser(description=__doc__, formatter_class=argparse.RawDescriptionHelpFormatter)
    parser.add_argument("--clients", default="1,20,200")
    parser.add_argument("--all", type=int, default=3000)
    parser.add_argument("--times", type=int, default=2)
    parser.add_argument("--program", default=PROGRAM, type=os.path.abspath)
    parser.add_argument("--folder")
    args = parser.parse_args()
    with tempfile.TemporaryDirectory(prefix="hall-second-", dir=args.folder) as room, Volume(room) as volume:
        tool = f"{room}/crowd"
        subprocess.run(["gcc", "-O2", "-o", tool, f"{ROOT}/bench/crowd.c"], check=True)
        places = Local(room), Remote(volume)
        for _ in range(args.times):
            for clients in map(int, args.clients.split(",")):
                for where in places:
                    measured(where, args, room, tool, clients)


if __name__ == "__main__":
    main()
