#!/usr/bin/env python3
"""Proves and builds the program `hall`, crates side by side where processors and memory allow, and shows how far it is.

    python3 tools/build/build.py [--kept]

Run by ./hall --prove. All that the kit says goes to build.log; what this prints goes to standard error. The program is
kept in the user's cache too: another clone of the same sources takes it from there by --kept, which makes nothing, and
ends with 1 where none is kept.
"""
import glob
import os
import re
import shutil
import signal
import sys
import threading
import time
from collections import deque

sys.path.insert(0, os.path.dirname(os.path.realpath(shutil.which("rt") or "rt")))
import rtlib  # noqa: E402

ROOT = os.path.realpath(f"{__file__}/../../..")
# What a program is linked with, and by what.
C_CODE = [f"{rtlib.KIT}/c/libos_c.a", f"{rtlib.KIT}/c/liblibc_c.a"]
LINK = [f"{rtlib.KIT}/bin/rattle-link", "--target", "x86_64-unknown-linux-gnu"]
# What one process takes at the most but for two crates, in bytes.
MEMORY_OF_ONE = 5_000_000_000
EVERY = 15
# More processes than this hardly shorten the proof of one crate.
MOST_OF_ONE = 4
# So many of the last lines are told of a crate that fails.
LAST = 20
# So many programs are kept, of 4 MB each.
MOST_KEPT = 8
# How far a crate stands back behind each that is being proved and has more behind it.
STANDS_BACK = 3


def tell(text):
    print(f"hall: {text}", file=sys.stderr, flush=True)


def at_once():
    """How many processors to prove with."""
    with open("/proc/meminfo", encoding="ascii") as file:
        kibibytes = next(int(line.split()[1]) for line in file if line.startswith("MemAvailable"))
    return max(1, min(len(os.sched_getaffinity(0)), kibibytes * 1024 // MEMORY_OF_ONE))


class Said:
    """What the prover says of a crate: it goes to the log, and tells how far it is."""

    FAR = re.compile(r"checked \S+, (\d+) of (\d+)")

    def __init__(self, log):
        self.log, self.proved, self.functions, self.last = log, 0, 0, deque(maxlen=LAST)

    def write(self, text):
        found = self.FAR.match(text)
        if found:
            self.proved, self.functions = map(int, found.groups())
        else:
            self.last.append(text)
        return self.log.write(text)

    def flush(self):
        self.log.flush()


def without(words, *names):
    """The words without these flags and their values."""
    return [it for at, it in enumerate(words) if it not in names and (at == 0 or words[at - 1] not in names)]


def program_of(crate):
    return f"{crate.folder}/out/{crate.name}"


class Made:
    """What is made of a crate: a library, or the program.

    As under `rt verdict` a library holds what other crates can cite of it, without its proofs, which each process of
    each crate above would read. It lies below the folder of the library that `rt` makes, where alone rt lets files lie,
    and which `rt check` and `rt lib` empty when they make theirs."""

    def __init__(self, crate):
        self.crate, self.folder = crate, f"{crate.folder}/out/rlib/statements"
        self.said, self.begun = None, 0.0
        # Where the crates above look for it.
        crate.rlib = f"{self.folder}/{crate.name}.rlib"

    def there(self):
        """What tells that it is there: the program's sum, or whether there is a library."""
        return rtlib.sum_of(program_of(self.crate)) if self.crate.is_program else os.path.isdir(self.crate.rlib)

    def is_made(self):
        """Whether it is there, made of the sources as they stand."""
        return rtlib.text_of(f"{self.folder}/stamp") == f"{self.crate.stamp()} {self.there()}"

    def call(self, *words):
        return self.crate.call(*words) == 0

    def prove(self, jobs):
        """Proves the crate from nothing, and makes its library or program. It returns whether that is there."""
        crate, checked = self.crate, f"{self.folder}/checked"
        words = crate.words(["--jobs", str(jobs)], keeps=False)
        cut = [] if crate.is_program else ["--statements"]
        if not self.call(rtlib.RATTLE, "check", *words, *cut, "--progress", "-o", checked):
            return False
        return self.build(*without(words, "--jobs", "--logic-built"), "--crate-checked", checked)

    def prove_over_kept(self, jobs):
        """Proves what no check has kept, and makes a library that holds the proofs, or the program. It returns whether
        that is there."""
        return self.build(*self.crate.words(["--jobs", str(jobs)]), *rtlib.KEPT)

    def build(self, *words):
        crate, code = self.crate, f"{self.folder}/{self.crate.name}.o"
        if not crate.is_program:
            return self.call(rtlib.RATTLE, "build", *words, "-o", crate.rlib)
        of_machine = ["--toolchain", f"{rtlib.KIT}/toolchain"]
        linked = ["-o", program_of(crate), code, *C_CODE]
        if not self.call(rtlib.RATTLE, "build", *words, *of_machine, "-o", code):
            return False
        return self.call(*LINK, *of_machine, *linked)

    def make(self, prove, jobs, stamp, out):
        """Makes it anew by a function of these two, and returns whether it is there, made of the sources that have this
        stamp."""
        self.said, self.begun = Said(out), time.time()
        self.crate.out = self.said
        shutil.rmtree(self.folder, ignore_errors=True)
        os.makedirs(self.folder)
        if not prove(jobs):
            return False
        if self.crate.stamp() != stamp:
            print("the sources have changed meanwhile: give the command again", file=self.said)
            return False
        with open(f"{self.folder}/stamp", "w", encoding="utf-8") as file:
            file.write(f"{stamp} {self.there()}")
        return True


class Build:
    """The crates that the program stands on and the program itself, each made once those below it are. The processors
    are shared by those that may be made at one time, since two processes for a crate take up to twice the processor
    time of one. Those with less work behind them stand back a little."""

    def __init__(self, program, most, log):
        self.crates, self.most, self.log = [*program.below(), program], most, log
        self.made = {it: Made(it) for it in self.crates}
        self.done, self.running, self.failed = set(), set(), None
        self.changed = threading.Condition()

    def behind(self, crate):
        """The lines of the longest chain of crates that wait for this one, with its own."""
        above = [self.behind(it) for it in self.crates if crate in it.deps]
        return crate.count(rb"\n") + max(above, default=0)

    def tell_of(self, crate, word):
        made, place = self.made[crate], f"{self.crates.index(crate) + 1} of {len(self.crates)}"
        if made.said:
            minutes = (time.time() - made.begun) / 60
            far = f"{made.said.proved:4} of {made.said.functions:4} functions {minutes:6.1f} minutes"
            tell(f"{crate.name:14} {place:>8}  {word:6} {far}")

    def make(self, crate, jobs, stands_back):
        # A process has the priority of the thread that starts it.
        own = os.getpriority(os.PRIO_PROCESS, 0)
        os.setpriority(os.PRIO_PROCESS, threading.get_native_id(), min(19, own + stands_back))
        made, done = self.made[crate], False
        try:
            with open(self.log, "a", encoding="utf-8") as out:
                done = made.is_made() or made.make(made.prove, jobs, self.stamps[crate], out)
        finally:
            with self.changed:
                self.running.remove(crate)
                self.done.add(crate)
                self.failed = self.failed or (None if done else crate)
                self.tell_of(crate, "built" if done else "failed")
                self.changed.notify()

    def start(self):
        """Starts what may be made now, at most as many crates as there are processors."""
        begun = self.done | self.running
        ready = [it for it in self.crates if it not in begun and self.done.issuperset(it.below())]
        ready.sort(key=self.behind, reverse=True)
        jobs = max(1, self.most // max(1, len(ready) + len(self.running)))
        for crate in ready[: self.most - len(self.running)]:
            before = sum(self.behind(it) > self.behind(crate) for it in self.running)
            self.running.add(crate)
            threading.Thread(target=self.make, args=(crate, min(MOST_OF_ONE, jobs), before * STANDS_BACK)).start()

    def run(self):
        """Makes all, and returns the crate that failed, if one did."""
        held = rtlib.lock(self.crates)
        open(self.log, "wb").close()
        self.stamps = {it: it.stamp() for it in self.crates}
        with self.changed:
            while len(self.done) < len(self.crates) and not (self.failed and not self.running):
                if not self.failed:
                    self.start()
                if not self.changed.wait(EVERY):
                    for crate in self.running:
                        self.tell_of(crate, "so far")
        for it in held:
            os.close(it)
        return self.failed


def kept_at(program):
    """Where a program that this kit proved of these sources is kept, for each clone on this machine. Whoever can write
    there is trusted."""
    return f"{os.environ.get('XDG_CACHE_HOME') or os.path.expanduser('~/.cache')}/hall/{program.stamp()}"


def put(made, at, when=None):
    """Copies a program to where one may be running, as made at this moment."""
    beside = f"{at}.{os.getpid()}"
    shutil.copy(made, beside)
    if when:
        os.utime(beside, (when, when))
    os.replace(beside, at)


def keep(program, made):
    """Keeps a proved program, and those that were kept last."""
    at = kept_at(program)
    try:
        os.makedirs(os.path.dirname(at), 0o700, exist_ok=True)
        put(made, at)
        for old in sorted(glob.glob(f"{os.path.dirname(at)}/*"), key=os.path.getmtime)[:-MOST_KEPT]:
            os.remove(old)
    except OSError as fault:
        tell(f"the proved program isn't kept for other clones: {fault}")


def take(program):
    """Takes the program from what is kept, and returns whether it could."""
    at, begun = kept_at(program), time.time()
    if not os.path.isfile(at):
        return False
    os.makedirs(os.path.dirname(program_of(program)), exist_ok=True)
    put(at, program_of(program), begun)
    tell(f"taken from {at}, proved earlier of the same sources by the same kit")
    return True


def program_named(root, name):
    return next(it for it in rtlib.crates_below(root) if it.name == name)


def build(root, name):
    """Builds the program of this name in a folder of crates, and returns whether it is there."""
    # It sets handlers of signals, which a thread can't.
    rtlib.guarded()
    begun, log = time.time(), f"{root}/build.log"
    program, most = program_named(root, name), at_once()
    crates = len(program.below()) + 1
    tell(f"proving and building {crates} crates, with {most} processors; {log} has what the prover says")
    made = Build(program, most, log)
    failed = made.run()
    if failed:
        said = made.made[failed].said
        print("".join(said.last if said else ()), file=sys.stderr)
        tell(f"the program was not built: {failed.name} failed")
        return False
    # A source that has changed since is newer than the program.
    os.utime(program_of(program), (begun, begun))
    return True


def main():
    # Else Python would wait for the threads.
    signal.signal(signal.SIGINT, signal.SIG_DFL)
    os.chdir(ROOT)
    program = program_named(ROOT, "hall")
    if "--kept" in sys.argv[1:]:
        return 0 if take(program) else 1
    stamp = program.stamp()
    if not build(ROOT, "hall"):
        return 3
    if program.stamp() == stamp:
        keep(program, program_of(program))
    return 0


if __name__ == "__main__":
    sys.exit(main())
