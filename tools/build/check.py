#!/usr/bin/env python3
"""Checks a crate as `rt check` does, over the libraries that ./hall has made, which hold no proofs and are soon read.

    python3 tools/build/check.py CRATE [FLAG ..]
    python3 tools/build/check.py --make CRATE [--jobs N]

The flags are those of `rattle check`, as --only PATH or --test. What is proved is kept in the crate's out/incremental,
as by `rt check`. A library below that was not made of the sources as they stand is taken as it was. With --make the
crate's library or program is made over what is kept, for the checks of the crates above it and for ./hall; the
libraries below must then be made of the sources as they stand.
"""
import fcntl
import os
import sys

from build import ROOT, Made, rtlib


def shared(crate):
    """Waits until nobody makes the crate's library, and keeps others from it until this ends."""
    fcntl.flock(os.open(crate.folder, os.O_RDONLY), fcntl.LOCK_SH)


def main():
    words = sys.argv[1:]
    makes = words[:1] == ["--make"]
    name, *flags = words[makes:] or [""]
    rtlib.guarded()
    made = {it.name: Made(it) for it in rtlib.crates_below(ROOT)}
    if name not in made:
        sys.exit(__doc__)
    it = made[name]
    rtlib.lock([it.crate])
    for below in it.crate.below():
        shared(below)
    old = [below.name for below in it.crate.below() if not made[below.name].is_made()]
    if old:
        print(f"changed since their libraries were made: {', '.join(old)}", file=sys.stderr)
    if makes:
        jobs = (rtlib.jobs_in(flags) or ["1"])[-1]
        return 0 if not old and it.make(it.prove_over_kept, jobs, it.crate.stamp(), sys.stdout) else 1
    os.makedirs(f"{it.crate.folder}/out", exist_ok=True)
    jobs = [] if rtlib.jobs_in(flags) else ["--jobs", "1"]
    checked = [*it.crate.words([*jobs, *flags], tests="--test" in flags), *rtlib.KEPT, "--progress"]
    return it.crate.call(rtlib.RATTLE, "check", *checked)


if __name__ == "__main__":
    sys.exit(main())
