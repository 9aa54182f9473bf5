"""Builds a program of bench in a copy of the crates that it stands on.

The copy holds their libraries, where ./hall has made them; the program is proved and built there.
The sources have an ending of their own, since the gate refuses a `.rt` file of no crate.
"""
import glob
import os
import shutil
import sys
import tempfile

BENCH = os.path.dirname(os.path.realpath(__file__))
ROOT = os.path.dirname(BENCH)
sys.path.insert(0, f"{ROOT}/tools/build")
import build as builder  # noqa: E402

ENDING = ".rattle"


def crates_below(stands_on):
    """The lines of crates.txt for the crates that a program stands on."""
    with open(f"{ROOT}/crates.txt", encoding="utf-8") as file:
        lines = [line.partition("#")[0].partition(":") for line in file]
    below_of = {name.split()[0]: below.split() for name, mark, below in lines if mark}
    wanted = list(stands_on)
    for name in wanted:
        wanted += [below for below in below_of[name] if below in below_of and below not in wanted]
    return {name: below_of[name] for name in below_of if name in wanted}


def build(name, sources, stands_on):
    """Builds the program, and tells where it is."""
    crates = crates_below(stands_on)
    with tempfile.TemporaryDirectory(prefix="bench-") as folder:
        for crate in crates:
            # Not the checks' kept work.
            ignored = shutil.ignore_patterns("incremental", "must-fail")
            shutil.copytree(f"{ROOT}/crates/{crate}", f"{folder}/crates/{crate}", ignore=ignored)
        os.makedirs(f"{folder}/crates/{name}/src")
        for source in glob.glob(f"{sources}/*{ENDING}"):
            shutil.copy(source, f"{folder}/crates/{name}/src/{os.path.basename(source).removesuffix(ENDING)}.rt")
        with open(f"{folder}/crates.txt", "w", encoding="utf-8") as file:
            file.writelines(f"{crate}: {' '.join(below)}\n" for crate, below in {**crates, name: stands_on}.items())
        if not builder.build(folder, name):
            sys.exit(1)
        os.makedirs(f"{sources}/out", exist_ok=True)
        return shutil.copy(f"{folder}/crates/{name}/out/{name}", f"{sources}/out/{name}")
