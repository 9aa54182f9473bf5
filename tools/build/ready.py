#!/usr/bin/env python3
"""Says, in seconds and without a proof, what the gate would refuse at first sight: files that aren't laid out as
`rt fmt` does, files that no check reads, texts that a verdict stops at, and must-fail edits, those of
must-fail/further.md too, whose `old:` text doesn't stand once.

    python3 tools/build/ready.py

Run by ./check; it ends with 1 where it found something.
"""
import os
import shutil
import subprocess
import sys

ROOT = os.path.realpath(f"{__file__}/../../..")
sys.path.insert(0, os.path.dirname(os.path.realpath(shutil.which("rt"))))
import rtlib  # noqa: E402
import wrong_bodies  # noqa: E402


def edits_that_do_not_stand(crate):
    """The wrong bodies of the crate, in the gate and outside it, that don't fit the sources any more."""
    for further in (False, True):
        for name, text in wrong_bodies.texts_of(crate.name, further):
            try:
                fault = wrong_bodies.Edit(name, text, crate.folder).fault
            except FileNotFoundError as why:
                fault = f"BAD EDIT: {why}"
            if fault:
                where = "further.md, " if further else ""
                yield f"{os.path.relpath(crate.folder, ROOT)}/must-fail/{where}{name}: {fault}"


def main():
    os.chdir(ROOT)
    every, found = rtlib.crates_below(ROOT), 0
    for crate in every:
        for test in (
            lambda: rtlib.stop_on_links(crate.folder),
            lambda: rtlib.stop_on_unread(crate.folder, every),
            lambda: rtlib.stop_on_text(crate, "verdict"),
        ):
            try:
                test()
            except SystemExit as why:
                found += 1
                print(f"{crate.name}: {why}")
        files = [it for it in rtlib.files_of(crate.folder) if it.endswith((".rt", ".antt"))]
        if subprocess.run([rtlib.RATTLE, "fmt", "--check", *files]).returncode:
            found += 1
            print(f"{crate.name}: run `rt fmt` in {os.path.relpath(crate.folder, ROOT)}")
        for line in edits_that_do_not_stand(crate):
            found += 1
            print(line)
    print("ready" if not found else f"{found} found")
    return 1 if found else 0


sys.exit(main())
