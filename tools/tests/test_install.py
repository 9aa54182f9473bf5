"""Which Debian packages ./check installs, and what it says where it can't, with stand-ins for Debian's commands."""
import os
import subprocess

import pytest
from harness.checks import check
from harness.running import ROOT

SAYS = "check: tests that need these Debian packages are skipped; as root, this line installs them:"
LINE = "  apt-get update; apt-get install -y --no-install-recommends "
# Each works on the file `there`. A package that isn't to be had leaves all of its call undone.
STAND_INS = {
    "id": "echo $ID",
    "dpkg-query": "sed 's/^/installed /' there",
    "apt-get": """case " $* " in
*" update "*) ;;
*" $REFUSED "*) exit 100 ;;
*" --download-only "*) ;;
*) printf '%s\\n' "$@" | sed '1,/^--no-install/d' >> there
esac""",
}


@pytest.fixture
def install(room):
    """Runs the script for this user, where one package isn't to be had: its lines, and what is there after it."""
    for name, text in STAND_INS.items():
        with open(f"{room}/{name}", "w", encoding="ascii") as file:
            file.write(f"#!/bin/sh\n{text}\n")
        os.chmod(f"{room}/{name}", 0o755)
    open(f"{room}/there", "w", encoding="ascii").close()

    def run(user, refused="none"):
        env = {**os.environ, "PATH": f"{room}:{os.environ['PATH']}", "ID": str(user), "REFUSED": refused}
        words = [f"{ROOT}/tools/tests/install.sh"]
        ran = subprocess.run(words, cwd=room, env=env, capture_output=True, text=True, check=True)
        with open(f"{room}/there", encoding="ascii") as file:
            return ran.stdout.splitlines(), file.read().split()

    return run


def test_install(install):
    told, there = install(1000)
    needed = told[1].removeprefix(LINE).split()
    check("what others than root are told", (told, there), ([SAYS, LINE + " ".join(needed)], []))
    told, there = install(0, refused="lintian")
    check("what root is told, where one isn't to be had", told[1:], [SAYS, f"{LINE}lintian"])
    check("what is there then", sorted(there), sorted(set(needed) - {"lintian"}))
    check("what root is told, where the last one is to be had",
          install(0), (["check: installing 1 Debian packages for the tests: lintian"], [*there, "lintian"]))
    check("what is told, where all are there", install(1000), ([], [*there, "lintian"]))
