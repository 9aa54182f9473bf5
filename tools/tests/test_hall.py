"""Which program ./hall runs, with stand-ins for what builds one; and how a small program's code is parted.

Nothing of the hall is proved or built.
"""
import os
import shutil
import subprocess
import sys
import time

import pytest
from harness.checks import must_be
from harness.running import ROOT

sys.path.append(f"{ROOT}/tools/build")
import build  # noqa: E402
import parting  # noqa: E402

SAYS_UNPROVED = "hall: this program is built without proofs: ./hall --prove proves it\n"
# What stands for a script that builds: it notes how it was called, and makes a program where it is told to.
STAND_IN = """import os, sys
room = os.path.realpath(f"{__file__}/../../..")
words = " ".join([os.path.basename(__file__), *sys.argv[1:]])
with open(f"{room}/calls", "a") as file:
    file.write(words.replace(room + "/", "") + "\\n")
status = int(os.environ.get(STATUS, 0)) if "--kept" not in sys.argv else int(os.environ.get("KEPT", 1))
if status == 0 and MADE:
    made = f"{room}/{MADE}"
    os.makedirs(os.path.dirname(made), exist_ok=True)
    with open(made, "w") as file:
        file.write(f"#!/bin/sh\\necho {SAYS} $*\\n")
    os.chmod(made, 0o755)
sys.exit(status)
"""
PROVED, UNPROVED = "crates/hall/out/hall", "crates/hall/out/unproved/hall"


class Repository:
    """A repository with ./hall, a crate, and stand-ins for what builds."""

    def __init__(self, room):
        self.room = room
        shutil.copy(f"{ROOT}/hall", room)
        for name, made, says in (("build", PROVED, "proved"), ("unproved", UNPROVED, "unproved"), ("package", "", "")):
            given = f"STATUS, MADE, SAYS = {f'{name.upper()}_STATUS', made, says}\n"
            self.write(f"tools/build/{name}.py", given + STAND_IN)
        for part in ("src/main.rt", "specs/Lib.antt", "proofs/Lib.antt"):
            self.write(f"crates/hall/{part}", "")
        self.write("crates.txt", "")
        self.write("bin/rt", "#!/bin/sh\n")
        os.chmod(f"{room}/bin/rt", 0o755)

    def write(self, path, text):
        os.makedirs(os.path.dirname(f"{self.room}/{path}"), exist_ok=True)
        with open(f"{self.room}/{path}", "w", encoding="utf-8") as file:
            file.write(text)

    def change(self, part):
        """Changes a file of a part of the crate, later than all that is built."""
        path = f"{self.room}/crates/hall/{part}"
        self.write(f"crates/hall/{part}/new", "")
        os.utime(f"{path}/new", (time.time() + 1, time.time() + 1))

    def age(self):
        """Makes what was changed so far older than what was built of it."""
        os.utime(f"{self.room}/crates.txt", (1, 1))
        for at, _, names in os.walk(f"{self.room}/crates"):
            for name in names:
                os.utime(f"{at}/{name}", (1, 1) if "/out" not in at else (2, 2))

    def commit(self):
        """Commits the crates, and returns the commit."""
        git = ["git", "-C", self.room, "-c", "user.name=t", "-c", "user.email=t@t"]
        for words in (["init", "--quiet"], ["add", "crates.txt", "crates/hall/src"], ["commit", "--quiet", "-m", "t"]):
            subprocess.run([*git, *words], check=True)
        return subprocess.run([*git, "rev-parse", "HEAD"], check=True, capture_output=True, text=True).stdout.strip()

    def run(self, *words, path="bin", **settings):
        """What ./hall writes on both streams, its status, and which scripts it called."""
        self.write("calls", "")
        env = {"PATH": f"{self.room}/{path}:{os.path.dirname(sys.executable)}:/usr/bin:/bin", **settings}
        ran = subprocess.run([f"{self.room}/hall", *words], env=env, capture_output=True, text=True, check=False)
        with open(f"{self.room}/calls", encoding="utf-8") as file:
            return ran.stdout, ran.stderr, ran.returncode, file.read().splitlines()


@pytest.fixture
def here(room):
    return Repository(room)


def test_the_unproved_program_is_built_once_and_says_so(here):
    wanted = ("unproved judge\n", SAYS_UNPROVED, 0)
    must_be("the first run", here.run("judge"), (*wanted, ["build.py --kept", "unproved.py"]))
    here.age()
    must_be("the second run", here.run("judge"), (*wanted, []))
    here.change("proofs")
    must_be("a run after a proof has changed", here.run("judge"), (*wanted, []))
    here.change("src")
    must_be("a run after the code has changed", here.run("judge"), (*wanted, ["build.py --kept", "unproved.py"]))


def test_a_proved_program_is_taken_before_any_other(here):
    must_be("with a kept one", here.run("judge", KEPT="0"), ("proved judge\n", "", 0, ["build.py --kept"]))
    here.age()
    must_be("with one that is there", here.run("judge"), ("proved judge\n", "", 0, []))
    here.change("proofs")
    wanted = ("unproved judge\n", SAYS_UNPROVED, 0, ["build.py --kept", "unproved.py"])
    must_be("with one of other proofs", here.run("judge"), wanted)


def test_prove_builds_and_runs_no_other_program(here):
    here.run("judge")
    here.age()
    called = ["build.py --kept", "build.py"]
    must_be("where the proof fails", here.run("--prove", BUILD_STATUS="3"), ("", "", 3, called))
    must_be("without words", here.run("--prove"), ("", "", 0, called))
    must_be("with words", here.run("--prove", "judge"), ("proved judge\n", "", 0, []))
    here.change("specs")
    wanted = ("proved judge\n", "", 0, ["build.py --kept"])
    must_be("where it is told to run proved ones alone", here.run("judge", HALL_PROVED="1", KEPT="0"), wanted)


def test_where_the_kit_builds_nothing_without_proofs_they_are_made(here):
    wanted = ("proved judge\n", "", 0, ["build.py --kept", "unproved.py", "build.py --kept", "build.py"])
    must_be("a run", here.run("judge", UNPROVED_STATUS="1"), wanted)


def test_a_build_that_is_ended_runs_nothing(here):
    must_be("a run", here.run("judge", UNPROVED_STATUS="143"), ("", "", 3, ["build.py --kept", "unproved.py"]))


def test_a_package_is_made_of_the_proved_program(here):
    wanted = ["build.py --kept", "build.py", f"package.py {PROVED} there"]
    must_be("the package", here.run("--package", "there"), ("", "", 0, wanted))


def test_a_version_tells_the_commit_and_whether_it_was_proved(here):
    told = f"{SAYS_UNPROVED}hall: commit not known, built without proofs\n"
    must_be("unproved", here.run("--version")[:3], ("unproved --version\n", told, 0))
    commit = here.commit()
    must_be("proved", here.run("-V", KEPT="0", HALL_PROVED="1")[1], f"hall: commit {commit}, built of proofs\n")
    here.write("crates/hall/src/main.rt", "changed")
    here.age()
    must_be("of changed sources", here.run("--version")[1], f"hall: commit {commit} and changes, built of proofs\n")


def test_without_the_kit_it_says_what_is_missing(here):
    told = "hall: the command rt of the Rattle kit is not on the path\n"
    must_be("a run", here.run("judge", path="none"), ("", told, 3, []))


def code():
    """A program's code: `main` gives 42 by functions of which two are large, one is called twice, and one never."""
    count = parting.SMALL * 2
    lines = [f"  %v{at} = add i32 %v{at - 1}, 1" for at in range(1, count)]
    body = "\n".join(["  %v0 = add i32 %a0, 0", *lines, f"  %r = sub i32 %v{count - 1}, {count - 1}", "  ret i32 %r"])
    return f"""target triple = "x86_64-unknown-linux-gnu"
@static.0 = private unnamed_addr constant [1 x i32] [i32 40], align 4

define internal i32 @"hall::large"(i32 %a0) #0 {{
{body}
}}

define internal i32 @"hall::wide"(i32 %a0) #0 {{
{body}
}}

define internal i32 @"hall::never"(i32 %a0) #0 {{
  ret i32 %a0
}}

define internal i32 @"hall::small"(i32 %a0) #0 {{
  %r = call i32 @"hall::large"(i32 %a0)
  ret i32 %r
}}

define i32 @main() #0 {{
  %n = load i32, ptr @static.0
  %s = call i32 @"hall::small"(i32 %n)
  %t = call i32 @"hall::small"(i32 2)
  %u = add i32 %s, %t
  %r = call i32 @"hall::wide"(i32 %u)
  ret i32 %r
}}

attributes #0 = {{ nounwind }}
""".encode()


def status_of(parts, room):
    """The status with which the program of these parts ends."""
    toolchain, made = f"{build.rtlib.KIT}/toolchain", []
    for at, part in enumerate(parts):
        with open(f"{room}/{at}.ll", "wb") as file:
            file.write(part)
        made.append(f"{room}/{at}.o")
        words = ["-O2", "-fPIE", "-c", f"{room}/{at}.ll", "-o", made[-1]]
        subprocess.run([f"{toolchain}/bin/clang", *words], check=True)
    words = [*build.LINK, "--toolchain", toolchain, "-o", f"{room}/made", *made, *build.C_CODE]
    subprocess.run(words, check=True, capture_output=True)
    return subprocess.run([f"{room}/made"], check=False).returncode


def test_parts_make_the_same_program(room):
    for number in (1, 2, 3):
        parts = list(parting.parts_of(code(), number))
        must_be("the parts", len(parts), number)
        all_parts = b"".join(parts)
        for name, seen, wanted in (
            (b"large", b"internal", 1),
            (b"wide", b"internal", int(number == 1)),
            (b"wide", b"hidden", int(number > 1)),
            (b"never", b"internal", 0),
        ):
            defined = all_parts.count(b'define %s i32 @"hall::%s"' % (seen, name))
            must_be(f"how often {name.decode()} is {seen.decode()} in {number} parts", defined, wanted)
        must_be(f"the status, of {number} parts", status_of(parts, room), 42)


def test_code_that_has_what_was_not_foreseen_is_not_parted():
    seen = code().replace(b"private unnamed_addr constant", b"internal global")
    open_too = code().replace(b'internal i32 @"hall::small"', b'i32 @"hall::small"')
    for text in (seen, open_too, b""):
        with pytest.raises(parting.Unknown):
            list(parting.parts_of(text, 2))
