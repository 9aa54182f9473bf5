"""The Debian package of the built program is made, installed into a root of its own, and makes and serves a hall there.

A program that is built without proofs may be tried so: its package has `~unproved` in its version, and
`./hall --package` refuses to make it.
"""
import contextlib
import glob
import gzip
import json
import os
import re
import shutil
import subprocess
import sys
import tempfile
import urllib.error
import urllib.request
from pathlib import Path

import pytest
from harness import clean_root, running
from harness.checks import must_be, need, tell

sys.path[:0] = [f"{running.ROOT}/tools/build", f"{running.ROOT}/tools/pages"]
import manual  # noqa: E402
import package  # noqa: E402

# The exposure of the unit by `systemd-analyze security`, in tenths of a point, at the most.
EXPOSURE = 20
WAIT = 60
# From the package's file to the first reply, in seconds, at the most, on a machine that has its processors for it.
FROM_FILE_TO_REPLY = 180


def ran(*words, **how):
    return subprocess.run(words, capture_output=True, text=True, timeout=300, check=False, **how)


def done(*words, **how):
    """What a command that must do well writes."""
    it = ran(*words, **how)
    must_be(f"{' '.join(words)}: {it.stdout}{it.stderr}", it.returncode, 0)
    return it.stdout + it.stderr


def text_of(page):
    """The words of a manual page without what is for troff alone."""
    kept = [re.sub(r"^\.B ", "", it) for it in page.split("\n") if not re.match(r"\.(?!B )", it)]
    return " ".join(kept).replace("\\&", "").replace("\\-", "-").replace("\\e", "\\").split()


class Made:
    """A package of the program, in a room, and its files."""

    def __init__(self, program, room):
        self.program, self.room = program, room
        self.path = package.make(program, room)
        self.commit = package.git("rev-parse", "HEAD")
        self.version = os.path.basename(self.path).split("_")[1]
        self.files = f"{room}/files"
        done("dpkg-deb", "-x", self.path, self.files)


@pytest.fixture(scope="module")
def made(program):
    need("dpkg-deb", "git")
    with tempfile.TemporaryDirectory(prefix="hall-package-test-") as room:
        os.chmod(room, 0o755)
        yield Made(os.path.realpath(program), room)


def test_a_program_without_proofs_is_refused_by_name(made):
    stand_in = f"{made.room}/stand-in"
    with open(made.program, "rb") as file, open(stand_in, "wb") as copy:
        copy.write(file.read() + package.UNPROVED)
    it = ran(sys.executable, f"{package.ROOT}/tools/build/package.py", stand_in, made.room)
    must_be("the status", it.returncode, 3)
    wanted = f"hall: {stand_in} is built without proofs, and only a proved program is packaged: ./hall --package\n"
    must_be("what is told", it.stderr, wanted)


def test_two_packages_have_the_same_bytes(made):
    again = f"{made.room}/again"
    os.mkdir(again)
    # As another user makes it, elsewhere.
    before = os.umask(0o077)
    os.environ["TZ"] = "Pacific/Auckland"
    try:
        second = package.read(package.make(made.program, again), "rb")
    finally:
        os.umask(before)
        del os.environ["TZ"]
    must_be("whether the second package has the bytes of the first", second == package.read(made.path, "rb"), True)


def test_the_program_is_as_it_was_built(made):
    must_be("usr/bin/hall", package.read(f"{made.files}/usr/bin/hall", "rb"), package.read(made.program, "rb"))
    origin = package.read(f"{made.files}/usr/share/doc/hall/VERSION").split("\n")
    built = "without proofs" if package.is_unproved(made.program) else "of proofs"
    must_be("what VERSION tells", origin[2], f"built {built}")
    must_be("the sum in VERSION", origin[3], "sha256 " + done("sha256sum", made.program).split()[0])


def files_below(folder):
    return sorted(os.path.relpath(f"{at}/{it}", folder) for at, _, names in os.walk(folder) for it in names)


def test_all_that_the_pages_install_is_among_the_examples(made):
    wanted = files_below(f"{running.ROOT}/examples/running")
    must_be("the examples", files_below(f"{made.files}/usr/share/doc/hall/examples"), wanted)


def test_lintian_finds_nothing(made):
    """Nothing but what tools/build/package/overrides says why."""
    need("lintian")
    shown, failing = ("--display-info", "--pedantic"), "error,warning,info,pedantic"
    # Bytes of machine code may read as a misspelt word, by chance. And as root it says that it had better not be.
    left_out = ("--suppress-tags", "spelling-error-in-binary", "--allow-root")
    said = done("lintian", *shown, "--fail-on", failing, *left_out, made.path)
    must_be("what lintian says", said.strip(), "")


def page(made, name):
    """The words of a manual page."""
    with gzip.open(f"{made.files}/usr/share/man/man1/{name}.1.gz", "rt", encoding="utf-8") as file:
        return " ".join(text_of(file.read()))


def test_the_manual_page_tells_version_commit_and_whether_it_was_proved(made):
    origin = package.read(f"{made.files}/usr/share/doc/hall/VERSION")
    told = rf"hall {re.escape(made.version)}\ncommit {made.commit}( and changes)?\nbuilt (of|without) proofs\n"
    assert re.match(told, origin), origin
    assert " ".join(origin.split()) in page(made, "hall"), f"hall(1) lacks {origin}"


def test_each_program_has_a_manual_page_of_its_name(made):
    for name in os.listdir(f"{made.files}/usr/bin"):
        path = f"{made.files}/usr/share/man/man1/{name}.1.gz"
        with gzip.open(path, "rt", encoding="utf-8") as file:
            text = file.read()
        must_be(f"the title of {name}(1)", text.split()[:3], [".TH", name, "1"])
        assert f"\n.SH NAME\n{name} \\- " in text, f"{name}(1) has another name"


def test_manual_pages_say_what_help_says(made):
    for program, name in ((made.program, "hall"), (package.HALLCTL, "hallctl")):
        text = page(made, name)
        for it in manual.help_of(program, name).all():
            assert " ".join(it.text.split()) in text, f"the page {name}(1) lacks the help of {it.name}"


def test_manual_pages_are_laid_out_without_a_warning(made):
    need("man")
    for path in sorted(glob.glob(f"{made.files}/usr/share/man/man1/*.gz")):
        shown = ran("man", "--warnings", "-l", path, env={**os.environ, "MANWIDTH": "100", "LC_ALL": "C.UTF-8"})
        must_be(path, (shown.returncode, shown.stderr), (0, ""))
        assert "DESCRIPTION" in shown.stdout, path


def test_hallctl_runs_where_it_is_installed(made):
    if not os.path.isfile(package.HALLCTL):
        pytest.skip("clients/hallctl isn't there")
    told = done(f"{made.files}/usr/bin/hallctl", "--help", env={**os.environ, "COLUMNS": str(manual.WIDTH)})
    must_be("the help of the installed hallctl", told, manual.help_of(package.HALLCTL, "hallctl").text)


def test_completion_offers_commands_options_and_files(made):
    need("bash")
    there = f"{made.room}/people.csv"
    shutil.copy(running.PEOPLE, there)
    for words, wanted in (
        (["hall", "se"], ["serve"]),
        (["hall", "serve", "--"], ["--db", "--port", "--connections", "--help"]),
        (["hall", "init", "--people", there[:-4]], [there]),
        (["hall", "serve", "--port", ""], []),
        (["hallctl", "round", "rel"], ["release"]),
        (["hallctl", "round", "release", "noon", "--sheet", there[:-4]], [there]),
        (["hallctl", "round", "show", "no"], ["noon"]),
        (["hallctl", "puzzle", "certify", "bob/loop", "bob/"], ["bob/first", "bob/loop"]),
        (["hallctl", "round", "list", "no"], []),
    ):
        must_be(f"the completion of {words}", completed(made, words), wanted)


# Stands for a hallctl that reaches a hall.
LISTS = """#!/bin/sh
case "$*" in
  "--patience 0 round list --csv") printf 'round,title\\nnoon,Noon\\nlate,Late\\n' ;;
  "--patience 0 puzzle list --csv") printf 'author,label,state\\nbob,first,one\\nbob,loop,new\\n' ;;
esac
"""


def completed(made, words):
    stand_in = Path(made.room, "bin", "hallctl")
    stand_in.parent.mkdir(exist_ok=True)
    stand_in.write_text(LISTS, encoding="ascii")
    stand_in.chmod(0o755)
    at = f"{made.files}/usr/share/bash-completion/completions/{words[0]}"
    given = 'COMP_WORDS=("$@"); COMP_CWORD=$(($# - 1))'
    asked = f"source {at}; {given}; _{words[0]}; printf '%s\\n' \"${{COMPREPLY[@]}}\""
    env = {**os.environ, "PATH": f"{stand_in.parent}:{os.environ['PATH']}"}
    return done("bash", "-c", asked, "bash", *words, env=env).split()


def test_the_unit_is_sound_and_shut_off(made):
    need("systemd-analyze")
    unit = f"{made.room}/hall.service"
    with open(unit, "w", encoding="utf-8") as file:
        # The program must be where the unit says.
        text = package.read(f"{made.files}/usr/lib/systemd/system/hall.service")
        file.write(text.replace("/usr/bin/hall", f"{made.files}/usr/bin/hall"))
    must_be("what systemd-analyze says of the unit", done("systemd-analyze", "verify", "--man=no", unit), "")
    done("systemd-analyze", "security", "--offline=true", f"--threshold={EXPOSURE}", unit)


def test_the_page_followed_word_by_word_serves_within_three_minutes(made):
    need(*clean_root.NEEDED)
    if os.geteuid() != 0 or not clean_root.can_be_laid_out():
        pytest.skip("only root can lay a clean root out, where the system lets it")
    said, reply, wanted, took = clean_root.follow(made.path, made.room)
    must_be(f"the reply, after {said}", reply, wanted)
    # Where twice as many processes run as there are processors, each takes twice as long.
    most = FROM_FILE_TO_REPLY * max(1, *(it / os.cpu_count() for it in os.getloadavg()))
    assert took <= most, f"it took {took:.0f} seconds, and not {most:.0f} at the most"
    tell(f"package: from the file to {reply} by the page in {took:.1f} s")


MADE_THERE = """dpkg --install /root/*.deb >/dev/null
stat -c '%U %G %a' /var/lib/hall
getent passwd hall | cut -d: -f6,7
[ -e /proc/self ] || echo there is no /proc
"""


def test_it_is_installed_where_proc_is_not_mounted(made):
    need(*clean_root.NEEDED)
    if os.geteuid() != 0 or not clean_root.can_be_laid_out():
        pytest.skip("only root can lay a clean root out, where the system lets it")
    it = clean_root.run(made.path, made.room, MADE_THERE, has_proc=False)
    wanted = ["hall hall 700", "/var/lib/hall:/usr/sbin/nologin", "there is no /proc"]
    must_be(f"what stands there, after {it.stderr}", it.stdout.splitlines(), wanted)


def test_a_hall_of_an_installed_package_outlives_upgrade_removal_and_purge(made):
    need("dpkg", "systemctl", "systemd-sysusers", "systemd-tmpfiles")
    before = package.make(made.program, made.room, version="0.0.1")
    with Root(made.room) as root:
        root.install(before)
        root.make_hall()
        port = root.set_port()
        with root.serving(port) as told:
            must_be("the reply to a stranger", told, {"denied": 1})
        kept = root.database()
        assert all(kept) and len(kept) == 2, "there is no database with its log to be kept"
        must_be("the version before", root.version(), made.version.replace(package.versions()[0][0], "0.0.1"))
        root.enable()
        root.install(made.path)
        must_be("the version after an upgrade", root.version(), made.version)
        must_be("whether it is enabled after an upgrade", root.links(), [WANTED])
        must_be("the database after an upgrade", root.database(), kept)
        must_be("the port that was set, after an upgrade", root.port(), port)
        with root.serving(port) as told:
            must_be("the reply to a stranger after an upgrade", told, {"denied": 1})
        kept = root.database()
        root.dpkg("--remove", "hall")
        must_be("the database after the removal", root.database(), kept)
        assert not os.path.exists(f"{root.at}/usr/bin/hall"), "the program is still there"
        assert os.path.exists(f"{root.at}/etc/hall/hall.conf"), "the settings are gone with the removal"
        said = root.dpkg("--purge", "hall")
        must_be("the database after the purge", root.database(), kept)
        assert "what /var/lib/hall holds is left there" in said, said
        assert not os.path.exists(f"{root.at}/etc/hall"), "the settings are there after the purge"
        must_be("links to the unit after the purge", root.links(), [])


# The link by which systemd starts the hall with the machine.
WANTED = "etc/systemd/system/multi-user.target.wants/hall.service"


class Root:
    """A folder that stands for the root of a machine. Maintainer scripts run as there."""

    def __init__(self, room):
        if os.geteuid() != 0:
            pytest.skip("only root can install it into a root of its own")
        self.at = tempfile.mkdtemp(dir=room, prefix="root-")
        os.chmod(self.at, 0o755)

    def __enter__(self):
        for it in ("etc", "var/lib/dpkg/info", "var/lib/dpkg/updates"):
            os.makedirs(f"{self.at}/{it}")
        open(f"{self.at}/var/lib/dpkg/status", "w", encoding="utf-8").close()
        return self

    def __exit__(self, *_):
        shutil.rmtree(self.at)

    def dpkg(self, *words):
        forced = [f"--force-{it}" for it in ("script-chrootless", "depends", "confold")]
        return done("dpkg", f"--root={self.at}", *forced, *words)

    def install(self, made):
        self.dpkg("--install", made)

    def enable(self):
        """As `systemctl enable hall` does on the machine."""
        done("systemctl", f"--root={self.at}", "enable", "hall")

    def links(self):
        """The links that bear the unit's name."""
        return [it for it in files_below(f"{self.at}") if it.endswith("/hall.service") and it.startswith("etc/")]

    def version(self):
        """The version that is installed."""
        return done("dpkg-query", f"--admindir={self.at}/var/lib/dpkg", "--show", "--showformat=${Version}", "hall")

    def ids(self):
        """The user and group that the package made."""
        line = next(it for it in package.read(f"{self.at}/etc/passwd").split("\n") if it.startswith("hall:"))
        return {"user": int(line.split(":")[2]), "group": int(line.split(":")[3]), "extra_groups": []}

    def make_hall(self):
        folder = os.stat(f"{self.at}/var/lib/hall")
        must_be("owner and mode of /var/lib/hall", (folder.st_uid, folder.st_mode & 0o777), (self.ids()["user"], 0o700))
        words = ["init", "--db", f"{self.at}/var/lib/hall/hall.db", "--people", "/dev/stdin"]
        with open(running.PEOPLE, "rb") as people:
            must_be("what init says", done(f"{self.at}/usr/bin/hall", *words, stdin=people, **self.ids()), "added 6\n")

    def database(self):
        return [package.read(it, "rb") for it in sorted(glob.glob(f"{self.at}/var/lib/hall/hall.db*"))]

    def settings(self):
        return dict(re.findall(r"^(\w+)=(.*)$", package.read(f"{self.at}/etc/hall/hall.conf"), re.M))

    def port(self):
        return int(self.settings()["HALL_PORT"])

    def set_port(self):
        """Sets a free port, as an operator edits the file."""
        path, port = f"{self.at}/etc/hall/hall.conf", running.free_port()
        text = package.read(path).replace("HALL_PORT=8080", f"HALL_PORT={port}")
        with open(path, "w", encoding="utf-8") as file:
            file.write(text)
        return port

    @contextlib.contextmanager
    def serving(self, port):
        """The hall as its unit starts it, and what it replies to a stranger."""
        unit = package.read(f"{self.at}/usr/lib/systemd/system/hall.service")
        words = re.search(r"^ExecStart=(.*)$", unit, re.M)[1]
        for name, value in self.settings().items():
            words = words.replace(f"${{{name}}}", value)
        words = [f"{self.at}{it}" if it.startswith("/") else it for it in words.split()]
        with subprocess.Popen(words, stderr=subprocess.PIPE, text=True, **self.ids()) as server:
            try:
                line = server.stderr.readline()
                wanted = f"hall: serving 127.0.0.1:{port} from {words[3]}, people 6, rounds 0\n"
                must_be("what serve says", line, wanted)
                yield asked(port)
            finally:
                server.kill()


def asked(port):
    try:
        with urllib.request.urlopen(f"http://127.0.0.1:{port}/rounds", timeout=WAIT) as reply:
            return json.load(reply)
    except urllib.error.HTTPError as refused:
        return json.load(refused)
