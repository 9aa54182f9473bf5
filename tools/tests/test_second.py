"""A second machine: the files of examples/running/pair, with the real programs that they are for.

Where the programs are, each file passes their own checks. Of two machines that lose each other a witness lets one go
on. A proxy before two halls sends all to the one that answers, and goes on with it. Copies that are made each second of
a hall that serves are whole, and lack no more than the last seconds. On a volume of GlusterFS one machine dies, and one
is cut off, with a crowd or idle: nothing that entrants were told is lost; with loose locks something is. Of a hall that
is cut off again and again none is left that answers. What starts daemons of the system, or goes by seconds, is run with
--all alone, on a machine that has its processors for it. Two disks by DRBD are tried by test_second_disks.py.
"""
import contextlib
import os
import random
import shutil
import signal
import sqlite3
import subprocess
import threading
import time
import urllib.error
import urllib.request

import pytest
from harness import filled, proxies, running
from harness.checks import check, holds, must_be, need, tell
from harness.disks import begin_witness
from harness.handed_in import Entrant, faults
from harness.pair import PAIR, Served, after, need_parts, text_of, written
from harness.volume import Volume, waited

SCRIPTS = ("fence.sh", "unfence.sh", "takeover.sh", "gluster.sh", "ship.sh", "hall-status")
UNITS = ("hall-pair.service", "hall-disk.service", "hall-volume.service", "hall-ship.service")
DRBDADM = "/usr/lib/drbd/drbdadm-84"
# So many seconds a copy may lack, on a machine that has its processors for it; and so often its maker is killed.
WINDOW, KILLS = 5, 4
# So often the machine that serves is cut off, for so many seconds; a hall that is silent after is asked so often.
CUTS, CUT_OFF, STILL = 20, 12, 10
# So often two halls begin at once.
TURNS = 3
# Asks for a list, and writes the status.
HALL = "http://127.0.0.1:8080/rounds"
READ = ("curl", "-s", "-o", "/dev/null", "-m", "4", "-H", "Hall-Key: eve-key-eve", "-w", "%{http_code}", HALL)


def ran(*words, **how):
    it = subprocess.run(words, capture_output=True, text=True, timeout=300, check=False, **how)
    return it.returncode, it.stdout + it.stderr


@pytest.mark.parametrize("name", SCRIPTS)
def test_scripts_are_sound(name):
    need("shellcheck")
    check("what shellcheck says", ran("shellcheck", f"{PAIR}/{name}"), (0, ""))
    check("whether it may be run", os.access(f"{PAIR}/{name}", os.X_OK), True)


def test_units_are_sound(room):
    need("systemd-analyze")
    # The units of DRBD and GlusterFS may not be there, nor are they asked of.
    places = {"/usr/local/sbin/hall-takeover": f"{PAIR}/takeover.sh", "/usr/local/sbin/hall-ship": f"{PAIR}/ship.sh",
              "/usr/sbin/glusterfs": "/bin/true", "drbd.service network": "hall-disk.service network",
              "Requires=drbd.service": "Requires=hall-disk.service", "glusterd.service": "hall-disk.service"}
    for name in UNITS:
        text = text_of(name)
        for installed, source in places.items():
            text = text.replace(installed, source)
        written(f"{room}/{name}", text)
    with open(f"{running.ROOT}/examples/running/hall.service", encoding="ascii") as file:
        written(f"{room}/hall.service", file.read().replace("/usr/local/bin/hall", "/bin/true"))
    env = {**os.environ, "SYSTEMD_UNIT_PATH": f"{room}:/lib/systemd/system"}
    for conf in ("hall-pair.conf", "hall-gluster.conf"):
        os.makedirs(f"{room}/hall.service.d", exist_ok=True)
        shutil.copy(f"{PAIR}/{conf}", f"{room}/hall.service.d/pair.conf")
        for unit in ("hall.service", *UNITS):
            said = ran("systemd-analyze", "verify", "--man=no", f"{room}/{unit}", env=env)
            check(f"what systemd says of {unit} with {conf}", said, (0, ""))


def test_the_resource_is_one_of_drbd():
    need(DRBDADM)
    status, said = ran(DRBDADM, "-c", f"{PAIR}/hall.res", "dump")
    check("the status", status, 0)
    for wanted in ("protocol C", "fencing resource-and-stonith", "fence-peer /usr/local/sbin/hall-fence"):
        holds(wanted, wanted in " ".join(said.split()), said)


def test_keepalived_takes_its_file(room):
    need("keepalived", "unshare", "ip")
    if os.geteuid() != 0:
        pytest.skip("only root may make an interface")
    words = f"ip link add eth0 type veth peer name eth1 && exec keepalived -n -l -t -f {PAIR}/keepalived.conf"
    told = subprocess.run(["unshare", "-n", "-p", "--fork", "--kill-child", "sh", "-c", words], capture_output=True,
                          text=True, timeout=60, check=False, start_new_session=True)
    check("what keepalived says", (told.returncode, told.stdout + told.stderr), (0, ""))


class Witness:
    """An etcd, and two machines that ask it: DRBD's handlers are run under their names."""

    def __init__(self, room):
        self.room, self.port, self.etcd = room, running.free_port(), None
        self.url = f"http://127.0.0.1:{self.port}"
        written(f"{room}/pair", f"WITNESS={self.url}\n")

    def begin(self):
        """Begins the witness, which has no port before."""
        self.etcd = begin_witness(self.room, "127.0.0.1", self.port)
        for _ in range(600):
            if self.asked("endpoint", "health")[0] == 0:
                return
            time.sleep(0.1)
        raise AssertionError("etcd doesn't answer")

    def asked(self, *words):
        env = {**os.environ, "ETCDCTL_API": "3"}
        return ran("etcdctl", f"--endpoints={self.url}", "--command-timeout=5s", *words, env=env)

    def name(self):
        return self.asked("get", "hall", "--print-value-only")[1].strip()

    def begun(self, machine, script, *words):
        """A handler on a machine of this name."""
        folder = f"{self.room}/{machine}"
        os.makedirs(folder, exist_ok=True)
        written(f"{folder}/hostname", f"#!/bin/sh\necho {machine}\n")
        os.chmod(f"{folder}/hostname", 0o755)
        env = {**os.environ, "PATH": f"{folder}:{os.environ['PATH']}", "HALL_PAIR": f"{self.room}/pair",
               "HALL_KNOWN": f"{folder}/known"}
        return subprocess.Popen([f"{PAIR}/{script}", *words], env=env)

    def ends(self, machine, script, *words):
        return self.begun(machine, script, *words).wait(60)

    def end(self):
        if self.etcd:
            self.etcd.kill()
            self.etcd.wait()


@pytest.fixture
def quiet(request):
    """A machine that whoever runs the tests says is quiet."""
    if not request.config.option.all:
        pytest.skip("daemons of the system, and seconds that count: --all runs it")


@pytest.fixture
def witness(quiet, room):
    need("etcd", "etcdctl")
    it = Witness(room)
    try:
        yield it
    finally:
        it.end()


def test_the_witness_lets_one_go_on(witness):
    asking = witness.begun("one", "fence.sh")
    time.sleep(2)
    must_be("whether one goes on before the witness is there", asking.poll(), None)
    witness.begin()
    must_be("one, which asked first", asking.wait(60), 7)
    must_be("two, which is out", witness.ends("two", "fence.sh"), 1)
    must_be("one, asking again", witness.ends("one", "fence.sh"), 7)
    must_be("the name at the witness", witness.name(), "one")
    # Two is brought up to date.
    must_be("before", witness.ends("two", "unfence.sh", "before"), 0)
    must_be("after", witness.ends("two", "unfence.sh", "after"), 0)
    must_be("the name once both have all", witness.name(), "")
    must_be("two, which may go on then", witness.ends("two", "fence.sh"), 7)
    must_be("one, which is out then", witness.ends("one", "fence.sh"), 1)


def test_a_name_that_was_written_anew_stays(witness):
    """One loses two once more, while two is about to say that it has all."""
    witness.begin()
    must_be("one", witness.ends("one", "fence.sh"), 7)
    must_be("two is brought up to date", witness.ends("two", "unfence.sh", "before"), 0)
    must_be("one, which lost two again", witness.ends("one", "fence.sh"), 7)
    must_be("two has what there was", witness.ends("two", "unfence.sh", "after"), 0)
    must_be("the name at the witness", witness.name(), "one")
    must_be("two is out", witness.ends("two", "fence.sh"), 1)


def test_both_at_once(witness):
    witness.begin()
    for _ in range(5):
        both = [witness.begun(it, "fence.sh") for it in ("one", "two")]
        check("how both end", sorted(it.wait(60) for it in both), [1, 7])
        witness.asked("del", "hall")


class Between:
    """An HAProxy with between.cfg before two halls."""

    def __init__(self, room, program):
        self.room, self.program, self.port = room, program, running.free_port()
        self.ports = {"one": running.free_port(), "two": running.free_port()}
        self.halls = {}
        for name in self.ports:
            filled.fill(f"{room}/{name}.db", 0)
        text = text_of("between.cfg").replace("bind 127.0.0.1:8080", f"bind 127.0.0.1:{self.port}")
        for name, address in (("one", "192.0.2.1:8080"), ("two", "192.0.2.2:8080")):
            must_be(f"how often the file names {address}", text.count(address), 1)
            text = text.replace(address, f"127.0.0.1:{self.ports[name]}")
        self.config = written(f"{room}/between.cfg", text)

    def begin(self, name):
        words = [self.program, "serve", "--db", f"{self.room}/{name}.db", "--port", str(self.ports[name])]
        self.halls[name] = subprocess.Popen(words, stderr=subprocess.DEVNULL)
        running.wait_for(self.ports[name])

    def asked(self):
        """(status, whose reply it is): only one's and two's lists of rounds differ."""
        asked = urllib.request.Request(f"http://127.0.0.1:{self.port}/rounds", headers={"Hall-Key": "eve-key-eve"})
        try:
            with urllib.request.urlopen(asked, timeout=30) as reply:
                return reply.status, reply.read()
        except urllib.error.HTTPError as refused:
            return refused.code, refused.read()

    def soon(self, wanted):
        """How long it takes until a reply has this status, at most a minute."""
        began = time.monotonic()
        while time.monotonic() < began + 60:
            if self.asked()[0] == wanted:
                return time.monotonic() - began
            time.sleep(0.1)
        return None

    def counted(self):
        """How many requests each hall has been sent, as HAProxy counts them."""
        with contextlib.closing(urllib.request.urlopen(f"http://127.0.0.1:{self.port}/counts;csv", timeout=30)) as got:
            lines = got.read().decode().splitlines()
        return {it.split(",")[1]: int(it.split(",")[7]) for it in lines if it.startswith("pair,")}

    def end(self):
        for it in self.halls.values():
            it.kill()
            it.wait()


@pytest.fixture
def between(room, program):
    need("haproxy")
    it = Between(room, program)
    # A page of counts, for the test alone.
    with open(it.config, "a", encoding="ascii") as file:
        file.write("    stats uri /counts\n")
    it.begin("one")
    proxy = subprocess.Popen(["haproxy", "-db", "-f", it.config], stdout=subprocess.DEVNULL, stderr=subprocess.DEVNULL)
    try:
        running.wait_for(it.port)
        yield it
    finally:
        proxy.kill()
        proxy.wait()
        it.end()


def test_the_proxies_take_their_files(room):
    need("haproxy", "openssl")
    proxies.certificate(room)
    with open(f"{running.ROOT}/examples/running/haproxy.cfg", encoding="ascii") as file:
        first = written(f"{room}/first.cfg", file.read().replace("/etc/haproxy/hall.pem", f"{room}/hall.pem"))
    env = {**os.environ, "PAGE": f"{running.ROOT}/clients/page"}
    for words in ((first, f"{PAIR}/between.cfg"), (f"{PAIR}/behind.cfg",)):
        files = [part for it in words for part in ("-f", it)]
        check(f"what haproxy says of {words[-1]}", ran("haproxy", "-c", *files, env=env)[0], 0)


def test_a_proxy_before_both_goes_on_with_the_one_that_answers(between):
    must_be("whether one answers", between.soon(200) is not None, True)
    between.begin("two")
    # One stands still with a request, as a machine that is gone: nobody closes its connections.
    with running.standing_still(between.halls["one"]):
        began, told = time.monotonic(), []
        waiting = threading.Thread(target=lambda: told.append(between.asked()[0]))
        waiting.start()
        waiting.join(60)
        must_be("what who waited is told", told, [502])
        tell(f"a proxy before both: who waited was told so after {time.monotonic() - began:.1f} s")
        must_be("whether two answers", between.soon(200) is not None, True)
    # One is there again, and well.
    time.sleep(5)
    before = between.counted()
    for _ in range(10):
        must_be("the status of a request after", between.asked()[0], 200)
    after = between.counted()
    check("what one is sent after it came back", after["one"] - before["one"], 0)
    check("what two is sent", after["two"] - before["two"] >= 10, True)


class Shipped:
    """ship.sh, which copies a hall's files to a folder, beside entrants who hand in."""

    def __init__(self, db, folder):
        self.db, self.folder, self.ship = db, folder, None
        os.makedirs(folder, exist_ok=True)

    def begin(self):
        self.ship = subprocess.Popen([f"{PAIR}/ship.sh", self.db, self.folder], start_new_session=True,
                                     stdout=subprocess.DEVNULL, stderr=subprocess.DEVNULL)

    def kill(self):
        os.killpg(self.ship.pid, signal.SIGKILL)
        self.ship.wait()

    def copy(self, to):
        """The last whole copy, put aside."""
        shutil.copytree(os.path.realpath(f"{self.folder}/now"), to)
        return f"{to}/hall.db"


def test_copies_each_second(quiet, served, db, program, room):
    need("rsync")
    shipped, over, seen = Shipped(db, f"{room}/copies"), threading.Event(), []
    entrants = [Entrant(served[1], f"s{k}", over) for k in range(20)]

    def watched():
        while not over.wait(0.1):
            seen.append((time.monotonic(), {it.name_of: it.told for it in entrants}))

    watch = threading.Thread(target=watched)
    watch.start()
    # Where more processes run than there are processors, each takes longer.
    window = WINDOW * max(1, os.getloadavg()[0] / os.cpu_count())
    rng = random.Random(1)
    for number in range(KILLS):
        shipped.begin()
        time.sleep(window + rng.uniform(1, 4))
        shipped.kill()
        least = max((it for it in seen if it[0] < time.monotonic() - window), default=(0, {}))[1]
        copy = shipped.copy(f"{room}/copy{number}")
        check(f"copy {number}, but for its last {window:.0f} s", faults(copy, least), [])
        status, said = ran(program, "check", "--db", copy)
        check(f"copy {number}, by hall check", (status, "sane" in said), (0, True))
    over.set()
    watch.join()
    for it in entrants:
        it.join()
    check("entrants who weren't told that their answers stand", [it.fault for it in entrants if it.fault], [])
    told = sum(it.told for it in entrants)
    tell(f"copies each second: {told} answers were handed in, {KILLS} copies lacked at most those of {window:.0f} s")


@pytest.fixture
def db(room):
    """A round that runs, in a sane file, with ten solvers for each cut."""
    return filled.fill_sane(f"{room}/hall.db", 2_000, 10 * CUTS)


def test_what_the_status_says(room):
    """Of stand-ins for DRBD, its witness and GlusterFS."""
    states = (
        ("drbdadm", "Connected", "UpToDate/UpToDate", "", 0, "whole: Primary/Secondary, Connected"),
        ("drbdadm", "Connected", "UpToDate/UpToDate", "", 3, "witness: no name; hall-pair isn't active here"),
        ("drbdadm", "WFConnection", "UpToDate/DUnknown", "two", 1, "NOT WHOLE: Primary/Secondary, WFConnection"),
        ("drbdadm", "Connected", "UpToDate/UpToDate", "two", 1, "witness: two"),
        ("gluster", "0", "0", "", 0, "whole: entries that the three copies lack: 0 0 0"),
        ("gluster", "0", "2", "", 1, "NOT WHOLE: entries that the three copies lack: 0 2 0"),
        ("gluster", "-", "0", "", 1, "NOT WHOLE: entries that the three copies lack: - 0 0"),
        ("gluster", "0", "0", "", 3, "NOT WHOLE: entries that the three copies lack: 0 0 0 ; hall-volume isn't active"),
    )
    for number, (kind, first, second, note, status, wanted) in enumerate(states):
        folder = f"{room}/{number}"
        os.mkdir(folder)
        scripts = {
            "drbdadm": f"case $1 in cstate) echo {first};; dstate) echo {second};; *) echo Primary/Secondary;; esac",
            "gluster": f"printf 'Number of entries: %s\\n' {first} {second} 0",
            "etcdctl": f"echo {note}" if note else ":",
            # Of the state 3 this machine's own unit isn't active.
            "systemctl": "exit 3" if status == 3 else ":",
        }
        for name, text in scripts.items():
            written(f"{folder}/{name}", f"#!/bin/sh\n{text}\n")
            os.chmod(f"{folder}/{name}", 0o755)
        pair = written(f"{folder}/pair", "WITNESS=nobody\n") if kind == "drbdadm" else f"{folder}/none"
        env = {**os.environ, "PATH": f"{folder}:{os.environ['PATH']}", "HALL_PAIR": pair}
        got, said = ran(f"{PAIR}/hall-status", env=env)
        check(f"state {number}", (got, wanted in said), (min(status, 1), True))


@pytest.fixture
def parts(quiet, program):
    """What a volume of GlusterFS needs here."""
    need_parts()


def test_locks_hold_over_two_mounts(parts, db, program, room):
    """Who isn't the one that serves is refused, on either machine; of two that begin at once one serves."""
    with Volume(room) as volume:
        served = Served(volume, program, db)
        for name in ("one", "two"):
            for words in (("serve", "--port", "8081"), ("check",)):
                it = volume[name].run(program, words[0], "--db", served.path(name), *words[1:])
                check(f"{words[0]} on {name}", (it.returncode, "open: end it" in it.stderr), (3, True))
        for _ in range(TURNS):
            served.end()
            for name in ("one", "two"):
                served.begin_hall(name)
            waited("one of both serves", lambda: served.answers("one") or served.answers("two"))
            time.sleep(2)
            check("how many serve", sum(served.answers(name) for name in ("one", "two")), 1)


def test_a_machine_with_a_volume_dies(parts, db, program, room):
    with Volume(room) as volume:
        served = Served(volume, program, db)
        crowd = served.outer(30)
        time.sleep(random.uniform(3, 6))
        volume["one"].die()
        died = time.time()
        crowd.wait(120)
        first = after(served.told(served.journals[0]), died)
        must_be("whether the other one answers", first is not None, True)
        lost, told = served.lost()
        check("answers that were lost", lost, 0)
        tell(f"a machine with a volume dies: {told} answers told, {lost} lost, the other answers after {first:.1f} s")
        volume["one"].boot()
        volume.begin_glusterd(volume["one"])
        tell(f"a machine with a volume is back: whole after {waited('all copies are whole', volume.is_whole):.0f} s")


def test_a_machine_with_a_volume_is_cut_off(parts, db, program, room):
    with Volume(room) as volume:
        served = Served(volume, program, db)
        outer, inner = served.outer(35), served.crowd(volume["one"], 35, 500, "127.0.0.1:8080")
        time.sleep(random.uniform(3, 6))
        volume["one"].cut()
        began = time.time()
        time.sleep(random.uniform(10, 14))
        ended = time.time()
        volume["one"].mend()
        for it in (outer, inner):
            it.wait(120)
        meanwhile = [it for it in served.told(served.journals[1]) if began + 0.3 < it[4] < ended]
        check("what is told on the machine that is cut off", meanwhile, [])
        first = after(served.told(served.journals[0]), began)
        must_be("whether the other one answers", first is not None, True)
        lost, told = served.lost()
        check("answers that were lost", lost, 0)
        tell(f"a machine with a volume is cut off: {told} answers told, {lost} lost, "
             f"the other answers after {first:.1f} s")


def ended(machine):
    """The processes of a machine's unit that ended, and their statuses."""
    with contextlib.suppress(FileNotFoundError), open(f"{machine.folder}/ended", encoding="ascii") as file:
        return dict(map(int, line.split()) for line in file)
    return {}


def cut_off(served, name, number):
    """A machine that serves is cut off while its own entrants hand in, and is back later: the status with which its
    hall ended meanwhile, or how the one that lives on answers who reads. At each cut others hand in, since what was
    handed in already is written no more."""
    machine = served.volume[name]
    pid = int(machine.run("cat", f"{machine.folder}/pid").stdout)
    crowd = served.crowd(machine, CUT_OFF + 4, number, "127.0.0.1:8080", whom=10 * number)
    time.sleep(random.uniform(2, 4))
    machine.cut()
    time.sleep(CUT_OFF)
    machine.mend()
    crowd.wait(120)
    # Its last call of the system may take a while, in which it answers nobody.
    for _ in range(STILL):
        if pid in ended(machine):
            return ended(machine)[pid]
        said = machine.run(*READ).stdout
        if said != "000" and pid not in ended(machine):
            break
        time.sleep(1)
    machine.run("kill", "-9", str(pid))
    return f"lived on, {said} to who reads"


def test_a_hall_that_is_cut_off_ends(parts, db, program, room):
    """Of a hall that was cut off no process is left that answers: it ended with 3, in a write or a sync."""
    with Volume(room) as volume:
        served, ways = Served(volume, program, db), {}
        for number in range(CUTS):
            name = ("one", "two")[number % 2]
            waited(f"{name} serves", lambda: served.answers(name))
            way = cut_off(served, name, number)
            ways[way] = ways.get(way, 0) + 1
            waited("its mount speaks to all copies", lambda: volume.is_linked(name))
            volume.healed()
        tell(f"a hall that is cut off, {CUTS} times: {ways}")
        lost, told = served.lost()
        check("answers that were lost", lost, 0)
        tell(f"{CUTS} cuts: {told} answers told on the machines that were cut off, {lost} lost")
        check("how its hall ended", ways, {3: CUTS})


def test_an_idle_hall_is_cut_off(parts, db, program, room):
    """Nobody asks it to write before it is back: then it takes nothing, and ends."""
    with Volume(room) as volume:
        served = Served(volume, program, db)
        first = int(volume["one"].run("cat", f"{volume['one'].folder}/pid").stdout)
        served.crowd(volume["one"], 3, 500, "127.0.0.1:8080").wait(120)
        volume["one"].cut()
        outer = served.outer(30)
        time.sleep(CUT_OFF)
        for when in ("while it is cut off", "once it is back"):
            # Who reads is told what this hall told, and nothing of the other one's.
            asked = ("curl", "-s", "-m", "4", "-H", "Hall-Key: s0-key-s0", f"{HALL}/now/answers")
            listed = volume["one"].run(*asked).stdout
            for journal, stands in zip(served.journals, (True, False)):
                tokens = [token for who, _, token, _, _ in served.told(journal) if who == "s0"]
                must_be(f"whether s0 was told anything, {when}", bool(tokens), True)
                check(f"what s0 is told, {when}", {f'"{it}"' in listed for it in tokens}, {stands})
            if when == "while it is cut off":
                volume["one"].mend()
                waited("its mount speaks to all copies", lambda: volume.is_linked("one"))
        served.crowd(volume["one"], 4, 800, "127.0.0.1:8080").wait(120)
        outer.wait(120)
        check("what is told on the machine that was cut off", served.told(served.journals[2]), [])
        check("how its hall ended", ended(volume["one"]).get(first), 3)
        lost, told = served.lost()
        check("answers that were lost", lost, 0)
        tell(f"an idle hall is cut off: {told} answers told, {lost} lost")


def test_with_loose_locks_answers_are_lost(parts, db, program, room):
    """So that it is seen that these tests see a loss. The hall that is cut off has nothing to do meanwhile, and writes
    again once its mount speaks to all copies."""
    with Volume(room, ("client.strict-locks", "off")) as volume:
        served = Served(volume, program, db)
        served.crowd(volume["one"], 3, 500, "127.0.0.1:8080").wait(120)
        volume["one"].cut()
        outer = served.outer(25)
        time.sleep(CUT_OFF)
        volume["one"].mend()
        waited("its mount speaks to all copies", lambda: volume.is_linked("one"))
        time.sleep(1)
        served.crowd(volume["one"], 4, 800, "127.0.0.1:8080").wait(120)
        outer.wait(120)
        served.end()
        told, lost = served.all_told(), {}
        for name in ("one", "two"):
            try:
                lost[name], how = len(told - set(served.stands(name))), ""
            except sqlite3.DatabaseError as error:
                lost[name], how = len(told), f" ({error})"
            said = (served.checked(name).stdout.splitlines() or ["no whole database"])[-1]
            tell(f"a volume with loose locks, as {name} sees it: {len(told)} answers told, {lost[name]} lost{how}; "
                 f"hall check: {said}")
        check("whether answers were lost", min(lost.values()) > 0, True)
