"""Two virtual machines with one disk on both by DRBD, and a witness, as examples/running/pair sets them up; and their
crowds. What a unit of systemd says is done by a loop of the shell."""
import contextlib
import json
import os
import sqlite3
import subprocess
import sys
import time

from . import running, virtual
from .checks import check, must_be, need
from .machines import Switch
from .pair import PAIR, text_of, written
from .volume import waited

# What docs/SECOND.md has on both machines.
SET_UP = f"""set -e
mkdir -p /etc/drbd.d /etc/default /var/lib/drbd /var/lib/hall
cp {{folder}}/hall.res /etc/drbd.d/hall.res
for it in fence unfence takeover; do install -m 755 {PAIR}/$it.sh /usr/local/sbin/hall-$it; done
install -m 755 {PAIR}/hall-status /usr/local/sbin/hall-status
install -m 755 {{folder}}/systemctl /usr/local/sbin/systemctl
echo WITNESS={{witness}} >/etc/default/hall-pair"""
SYSTEMCTL = """#!/bin/sh
case $* in *' start hall') ;; *) exit 0 ;; esac
while mountpoint -q /var/lib/hall; do
    {program} serve --db /var/lib/hall/hall.db --port 8080
    sleep 1
done >>{folder}/hall.log 2>&1 &
"""
UNIT = "while :; do hall-takeover; hall-takeover stop; sleep 1; done"


def need_parts():
    """Skips the test where there is something lacking."""
    virtual.need_parts()
    need("drbdadm", "etcd", "etcdctl", "haproxy", "curl")


def begin_witness(folder, host, port):
    """An etcd that keeps one name, at this address."""
    at, peer = f"http://{host}:{port}", f"http://127.0.0.1:{running.free_port()}"
    words = ["etcd", "--data-dir", f"{folder}/etcd", "--listen-client-urls", at, "--advertise-client-urls", at,
             "--listen-peer-urls", peer, "--initial-advertise-peer-urls", peer, "--initial-cluster", f"default={peer}"]
    return subprocess.Popen(words, stdout=subprocess.DEVNULL, stderr=subprocess.DEVNULL)


class Pair:
    """The machines `one`, which serves, and `two`; all are gone with the block."""

    def __init__(self, room, program, db, fences=True):
        self.room, self.program, self.db, self.fences = room, program, db, fences
        self.switch, self.vms, self.witness, self.journals = Switch(room), {}, None, []

    def __getitem__(self, name):
        return self.vms[name]

    def __enter__(self):
        self.switch.__enter__()
        try:
            self.make()
        except BaseException:
            self.__exit__()
            raise
        return self

    def __exit__(self, *_):
        for it in self.vms.values():
            it.end()
        if self.witness:
            self.witness.kill()
            self.witness.wait()
        self.switch.__exit__()

    def make(self):
        self.here, image = self.switch.plug(), virtual.start_image(self.room)
        self.witness = begin_witness(self.room, self.here, 2379)
        self.vms = {name: virtual.Vm(self.switch, name, number + 1, image)
                    for number, name in enumerate(("one", "two"))}
        for it in self.vms.values():
            self.boot(it)
            it.does("drbdadm create-md hall </dev/null && drbdadm up hall")
        one = self["one"]
        waited("both see each other", lambda: one.run("drbdadm cstate hall")[1].strip() == "Connected")
        subprocess.run(["cp", self.db, f"{one.folder}/hall.db"], check=True)
        # As docs/SECOND.md makes the file.
        one.does("drbdadm -- --clear-bitmap new-current-uuid hall; drbdadm primary hall; mkfs.ext4 -q /dev/drbd0 &&"
                 f" mount /dev/drbd0 /var/lib/hall && cp {one.folder}/hall.db /var/lib/hall/ && umount /var/lib/hall &&"
                 " drbdadm secondary hall")
        self.begin(one)
        waited("one serves", lambda: self.answers(one))
        if self.fences:
            self.begin(self["two"])

    def boot(self, vm):
        """Starts a machine, with what the page installs there."""
        resource = text_of("hall.res").replace("/dev/loop9", "/dev/vda")
        for it in self.vms.values():
            resource = resource.replace(f"192.0.2.{it.number}:", f"{it.address}:")
        if not self.fences:
            resource = resource.replace("fencing resource-and-stonith", "fencing dont-care")
        front = text_of("behind.cfg").replace("192.0.2.1:8080", f"{vm.address}:80").replace("192.0.2.3", self.here)
        written(f"{vm.folder}/hall.res", resource)
        written(f"{vm.folder}/behind.cfg", front.replace("    user haproxy\n    group haproxy\n", ""))
        written(f"{vm.folder}/systemctl", SYSTEMCTL.format(program=self.program, folder=vm.folder))
        vm.boot()
        vm.does(SET_UP.format(folder=vm.folder, witness=f"http://{self.here}:2379"))
        vm.begin(f"haproxy -db -f {vm.folder}/behind.cfg", "haproxy.log")

    def begin(self, vm):
        """As `systemctl start hall-pair` does."""
        vm.begin(UNIT, "unit.log")

    def back(self, vm, other):
        """A machine that was off is started, and brought up to date: how long that took, and where by two commands."""
        began, words = time.monotonic(), ""
        self.boot(vm)
        vm.does("drbdadm up hall")
        with contextlib.suppress(TimeoutError):
            waited("both see each other", lambda: other.run("drbdadm cstate hall")[1].strip() == "StandAlone", 10)
            vm.run("drbdadm disconnect hall; drbdadm connect --discard-my-data hall")
            other.run("drbdadm connect hall")
            words = ", with the two commands of StandAlone"
        waited("both are whole", lambda: other.run("hall-status")[0] == 0, 300)
        self.begin(vm)
        return f"{time.monotonic() - began:.0f} s{words}"

    def answers(self, vm):
        return vm.run("curl -s -o /dev/null -m 2 http://127.0.0.1:8080/rounds")[0] == 0

    def outer(self, seconds, first):
        """Entrants on this system, who ask whoever answers."""
        self.journals.append(f"{self.room}/journal{first}")
        words = [sys.executable, f"{running.HERE}/crowd.py", str(seconds), "0", str(first), self.journals[-1]]
        return subprocess.Popen([*words, *(it.address for it in self.vms.values())])

    def inner(self, vm, seconds, first):
        """Entrants on a machine."""
        self.journals.append(f"{vm.folder}/journal{first}")
        vm.begin(f"/usr/bin/python3 {running.HERE}/crowd.py {seconds} 0 {first} {self.journals[-1]} 127.0.0.1:8080",
                 "crowd.log")
        return self.journals[-1]

    def told(self, *journals):
        """The answers that were taken, as entrants were told: whose, place, token, `n`, and the moment."""
        found = []
        for it in journals or self.journals:
            with open(it, encoding="ascii") as file:
                found += [(who, place, token, n, moment) for who, place, token, moment, n in map(json.loads, file)]
        return found

    def lost(self, vm):
        """How many answers were told and don't stand in the file of the machine that serves, while nobody asks; it sees
        too that none stands twice."""
        copy = f"{vm.folder}/copy"
        vm.does(f"rm -rf {copy} && mkdir {copy} && cp /var/lib/hall/hall.db* {copy}")
        checked = subprocess.run([self.program, "check", "--db", f"{copy}/hall.db"], capture_output=True, check=False)
        check("hall check", checked.returncode, 0)
        with contextlib.closing(sqlite3.connect(f"{copy}/hall.db")) as conn:
            rows = conn.execute("SELECT entrant, number, token, n FROM answers WHERE round = 'now'").fetchall()
        must_be("answers that stand twice", len(rows) - len({it[:3] for it in rows}), 0)
        told = {it[:4] for it in self.told()}
        must_be("whether entrants were told anything", bool(told), True)
        return len(told - set(rows)), len(told)
