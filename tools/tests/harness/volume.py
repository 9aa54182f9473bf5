"""A GlusterFS volume of three machines with whole copies, with the settings of examples/running/pair/gluster.sh."""
import os
import time

from .machines import Switch
from .running import ROOT

SETTINGS = f"{ROOT}/examples/running/pair/gluster.sh"
# What each machine has of its own.
OWN = ("/var/lib/glusterd", "/var/log/glusterfs", "/run")
WAIT = 120
# So long a volume that isn't whole is waited for, until it is healed by a word, as docs/SECOND.md says.
UNASKED = 60


def waited(what, is_so, most=WAIT):
    """Waits until something is so: how long it took."""
    began = time.monotonic()
    while not is_so():
        if time.monotonic() > began + most:
            raise TimeoutError(what)
        time.sleep(0.2)
    return time.monotonic() - began


class Volume:
    """The machines `one`, `two` and `three`, and their volume `hall`; all are gone with the block."""

    def __init__(self, room, *settings):
        self.switch, self.settings = Switch(room), settings

    def __enter__(self):
        self.switch.__enter__()
        try:
            self.make()
        except BaseException:
            self.switch.__exit__()
            raise
        return self

    def __exit__(self, *of):
        self.switch.__exit__(*of)

    def make(self):
        for it in (*OWN, f"{self.switch.room}/bin"):
            os.makedirs(it, exist_ok=True)
        # systemd isn't there: `Machine.begin_unit` does what a unit says.
        os.symlink("/bin/true", f"{self.switch.room}/bin/systemctl")
        for name in ("one", "two", "three"):
            self.begin_glusterd(self.switch.add(name, OWN))
        one = self["one"]
        for name in ("two", "three"):
            self.gluster("peer", "probe", self[name].address)
        waited("three machines know each other",
               lambda: one.run("gluster", "peer", "status").stdout.count("Peer in Cluster (Connected)") == 2)
        bricks = [f"{it.address}:{it.folder}/brick" for it in self.switch.machines.values()]
        self.gluster("volume", "create", "hall", "replica", "3", *bricks, "force")
        one.run("sh", SETTINGS, "hall", check=True)
        for key, value in self.settings:
            self.gluster("volume", "set", "hall", key, value)
        self.gluster("volume", "start", "hall")

    def __getitem__(self, name):
        return self.switch.machines[name]

    def gluster(self, *words):
        """What a command of GlusterFS on the first machine writes, which must do well."""
        ran = self["one"].run("gluster", "--mode=script", *words)
        if ran.returncode:
            raise OSError(f"gluster {' '.join(words)}: {ran.stdout}{ran.stderr}")
        return ran.stdout

    def begin_glusterd(self, machine):
        os.makedirs(f"{machine.folder}/brick", exist_ok=True)
        machine.begin("glusterd.log", "glusterd", "--no-daemon", "--log-level", "WARNING")
        waited("glusterd answers", lambda: machine.run("gluster", "--mode=script", "volume", "list").returncode == 0)

    def mount(self, name):
        """The folder where this machine has the volume."""
        machine, place = self[name], f"{self[name].folder}/mount"
        os.makedirs(place, exist_ok=True)
        machine.run("glusterfs", "--volfile-server=127.0.0.1", "--volfile-id=hall", place, check=True)
        waited("the volume is mounted", lambda: "fuse" in machine.run("stat", "-f", "-c", "%T", place).stdout)
        return place

    def is_whole(self):
        """Whether no copy lacks anything, as `hall-status` says."""
        env = {**os.environ, "HALL_PAIR": "/none", "PATH": f"{self.switch.room}/bin:{os.environ['PATH']}"}
        ran = self["two"].run(f"{ROOT}/examples/running/pair/hall-status", env=env)
        return ran.returncode == 0

    def healed(self):
        """Waits until no copy lacks anything; tells how long that took, and where it took a word."""
        began, word = time.monotonic(), ""
        try:
            waited("all copies are whole", self.is_whole, UNASKED)
        except TimeoutError:
            self.gluster("volume", "heal", "hall")
            word = " and a word"
            try:
                waited("all copies are whole", self.is_whole)
            except TimeoutError:
                told = [self.gluster("volume", "heal", "hall", "info", *it) for it in ((), ("split-brain",))]
                raise TimeoutError(f"all copies are whole: {told}") from None
        return f"{time.monotonic() - began:.0f} s{word}"

    def is_linked(self, name):
        """Whether this machine's mount speaks to all three copies."""
        told = self[name].run("sh", "-c", f"cat {self[name].folder}/mount/.meta/graphs/active/hall-client-*/private")
        return told.stdout.count("connected = 1") == 3
