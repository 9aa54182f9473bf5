"""Machines on one switch: each is a namespace of networks, processes, mounts and names. Only root can make them.

A machine dies all at once: its cable is pulled first, so that no connection is closed, and then all its processes end.
"""
import os
import shlex
import shutil
import signal
import subprocess
import time

from .checks import need

NEEDED = ("ip", "nsenter", "unshare", "mount", "hostname")


def done(words, **how):
    return subprocess.run(words, capture_output=True, text=True, check=True, timeout=120, **how).stdout


def ip(*words):
    return done(["ip", *words])


def can_be_made():
    """Whether this system lets machines be made."""
    words = ["unshare", "--net", "--mount", "--pid", "--uts", "--fork", "ip", "link", "add", "one", "type", "bridge"]
    return os.geteuid() == 0 and subprocess.run(words, capture_output=True, check=False).returncode == 0


class Switch:
    """A switch, and the machines on it; all are gone with the block."""

    def __init__(self, room):
        need(*NEEDED)
        self.room, self.name, self.machines = room, f"hall{os.getpid()}", {}
        self.network = f"10.66.{os.getpid() % 256}"

    def __enter__(self):
        ip("netns", "add", self.name)
        ip("-n", self.name, "link", "add", "switch", "type", "bridge")
        ip("-n", self.name, "link", "set", "switch", "up")
        return self

    def __exit__(self, *_):
        for it in self.machines.values():
            it.end()
        ip("netns", "del", self.name)

    def plug(self):
        """Plugs this system itself in, as one more machine: its address."""
        ip("link", "add", self.name, "type", "veth", "peer", "name", "to-system", "netns", self.name)
        ip("-n", self.name, "link", "set", "to-system", "master", "switch", "up")
        ip("addr", "add", f"{self.network}.254/24", "dev", self.name)
        ip("link", "set", self.name, "up")
        return f"{self.network}.254"

    def add(self, name, own=()):
        """A machine that is up. `own` are folders of the system of which it has its own."""
        machine = Machine(self, name, len(self.machines) + 1, own)
        self.machines[name] = machine
        machine.boot()
        return machine


class Machine:
    """A machine, whose folder keeps what it writes over its deaths."""

    def __init__(self, switch, name, number, own):
        self.switch, self.name, self.own = switch.name, name, own
        self.net, self.cable, self.address = f"{switch.name}{name}", f"to-{name}", f"{switch.network}.{number}"
        self.folder, self.first, self.unit = f"{switch.room}/{name}", None, None
        os.makedirs(self.folder, exist_ok=True)

    def boot(self):
        """Lays its cable and begins its first process, whose end is that of all others."""
        ip("netns", "add", self.net)
        ip("-n", self.switch, "link", "add", self.cable, "type", "veth", "peer", "name", "eth0", "netns", self.net)
        ip("-n", self.switch, "link", "set", self.cable, "master", "switch", "up")
        ip("-n", self.net, "addr", "add", f"{self.address}/24", "dev", "eth0")
        for it in ("eth0", "lo"):
            ip("-n", self.net, "link", "set", it, "up")
        # What is in memory is gone: a number of a process that stands there may be another's by now.
        shutil.rmtree(f"{self.folder}/run", ignore_errors=True)
        binds = [f"mkdir -p {self.folder}{it} && mount --bind {self.folder}{it} {it}" for it in self.own]
        script = " && ".join([f"hostname {self.name}", *binds, "echo up", "exec sleep infinity"])
        words = ["ip", "netns", "exec", self.net, "unshare", "--mount", "--uts", "--pid", "--fork", "--kill-child",
                 "--mount-proc", "sh", "-c", script]
        self.first = subprocess.Popen(words, stdin=subprocess.DEVNULL, stdout=subprocess.PIPE, text=True)
        if self.first.stdout.readline() != "up\n":
            raise OSError(f"the machine {self.name} doesn't come up")

    def pid(self):
        """Its first process, as this machine counts it."""
        return done(["pgrep", "-P", str(self.first.pid)]).split()[0]

    def inside(self, words):
        return ["nsenter", "-t", self.pid(), "-m", "-u", "-n", "-p", "--", *words]

    def run(self, *words, **how):
        """The finished run of a command on this machine."""
        how = {"capture_output": True, "text": True, "timeout": 120, "check": False} | how
        return subprocess.run(self.inside(words), **how)

    def begin(self, log, *words):
        """A process on this machine, which writes to a file of its folder."""
        with open(f"{self.folder}/{log}", "ab") as file:
            return subprocess.Popen(self.inside(words), stdin=subprocess.DEVNULL, stdout=file, stderr=file)

    def begin_unit(self, log, *words):
        """As a unit does: the command begins again a second after it ended, until `end_unit`. `ended` has a line for
        each end: which process it was, and its status."""
        script = (f"touch {self.folder}/on; while [ -e {self.folder}/on ]; do {shlex.join(words)} &"
                  f" echo $! >{self.folder}/pid; wait $!; echo $! $? >>{self.folder}/ended; sleep 1; done")
        self.unit = self.begin(log, "sh", "-c", script)

    def end_unit(self):
        self.run("sh", "-c", f"rm -f {self.folder}/on; kill -9 $(cat {self.folder}/pid)")
        self.unit.wait()

    def cut(self):
        """Pulls its cable: what is sent is lost, and no connection is told."""
        ip("-n", self.switch, "link", "set", self.cable, "down")

    def mend(self):
        ip("-n", self.switch, "link", "set", self.cable, "up")

    def die(self):
        """Its power goes."""
        self.cut()
        self.end()

    def end(self):
        """Ends all its processes, and takes its cable away."""
        if self.first.poll() is None:
            os.kill(int(self.pid()), signal.SIGKILL)
        self.first.wait()
        self.first.stdout.close()
        for _ in range(100):
            if subprocess.run(["ip", "netns", "del", self.net], capture_output=True, check=False).returncode == 0:
                break
            time.sleep(0.05)
        subprocess.run(["ip", "-n", self.switch, "link", "del", self.cable], capture_output=True, check=False)
