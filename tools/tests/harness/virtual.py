"""Virtual machines on a switch of machines.py, for what needs modules of the kernel: slow ones, without KVM.

Each has Debian's kernel, this system's root with memory over it, its folder, and a disk of its own. The kernel is that
of the system, or of the unpacked package linux-image-* that HALL_KERNEL names (`dpkg-deb -x`, then `depmod -b`).
"""
import glob
import json
import os
import shutil
import socket
import subprocess

import pytest

from . import inside_vm
from .checks import need
from .machines import ip
from .volume import waited

TREE = os.environ.get("HALL_KERNEL", "/")
MODULES = ("loop", "virtio_pci", "virtio_blk", "virtio_net", "9pnet_virtio", "9p", "overlay", "crc32c_generic",
           "libcrc32c", "ext4", "drbd")
INIT = """#!/bin/busybox sh
/bin/busybox mkdir -p /proc /sys /dev /root /over /new
/bin/busybox mount -t proc p /proc
/bin/busybox mount -t sysfs s /sys
/bin/busybox mount -t devtmpfs d /dev
for it in {modules}; do /bin/busybox modprobe $it; done
/bin/busybox mount -t 9p -o trans=virtio,version=9p2000.L,ro,cache=loose,msize=262144 root /root
/bin/busybox mount -t tmpfs t /over
/bin/busybox mkdir /over/changed /over/work
/bin/busybox mount -t overlay -o lowerdir=/root,upperdir=/over/changed,workdir=/over/work o /new
for it in proc sys dev; do /bin/busybox mount --move /$it /new/$it; done
exec /bin/busybox switch_root /new /usr/bin/python3 {first}
"""
MEMORY, DISK = 640, 128


def kernel():
    """(the kernel, the folder of its modules) of the newest one that has DRBD; none where there is none."""
    found = sorted(glob.glob(f"{TREE}/lib/modules/*/kernel/drivers/block/drbd/drbd.ko*"))
    if not found:
        return None
    modules = found[-1].rpartition("/kernel/drivers/")[0]
    return f"{TREE}/boot/vmlinuz-{os.path.basename(modules)}", modules


def need_parts():
    """Skips the test where no such machine can be made."""
    need("qemu-system-x86_64", "busybox", "cpio", "depmod")
    if not kernel():
        pytest.skip("no kernel with DRBD: Debian's package linux-image-amd64 has one (or HALL_KERNEL)")


def start_image(room):
    """What the kernel begins with: the modules that are needed until the root is there, and DRBD."""
    modules, place = kernel()[1], f"{room}/start"
    with open(f"{modules}/modules.dep", encoding="ascii") as file:
        after = dict(line.strip().split(":", 1) for line in file)
    for path in [it for it in after if os.path.basename(it).split(".")[0].replace("-", "_") in MODULES]:
        for it in (path, *after[path].split()):
            to = f"{place}/lib/modules/{os.path.basename(modules)}/{it}"
            os.makedirs(os.path.dirname(to), exist_ok=True)
            shutil.copyfile(f"{modules}/{it}", to)
    subprocess.run(["depmod", "-b", place, os.path.basename(modules)], capture_output=True, check=True)
    os.makedirs(f"{place}/bin")
    shutil.copy(shutil.which("busybox"), f"{place}/bin/busybox")
    with open(f"{place}/init", "w", encoding="ascii") as file:
        file.write(INIT.format(modules=" ".join(MODULES), first=os.path.realpath(inside_vm.__file__)))
    os.chmod(f"{place}/init", 0o755)
    subprocess.run(f"find . | cpio -o -H newc --quiet | gzip -1 >{room}/start.gz", shell=True, check=True, cwd=place)
    return f"{room}/start.gz"


class Vm:
    """A virtual machine, whose folder and disk outlast its deaths."""

    def __init__(self, switch, name, number, image):
        self.switch, self.name, self.number, self.image = switch, name, number, image
        self.address, self.cable = f"{switch.network}.{number}", f"to-{name}"
        self.folder, self.qemu = f"{switch.room}/{name}", None
        os.makedirs(self.folder, exist_ok=True)
        with open(f"{self.folder}/disk", "wb") as file:
            file.truncate(DISK << 20)

    def boot(self):
        ip("-n", self.switch.name, "tuntap", "add", self.cable, "mode", "tap")
        ip("-n", self.switch.name, "link", "set", self.cable, "master", "switch", "up")
        words = f"console=ttyS0 quiet panic=-1 hall.name={self.name} hall.address={self.address}"
        shared = "security_model=none,multidevs=remap"
        with open(f"{self.folder}/console", "ab") as console:
            self.qemu = subprocess.Popen([
                "ip", "netns", "exec", self.switch.name, "qemu-system-x86_64", "-accel", "tcg", "-cpu", "max",
                "-m", str(MEMORY), "-smp", "1", "-nodefaults", "-no-user-config", "-display", "none",
                "-serial", "stdio", "-no-reboot", "-kernel", kernel()[0], "-initrd", self.image,
                "-append", f"{words} hall.folder={self.folder}",
                "-virtfs", f"local,path=/,mount_tag=root,readonly=on,{shared}",
                "-virtfs", f"local,path={self.folder},mount_tag=own,{shared}",
                "-drive", f"file={self.folder}/disk,format=raw,if=virtio,cache=none",
                "-netdev", f"tap,id=net,ifname={self.cable},script=no,downscript=no",
                "-device", f"virtio-net-pci,netdev=net,mac=52:54:00:66:00:{self.number:02x}",
            ], stdin=subprocess.DEVNULL, stdout=console, stderr=console)
        waited(f"{self.name} is up", lambda: self.is_up(), 180)

    def is_up(self):
        if self.qemu.poll() is not None:
            raise OSError(f"the virtual machine {self.name} ended: {self.folder}/console")
        try:
            return self.asked("true", True, 3)[0] == 0
        except OSError:
            return False

    def asked(self, command, waits, patience, log="/dev/null"):
        with socket.create_connection((self.address, inside_vm.PORT), 3) as line:
            line.settimeout(patience)
            line.sendall(json.dumps({"command": command, "waits": waits, "log": log}).encode() + b"\n")
            return json.loads(line.makefile().readline() or "[255, \"it broke off\"]")

    def run(self, command, patience=120):
        """(status, what was written) of a command of the shell."""
        return tuple(self.asked(command, True, patience))

    def does(self, command, patience=120):
        """The same, which must do well: what was written."""
        status, said = self.run(command, patience)
        if status:
            raise OSError(f"{self.name}: {command}: {said}")
        return said

    def begin(self, command, log):
        """A process on this machine, which writes to a file of its folder."""
        self.asked(command, False, 20, f"{self.folder}/{log}")

    def cut(self):
        ip("-n", self.switch.name, "link", "set", self.cable, "down")

    def mend(self):
        ip("-n", self.switch.name, "link", "set", self.cable, "up")

    def die(self):
        """Its power goes: nobody is told, and what its kernel hadn't written to the disk is lost."""
        self.cut()
        self.end()

    def end(self):
        if self.qemu and self.qemu.poll() is None:
            self.qemu.kill()
            self.qemu.wait()
            ip("-n", self.switch.name, "link", "del", self.cable)
