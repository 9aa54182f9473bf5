"""A root of a machine without a hall, in which a script runs, as one that follows the first way of docs/RUNNING.md word
by word.

The root is this machine's own, with all that changes put aside, and with neither its network nor its processes.
systemd isn't there, so a stand-in starts what the unit says.
"""
import os
import re
import subprocess
import tempfile

from .running import ROOT

PAGE = f"{ROOT}/docs/RUNNING.md"
NEEDED = ("apt", "chroot", "curl", "ip", "mount", "openssl", "runuser", "unshare")
LIMIT = 600
SYSTEMCTL = r"""#!/bin/sh
[ "$*" = "enable --now hall" ] || { echo "systemctl: $*" >&2; exit 1; }
of_unit() { sed -n "s/^$1=//p" /usr/lib/systemd/system/hall.service; }
. "$(of_unit EnvironmentFile)"
eval "set -- $(of_unit ExecStart)"
cd "$(of_unit WorkingDirectory)" || exit 1
setsid runuser -u "$(of_unit User)" -- "$@" >/dev/null 2>/run/hall.log </dev/null &
"""
# Lays the root out over this machine's, and runs a script there.
LAID_OUT = """set -e
mount -t tmpfs tmpfs {room}
mkdir {room}/changed {room}/work {room}/root
mount -t overlay overlay -o lowerdir=/,upperdir={room}/changed,workdir={room}/work {room}/root
mount --rbind /dev {room}/root/dev
{proc}
mount -t tmpfs tmpfs {room}/root/run
mount -t tmpfs -o mode=1777 tmpfs {room}/root/tmp
# So that nothing that is there is fetched anew.
mount -t tmpfs tmpfs {room}/root/var/lib/apt/lists
# A person says yes where apt asks.
echo 'APT::Get::Assume-Yes "true";' >{room}/root/etc/apt/apt.conf.d/99agreed
ip link set lo up
install -m 755 {files}/systemctl {room}/root/usr/local/sbin/systemctl
cp {files}/followed {files}/*.deb {room}/root/root
exec chroot {room}/root env -i HOME=/root LC_ALL=C.UTF-8 \\
  PATH=/usr/local/sbin:/usr/local/bin:/usr/sbin:/usr/bin:/sbin:/bin bash -e /root/followed
"""
# All lines but the last one as they stand; then a person waits for a moment, and gives the last one.
FOLLOWED = """cd /root
begun=$(date +%s%N)
{lines}
for attempt in $(seq 120); do
  if {last}
  then break; fi
  sleep 1
done
echo
echo "$(( ($(date +%s%N) - begun) / 1000000 )) milliseconds"
"""


def lines():
    """The commands of the page's first way, and the reply that the last one promises."""
    with open(PAGE, encoding="utf-8") as file:
        section = file.read().split("\n## Three minutes\n")[1].split("\n## ")[0]
    given = [line.strip() for line in section.split("\n") if line.startswith("    ")]
    command, reply = re.fullmatch(r"(curl \S+) +# (\{.*?\}).*", given[-1]).groups()
    return given[:-1], command, reply


def run(made, room, script, has_proc=True):
    """Runs the script in such a root, where this package lies in /root."""
    files, folder = (tempfile.mkdtemp(prefix=f"clean-{it}-", dir=room) for it in ("files", "root"))
    proc = f"mount -t proc proc {folder}/root/proc" if has_proc else ""
    for name, text in (("systemctl", SYSTEMCTL), ("followed", script),
                       ("lay-out", LAID_OUT.format(room=folder, files=files, proc=proc))):
        with open(f"{files}/{name}", "w", encoding="utf-8") as file:
            file.write(text)
    os.link(made, f"{files}/{os.path.basename(made)}")
    words = ["unshare", "--mount", "--net", "--pid", "--fork", "--kill-child", "sh", f"{files}/lay-out"]
    return subprocess.run(words, capture_output=True, text=True, timeout=LIMIT, check=False)


def follow(made, room):
    """Follows the page with this package: what was written, the last reply, what it should be, and the seconds."""
    before, last, wanted = lines()
    ran = run(made, room, FOLLOWED.format(lines="\n".join(before), last=last))
    found = re.search(r"^(.*)\n(\d+) milliseconds\n$", ran.stdout, re.M)
    reply, took = (found[1], int(found[2]) / 1000) if found else ("", LIMIT)
    return ran.stdout + ran.stderr, reply, wanted, took


def can_be_laid_out():
    """Whether this machine lets a root be laid out over its own."""
    laid = "mount -t tmpfs t /mnt && cd /mnt && mkdir u w r && mount -t overlay o -o lowerdir=/,upperdir=u,workdir=w r"
    words = ["unshare", "--mount", "--net", "--pid", "--fork", "sh", "-c", laid]
    return subprocess.run(words, capture_output=True, check=False).returncode == 0
