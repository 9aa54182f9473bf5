"""The first process of a virtual machine of virtual.py: its address, and a port that runs what it is told to."""
import json
import os
import socketserver
import subprocess

PORT = 99
SET_UP = """mount -t tmpfs t /run; mkdir -p /run/lock /run/drbd /dev/pts; mount -t devpts d /dev/pts
hostname {name}; ip link set lo up; ip link set eth0 up; ip addr add {address}/24 dev eth0
mkdir -p {folder}; mount -t 9p -o trans=virtio,version=9p2000.L,cache=none own {folder}"""


def ran(command):
    return subprocess.run(command, shell=True, capture_output=True, text=True, check=False)


class Told(socketserver.StreamRequestHandler):
    def handle(self):
        told = json.loads(self.rfile.readline())
        if told["waits"]:
            it = ran(told["command"])
            answer = [it.returncode, it.stdout + it.stderr]
        else:
            with open(told["log"], "ab") as log:
                subprocess.Popen(told["command"], shell=True, stdin=subprocess.DEVNULL, stdout=log, stderr=log,
                                 start_new_session=True)
            answer = [0, ""]
        self.wfile.write(json.dumps(answer).encode() + b"\n")


class Server(socketserver.ThreadingTCPServer):
    allow_reuse_address, daemon_threads = True, True


def main():
    os.environ.update(PATH="/usr/local/sbin:/usr/local/bin:/usr/sbin:/usr/bin:/sbin:/bin", HOME="/root")
    with open("/proc/cmdline", encoding="ascii") as file:
        words = dict(it.split("=", 1) for it in file.read().split() if "=" in it)
    ran(SET_UP.format(**{it: words[f"hall.{it}"] for it in ("name", "address", "folder")}))
    Server(("", PORT), Told).serve_forever()


if __name__ == "__main__":
    main()
