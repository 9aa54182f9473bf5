"""The unit of systemd, examples/running/hall.service: what it says is taken, and it keeps a hall up.

`systemd-analyze verify`, `haproxy -c` and `nft -c` pass on the files of examples/running, where these programs are. A
stand-in for systemd, which does what the unit says of starts, keeps a hall up that ends with 0 after some connections
or is killed; it leaves one that ends at once, and one whose command line is wrong.
"""
import os
import shlex
import signal
import subprocess
import threading
import time

import pytest
from harness import proxies, running, trial
from harness.checks import check, need

UNIT = f"{running.ROOT}/examples/running/hall.service"
PLACE, FILE = "/usr/local/bin/hall", "/var/lib/hall/hall.db"
# The stand-in rests a shorter time than the unit says.
SHORT = 0.02


def settings():
    """What the unit says, by name."""
    with open(UNIT, encoding="ascii") as file:
        lines = [line.strip().partition("=") for line in file if "=" in line and not line.startswith("#")]
    return {name: value for name, _, value in lines}


class Systemd(threading.Thread):
    """Starts a command as the unit says, again and again, until `stop` or until the unit says to leave it."""

    def __init__(self, words, unit):
        super().__init__(daemon=True)
        self.words, self.unit, self.stopped, self.statuses, self.process = words, unit, False, [], None
        self.start()

    def run(self):
        starts, pause = [], float(self.unit["RestartSec"]) * SHORT
        while not self.stopped:
            starts.append(time.monotonic())
            recent = [it for it in starts if it > starts[-1] - float(self.unit["StartLimitIntervalSec"])]
            if len(recent) > int(self.unit["StartLimitBurst"]):
                return
            with subprocess.Popen(self.words, stderr=subprocess.DEVNULL) as self.process:
                status = self.process.wait()
            self.statuses.append(status)
            if not self.starts_again(status):
                return
            time.sleep(pause)

    def starts_again(self, status):
        """What `Restart` makes of a status; a signal's is below 0."""
        if str(status) in self.unit.get("RestartPreventExitStatus", "").split():
            return False
        return {"always": True, "on-failure": status not in (0, -signal.SIGTERM)}.get(self.unit["Restart"], False)

    def stop(self):
        self.stopped = True
        self.process.terminate()
        self.join()


def words_of(unit, program, path, port, *more):
    """The unit's command, with this program, file and port."""
    words = [program if it == PLACE else path if it == FILE else it for it in shlex.split(unit["ExecStart"])]
    return [str(port) if it == "8080" else it for it in words] + list(more)


def asked(port):
    """What a hall that is up, or comes up soon, tells a stranger."""
    for _ in range(2400):
        try:
            return trial.Trial("the unit", port).ask("GET", "/rounds", "nobodys-key")
        except OSError:
            time.sleep(0.05)
    return None


@pytest.fixture
def unit():
    return settings()


def test_it_keeps_a_hall_up(unit, program, db):
    """A hall that lets five connections in serves sixteen, and one that is killed comes back."""
    port = running.free_port()
    kept = Systemd(words_of(unit, program, db, port, "--connections", "5"), unit)
    told = [asked(port) for _ in range(16)]
    check("sixteen requests of a hall of five connections", told, [(403, '{"denied":1}')] * 16)
    kept.process.kill()
    check("a request after the hall was killed", asked(port), (403, '{"denied":1}'))
    kept.stop()
    check("how it ended", kept.statuses, [0, 0, 0, -signal.SIGKILL, -signal.SIGTERM])


def test_it_leaves_a_hall_that_ends_at_once(unit, program, room):
    """One whose file is no database, and one whose command line is wrong."""
    with open(f"{room}/damaged.db", "wb") as file:
        file.write(b"no database" * 1000)
    port = running.free_port()
    left = Systemd(words_of(unit, program, f"{room}/damaged.db", port), unit)
    left.join(running.PATIENCE)
    check("a hall that ends at once", (left.is_alive(), left.statuses), (False, [3] * int(unit["StartLimitBurst"])))
    left = Systemd(words_of(unit, program, f"{room}/damaged.db", port, "--nonsense"), unit)
    left.join(running.PATIENCE)
    check("a wrong command line", (left.is_alive(), left.statuses), (False, [64]))


def test_systemd_takes_it(program, room):
    """systemd's own look at the unit, with the program where it is here."""
    need("systemd-analyze")
    with open(UNIT, encoding="ascii") as file:
        text = file.read().replace(PLACE, program)
    with open(f"{room}/hall.service", "w", encoding="ascii") as file:
        file.write(text)
    how = {"check": False, "capture_output": True, "text": True, "timeout": 60}
    ran = subprocess.run(["systemd-analyze", "verify", f"{room}/hall.service"], **how)
    found = [it for it in ran.stderr.splitlines() if "hall.service" in it]
    check("systemd-analyze verify", (ran.returncode, found), (0, []))


def test_haproxy_takes_its_file(room):
    """HAProxy's own look at its file, with port 80 and without it."""
    need(proxies.HAPROXY)
    proxies.certificate(room)
    text = proxies.placed("haproxy.cfg", [("/etc/haproxy/hall.pem", f"{room}/hall.pem")])
    how = {"check": False, "capture_output": True, "text": True, "timeout": 60}
    how["env"] = {**os.environ, "PAGE": proxies.PAGE}
    for name, file in (("haproxy.cfg", text), ("haproxy.cfg with port 80", proxies.opened(text, "frontend acme"))):
        proxies.write(f"{room}/haproxy.cfg", file)
        ran = subprocess.run([proxies.HAPROXY, "-c", "-f", f"{room}/haproxy.cfg"], **how)
        check(f"haproxy -c of {name}", (ran.returncode, ran.stderr), (0, ""))


def test_nft_takes_the_limit_of_connections():
    """To look takes rights over the firewall."""
    need("nft")
    words = ["nft", "-c", "-f", f"{running.ROOT}/examples/running/connections.nft"]
    ran = subprocess.run(words, check=False, capture_output=True, text=True, timeout=60)
    if "not permitted" in ran.stderr:
        pytest.skip("nft may not look at the firewall here")
    check("nft -c of connections.nft", (ran.returncode, ran.stderr), (0, ""))
