"""A hall behind a real HAProxy with haproxy.cfg, and behind nginx with nginx.conf, of examples/running.

Their limits, what they say in the hall's place, certificates that come late, IPv6, port 80, clients that stall; and
the round of README.md through HAProxy. Only ports, paths and the certificate of the files are replaced, and where a
line says so a time.
"""
import concurrent.futures
import contextlib
import os
import subprocess
import time

import pytest
from harness import clients, proxies, trial
from harness.checks import tell
from harness.running import PEOPLE, free_port, played_round, wait_for
from harness.trial import Stalled, StandIn, Trial

F7, FAULT = '{"fault":"proxy","form":"F7"}', '{"fault":"proxy"}'
ROUNDS = '{"rounds":[]}'
STANDS = '{"stands":"in"}'
CERTIFICATE = "/puzzles/bob/p1/certificate"
CHALLENGE = "/.well-known/acme-challenge/word"
# So many entrants come from one address.
CONTEST = 500
# Addresses of this machine that the files don't name.
STRANGE, OTHER = "127.0.0.9", "127.0.0.8"
# A request is whole in so many seconds, or its client is told so; and many more, on a machine that is busy: one that is
# never told waits for longer. How often it is tried whether others are answered sooner than that.
PATIENCE, TRIES = 10 + 30, 5
# A certificate that comes so late: no other reply may, and no client's connection is silent for so long else.
LATE = 16


def stall(it):
    """Clients with half a head, with half a body, and with a byte a second: the hall never sees them."""
    head = b"PUT /rounds/r1 HTTP/1.1\r\nHost: a\r\nHall-Key: dora-key\r\nContent-Length: 100\r\n\r\n"
    stalled = [Stalled(it, [head[:30]]), Stalled(it, [head + b"half"]),
               Stalled(it, [bytes([byte]) for byte in head], 1)]
    time.sleep(1)
    return stalled


def bodies(it):
    """What is as long as the hall takes it is answered by the hall, and what is longer by the proxy."""
    body = b'{"text":"' + b"x" * (65_536 - 11) + b'"}'
    told = (400, '{"field":"text","form":"F3"}')
    it.wants("a body of 65,536 bytes", told, it.ask("PUT", "/puzzles/bob/p1", "bob-key-1", body))
    it.wants("a body of 65,537 bytes", (400, F7), it.ask("PUT", "/puzzles/bob/p1", "bob-key-1", body + b" "))


def heads(it):
    """The same of heads, and of bodies whose length isn't told."""
    def padded(size):
        head = f"GET /rounds HTTP/1.1\r\nHost: localhost:{it.port}\r\nHall-Key: eve-key-1\r\nX: \r\n\r\n"
        return [("X", "x" * (size - len(head)))]

    it.wants("a head of 8,150 bytes", (200, ROUNDS), it.ask("GET", "/rounds", headers=padded(8150)))
    it.wants("a head of 8,193 bytes", (400, F7), it.ask("GET", "/rounds", headers=padded(8193)))
    several = [(f"X{k}", "x") for k in range(30)]
    it.wants("31 headers", (200, ROUNDS), it.ask("GET", "/rounds", headers=several[:29]))
    it.wants("33 headers", (400, F7), it.ask("GET", "/rounds", headers=[*several, ("Y", "y")]))
    chunks = b"2\r\n{}\r\n0\r\n\r\n"
    it.wants("a body in chunks", (400, F7),
             it.ask("PUT", "/puzzles/bob/p1", "bob-key-1", chunks, [("Transfer-Encoding", "chunked")]))


def by_http2(it):
    """The same by HTTP/2, which browsers speak where they can. nginx bounds a body's pauses alone."""
    if "HTTP2" not in subprocess.run(["curl", "--version"], capture_output=True, text=True, check=True).stdout:
        tell(f"behind {it.name}: curl speaks no HTTP/2 here, so that wasn't tried")
        return
    put = f"https://localhost:{it.port}/puzzles/bob/p1"
    body = b'{"text":"' + b"x" * (65_536 - 11) + b'"}'
    of_hall = '{"field":"text","form":"F3"} 2 400'
    told = asked_by_http2(it, put.replace("/puzzles/bob/p1", "/rounds"))
    it.wants("a request by HTTP/2", f"{ROUNDS} 2 200", told)
    slow = ("a body that comes too slowly", "cancelled", body, ["--limit-rate", "1k"])
    for name, wanted, sent, words in (
        ("a body of 65,536 bytes", of_hall, body, []), ("a body of 65,537 bytes", f"{F7} 2 400", body + b" ", []),
        *([slow] if it.name == "HAProxy" else []),
    ):
        told = asked_by_http2(it, put, "-X", "PUT", "--data-binary", "@-", *words, body=sent)
        it.wants(f"{name} by HTTP/2", wanted, told)


def asked_by_http2(it, address, *words, body=b""):
    """The body of a reply, the version of HTTP that was spoken, and the status; or that the request was cancelled."""
    asked = ["curl", "-sS", "--http2", "--cacert", it.certificate, "-H", "Hall-Key: bob-key-1", address, *words]
    ran = subprocess.run([*asked, "-w", " %{http_version} %{http_code}"], input=body, capture_output=True, timeout=90,
                         check=False)
    return "cancelled" if b"CANCEL" in ran.stderr else (ran.stdout + ran.stderr).decode()


def often(it, count, path, headers=(), source=STRANGE):
    """The statuses of so many requests of one key on one connection, the last reply's headers, and the seconds."""
    line = it.connection(source=source)
    told, last, begun = [], None, time.monotonic()
    for _ in range(count):
        line.request("GET", path, headers={"Hall-Key": "eve-key-1", **dict(headers)})
        reply = line.getresponse()
        reply.read()
        told.append(reply.status)
        last = reply.headers
    line.close()
    return told, last, time.monotonic() - begun


def crowded(it):
    """One key asks too often, here for what HAProxy refuses by itself, and others of its address are served meanwhile.
    """
    for turn in range(6):
        key = ("Hall-Key", f"often-key-{turn}")
        told, headers, took = often(it, 310, "/rounds", [*((f"X{k}", "x") for k in range(40)), key])
        if took < 9:
            it.wants("a key that asks 310 times", [400] * 300 + [429] * 10, told)
            it.wants("when it is to come again", ("10", True), (headers["Retry-After"], trial.is_now(headers)))
            break
    else:
        tell("behind HAProxy: too slow today for 300 requests in 10 seconds, so their limit wasn't tried")
    it.wants("another key", (200, ROUNDS), it.ask("GET", "/rounds", source=STRANGE))


def crowded_at_nginx(it):
    """The same at nginx, which lets 100 requests in at once, and then 30 in a second."""
    told, _, took = often(it, 400, "/rounds", [("Hall-Key", "rex-key-1")])
    served = told.count(200)
    it.wants("a key that asks 400 times", ([200] * 100, True, 400),
             (told[:100], served <= 102 + 30 * took, served + told.count(429)))
    it.wants("another key", (200, ROUNDS), it.ask("GET", "/rounds", "fay-key-1", source=STRANGE))


def certificates(it, answered):
    """A certificate, from any address."""
    body = b'{"budget":1}'
    it.wants("a certificate", answered, it.ask("POST", CERTIFICATE, "bob-key-1", body))
    it.wants("a certificate, from another address", answered,
             it.ask("POST", CERTIFICATE, "bob-key-1", body, source=OTHER))
    if trial.has_ipv6():
        it.wants("a certificate, over IPv6", answered, it.ask("POST", CERTIFICATE, "bob-key-1", body, host="::1"))


def families(it):
    """A reply of the hall, over IPv4 and IPv6, and the time that it tells."""
    for host in ["127.0.0.1", *(["::1"] if trial.has_ipv6() else [])]:
        status, told, headers = it.reply("GET", "/rounds", host=host)
        it.wants(f"a reply at {host}, and its date", (200, ROUNDS, True), (status, told, trial.is_now(headers)))
    it.wants("the icon for which browsers ask", (204, ""), it.ask("GET", "/favicon.ico"))


def beside(it, stalled_told, more):
    """Clients that stall beside others, and the limits."""
    unread = it.line()
    unread.sendall(b"GET /rounds/r1/table HTTP/1.1\r\nHost: a\r\n\r\n" * 100)
    for _ in range(TRIES):
        stalled = stall(it)
        begun = time.monotonic()
        for _ in range(20):
            it.wants("a request beside clients that stall", (200, ROUNDS), it.ask("GET", "/rounds"))
        took = time.monotonic() - begun
        if took < 9:
            break
    it.wants(f"20 requests beside them in {took:.1f} s, sooner than those are cut", True, took < 9)
    for one in (families, bodies, *more):
        one(it)
    certificates(it, (404, '{"denied":4}'))
    for one in stalled:
        one.join(PATIENCE)
        it.wants("a client that stalls is told so, and hung up", (True, stalled_told),
                 (one.took is not None and one.took < PATIENCE, one.told[:13]))
    it.wants("what a half body is told, in JSON", stalled_told != b"", FAULT.encode() in stalled[1].told)
    unread.close()


# What docs/RUNNING.md adds where certificates are to come from some addresses alone.
NAMED = """    acl may_certify src 127.0.0.1 ::1
    http-request deny deny_status 403 if { path_end /certificate } !may_certify
"""
NAMED_AT_NGINX = "        allow 127.0.0.1;\n        allow ::1;\n        deny all;\n"


def quick(text):
    """The file of a proxy that waits 8 seconds for the hall, has one page of its own, lets an address have 60
    connections, and names who may certify."""
    page = "http-request return status 200 content-type text/plain string page if { path /own }"
    mark = "    # What HAProxy answers by itself"
    return (text.replace("timeout server 180s", "timeout server 8s")
            .replace("proxy_read_timeout 180s", "proxy_read_timeout 8s")
            .replace("limit_conn hall_lines 1000", "limit_conn hall_lines 60")
            .replace(mark, f"    {page}\n{mark}")
            .replace("    use_backend certificates", f"{NAMED}    use_backend certificates")
            .replace("    location ~ /certificate$ {\n", f"    location ~ /certificate$ {{\n{NAMED_AT_NGINX}")
            .replace("    location / {", "    location = /own { return 200 page; }\n    location / {", 1))


def in_its_place(it, stand_in):
    """What the proxy says of a hall that hangs up, is silent, or isn't there; and of many that ask at once."""
    it.wants("a page of the proxy's own, 310 times", [200] * 310, often(it, 310, "/own")[0])
    it.wants("then a request for the hall", (200, STANDS), it.ask("GET", "/rounds", source=STRANGE))
    for name, path, status in (("hangs up", "/closes", 502), ("is silent", "/silent", 504)):
        told = it.reply("GET", path)
        it.wants(f"a hall that {name}", (status, FAULT, True), (*told[:2], trial.is_now(told[2])))
    told = it.reply("POST", CERTIFICATE, "bob-key-1", b"{}", source=OTHER)
    it.wants("a certificate, from an address that isn't named", (403, FAULT, True), (*told[:2], trial.is_now(told[2])))
    stand_in.let_go()
    late(it, stand_in)
    if it.name == "nginx":
        stand_in.let_go()
        many(it, stand_in)
    stand_in.end()
    it.wants("a hall that isn't there", (503 if it.name == "HAProxy" else 502, FAULT), it.ask("GET", "/rounds"))


def late(it, stand_in):
    """Three certificates that come late: each is told its end, and all else is answered meanwhile."""
    with concurrent.futures.ThreadPoolExecutor(3) as pool:
        asked = [pool.submit(it.ask, "POST", CERTIFICATE, "bob-key-1", b"{}") for _ in range(3)]
        it.wants("three certificates at once", True, stand_in.keeps(3))
        it.wants("a request beside them", (200, STANDS), it.ask("GET", "/rounds"))
        time.sleep(LATE)
        it.wants("certificates that the hall still has", 3, stand_in.kept)
        stand_in.gone.set()
        it.wants(f"three certificates after {LATE} seconds", [(200, STANDS)] * 3, [one.result() for one in asked])


def many(it, stand_in):
    """Seventy requests of one address, of which the hall answers none yet: sixty are let in."""
    with concurrent.futures.ThreadPoolExecutor(60) as pool:
        asked = [pool.submit(it.ask, "POST", CERTIFICATE, "bob-key-1", b"{}") for _ in range(60)]
        it.wants("sixty requests at once", True, stand_in.keeps(60))
        more = [it.reply("POST", CERTIFICATE, "bob-key-1", b"{}") for _ in range(10)]
        it.wants("ten more", [(429, FAULT, "10")] * 10, [(*one[:2], one[2]["Retry-After"]) for one in more])
        stand_in.gone.set()
        it.wants("what the sixty are told", [(200, STANDS)] * 60, [one.result() for one in asked])


def challenges(it):
    """Port 80, as it is opened for certificates by http-01."""
    it.wants("a challenge", (200, STANDS), it.ask("GET", CHALLENGE))
    it.wants("another path at port 80", 403, it.ask("GET", "/rounds")[0])


def acme_haproxy(front, back, room):
    """HAProxy with the lines for port 80."""
    def opened(text):
        text = proxies.opened(text, "frontend acme")
        return text.replace("bind :::80 v4v6", f"bind :::{front} v4v6 interface lo").replace(
            "127.0.0.1:8888", f"127.0.0.1:{back}")
    return proxies.our_haproxy(free_port(), free_port(), room, change=opened)


def acme_nginx(front, _, room):
    """nginx with the lines for port 80."""
    def opened(text):
        text = proxies.opened(text, "server {")
        return text.replace("listen 80;", f"listen 127.0.0.1:{front};").replace(
            "listen [::]:80;", f"listen [::1]:{front};").replace("/var/www/hall", f"{room}/www")
    return proxies.our_nginx(free_port(), free_port(), room, change=opened)


def renewed(it, room):
    """What certbot runs after a renewal, with a stand-in for systemd."""
    os.makedirs(f"{room}/live", exist_ok=True)
    for name, text in (("fullchain", "CHAIN\n"), ("privkey", "KEY\n")):
        proxies.write(f"{room}/live/{name}.pem", text)
    script = proxies.placed("renewed.sh", [("systemctl reload haproxy", f"echo reloaded >>{room}/reloads")])
    proxies.write(f"{room}/renewed.sh", script.replace("/etc/haproxy/", f"{room}/live/"))
    ran = subprocess.run(["sh", f"{room}/renewed.sh"], check=False, env={"RENEWED_LINEAGE": f"{room}/live",
                                                                         "PATH": os.environ["PATH"]})
    with open(f"{room}/live/hall.pem", encoding="ascii") as made, open(f"{room}/reloads", encoding="ascii") as reloads:
        told = made.read(), reloads.read()
    it.wants("a renewed TLS certificate", (0, "CHAIN\nKEY\n", "reloaded\n"), (ran.returncode, *told))
    it.wants("who may read it", 0o600, os.stat(f"{room}/live/hall.pem").st_mode & 0o777)


ACME = {"HAProxy": acme_haproxy, "nginx": acme_nginx}
# What each is asked beside clients that stall, and how it begins to tell those so.
BESIDE = {"HAProxy": (b"HTTP/1.1 408 ", (heads, by_http2, crowded)), "nginx": (b"", (by_http2, crowded_at_nginx))}


def test_before_a_hall(proxy, program, room):
    front, back = free_port(), free_port()
    it = Trial(proxy.name, front, f"{room}/hall.crt")
    with open(f"{room}/log", "wb") as log:
        how = {"log": log} if proxy.name == "HAProxy" else {}
        with trial.ended_after(proxy.start(front, back, room, tls=True, **how)):
            wait_for(front)
            with trial.serving(program, room, PEOPLE, back):
                beside(it, *BESIDE[proxy.name])
    if how:
        logged(it, room)


def test_a_contest_behind_one_address(proxy, program, room):
    """Five hundred entrants ask five times each, all at once; a key alone asks no more often than it may."""
    clients.allow_many_files()
    front, back = free_port(), free_port()
    it = Trial(proxy.name, front)
    people = "".join(f"e{k},{k:04}-key,entrant\n" for k in range(CONTEST))
    proxies.write(f"{room}/people.csv", f"name,key,roles\n{people}")
    with trial.ended_after(proxy.start(front, back, room)), contextlib.ExitStack() as those:
        wait_for(front)
        those.enter_context(trial.serving(program, room, f"{room}/people.csv", back))
        lines = [those.enter_context(contextlib.closing(it.connection(source=STRANGE))) for _ in range(CONTEST)]
        for _ in range(5):
            for k, line in enumerate(lines):
                line.request("GET", "/rounds", headers={"Hall-Key": f"{k:04}-key"})
            told = []
            for line in lines:
                reply = line.getresponse()
                told.append((reply.status, reply.read().decode()))
            it.wants("what each of a contest is told", {(200, ROUNDS)}, set(told))


def logged(it, room):
    """Requests are logged, and no key is."""
    with open(f"{room}/log", encoding="ascii", errors="replace") as log:
        text = log.read()
    it.wants("requests that are logged", True, text.count('"GET /rounds HTTP/1.1"') > 20)
    it.wants("keys that are logged", 0, text.count("-key"))


def test_in_the_place_of_a_hall(proxy, room):
    """Before a stand-in."""
    front, back = free_port(), free_port()
    stand_in = StandIn(back)
    with trial.ended_after(proxy.start(front, back, room, change=quick)):
        wait_for(front)
        in_its_place(Trial(proxy.name, front), stand_in)


def test_port_80(proxy, room):
    """Certificates by http-01: HAProxy hands the challenge on, nginx has it in a folder."""
    front, back = free_port(), free_port()
    os.makedirs(f"{room}/www/{os.path.dirname(CHALLENGE)}", exist_ok=True)
    proxies.write(f"{room}/www/{CHALLENGE}", STANDS)
    stand_in = StandIn(back)
    it = Trial(proxy.name, front)
    with trial.ended_after(ACME[proxy.name](front, back, room)):
        wait_for(front)
        challenges(it)
    stand_in.end()
    if proxy.name == "HAProxy":
        renewed(it, room)


@pytest.mark.parametrize("proxy", [proxies.HAPROXY], ids=["haproxy"], indirect=True)
def test_the_round_of_the_readme(proxy, program, room):
    """It takes two minutes, beside clients that stall."""
    front, back = free_port(), free_port()
    it = Trial(proxy.name, front, f"{room}/hall.crt")
    with open(f"{room}/log", "wb") as log, trial.ended_after(proxy.start(front, back, room, tls=True, log=log)):
        wait_for(front)
        stall(it)
        words = [str(back), f"https://localhost:{front}", "--cacert", f"{room}/hall.crt"]
        played = played_round(program, *words)
    wrong = [line for line in played.stdout.splitlines() if "FAILED" in line]
    it.wants("the round of README.md", (0, []), (played.returncode, wrong))
    with open(f"{room}/log", encoding="ascii", errors="replace") as log:
        it.wants("keys that are logged", 0, log.read().count("-key"))
