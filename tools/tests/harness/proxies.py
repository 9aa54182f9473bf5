"""HAProxy and nginx, run with the very files of examples/running: only ports, paths and the certificate are
replaced."""
import os
import subprocess
from typing import Callable, NamedTuple

from .running import ROOT

HERE = f"{ROOT}/examples/running"
HAPROXY, NGINX = "/usr/sbin/haproxy", "/usr/sbin/nginx"
ALPN = "alpn h2,http/1.1"
# The page that both serve, in the place of the installed one; another one where the environment says so.
PAGE = os.environ.get("PAGE", f"{ROOT}/clients/page")


def placed(name, pairs):
    """The file's text with each of these parts, which stands there once, replaced."""
    with open(f"{HERE}/{name}", encoding="ascii") as file:
        text = file.read()
    for part, other in pairs:
        if text.count(part) != 1:
            raise ValueError(f"{name} holds {text.count(part)} times: {part}")
        text = text.replace(part, other)
    return text


def write(path, text):
    with open(path, "w", encoding="ascii") as file:
        file.write(text)


def certificate(room):
    """A certificate of localhost, signed by itself, and its key: hall.pem has both."""
    subprocess.run(["openssl", "req", "-x509", "-newkey", "ec", "-pkeyopt", "ec_paramgen_curve:prime256v1", "-nodes",
                    "-days", "2", "-subj", "/CN=localhost", "-addext", "subjectAltName=DNS:localhost",
                    "-keyout", f"{room}/hall.key", "-out", f"{room}/hall.crt"], check=True, stderr=subprocess.DEVNULL)
    with open(f"{room}/hall.key", encoding="ascii") as key, open(f"{room}/hall.crt", encoding="ascii") as crt:
        write(f"{room}/hall.pem", crt.read() + key.read())


def opened(text, first):
    """The text with the `#` taken off the lines that begin with this one."""
    before, found, after = text.partition("\n#" + first)
    if not found:
        raise ValueError(f"there are no such lines: {first}")
    lines = ("#" + first + after).split("\n")
    return "\n".join([before, *(line.removeprefix("#") for line in lines)])


def haproxy(path, log=subprocess.DEVNULL, more=()):
    files = [part for it in (path, *more) for part in ("-f", it)]
    return subprocess.Popen([HAPROXY, "-db", *files], stdout=log, stderr=subprocess.DEVNULL,
                            env={**os.environ, "PAGE": PAGE})


def our_haproxy(front, back, room, tls=False, log=subprocess.DEVNULL, change=str, more=()):
    """HAProxy by haproxy.cfg and more files, from the one port to the other; without TLS where none is asked for."""
    own = os.geteuid() == 0
    write(f"{room}/haproxy.cfg", change(placed("haproxy.cfg", [
        ("log /dev/log local0", "log stdout format raw local0"),
        ("    chroot /var/lib/haproxy\n", f"    chroot {room}\n" if own else ""),
        *([] if own else [("    user haproxy\n", ""), ("    group haproxy\n", "")]),
        # Both kinds of addresses by one line, as in the file, but of this machine alone.
        ("bind :::443 v4v6", f"bind :::{front} v4v6 interface lo"),
        (f" ssl crt /etc/haproxy/hall.pem {ALPN}", f" ssl crt {room}/hall.pem {ALPN}" if tls else ""),
        ("server hall 127.0.0.1:8080 ", f"server hall 127.0.0.1:{back} "),
        ("server searching 127.0.0.1:8080 ", f"server searching 127.0.0.1:{back} "),
    ])))
    return haproxy(f"{room}/haproxy.cfg", log, more)


def nginx(fragment, room):
    """An nginx whose one fragment this is, with its files in the folder."""
    paths = "".join(f"{name}_temp_path {room}/{name};\n" for name in
                    ("client_body", "proxy", "fastcgi", "uwsgi", "scgi"))
    write(f"{room}/nginx.conf", f"""{'user root;' if os.geteuid() == 0 else ''}
daemon off;
pid {room}/nginx.pid;
error_log {room}/nginx.log;
worker_processes auto;
events {{ worker_connections 4096; }}
http {{
access_log off;
{paths}include {fragment};
}}
""")
    return subprocess.Popen([NGINX, "-c", f"{room}/nginx.conf", "-e", f"{room}/nginx.log"])


def our_nginx(front, back, room, tls=False, change=str):
    """nginx with nginx.conf, from the one port to the other."""
    tail = " ssl http2;" if tls else ";"
    write(f"{room}/fragment.conf", change(placed("nginx.conf", [
        ("/usr/share/hall/page", PAGE),
        ("listen 443 ssl http2;", f"listen 127.0.0.1:{front}{tail}"),
        ("listen [::]:443 ssl http2;", f"listen [::1]:{front}{tail}"),
        ("    ssl_certificate /etc/nginx/hall.pem;\n", f"    ssl_certificate {room}/hall.crt;\n" if tls else ""),
        ("    ssl_certificate_key /etc/nginx/hall.key;\n",
         f"    ssl_certificate_key {room}/hall.key;\n" if tls else ""),
        ("127.0.0.1:8080", f"127.0.0.1:{back}"),
    ])))
    return nginx(f"{room}/fragment.conf", room)


class Kind(NamedTuple):
    """A kind of proxy: its name, and what starts it with the files of examples/running."""
    name: str
    start: Callable


KINDS = {HAPROXY: Kind("HAProxy", our_haproxy), NGINX: Kind("nginx", our_nginx)}
