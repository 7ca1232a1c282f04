#!/usr/bin/env python3
"""The packages' life in a plain Debian 12 without the toolchain: 0.1.0 is upgraded and purged; then installed,
used, upgraded while clients are answered, removed, installed again and purged, under its own systemd. Behind
that the steps of docs/SCALING.md make a fleet by etcd.

The system is made by mmdebstrap and booted by systemd-nspawn, which need root, Debian's packages and
a kernel that lets them; where that can't be, it says why, and looks at nothing.
"""
import contextlib
import os
import pathlib
import re
import shutil
import socket
import sys
import tempfile
import threading
import time

sys.path.insert(0, str(pathlib.Path(__file__).resolve().parents[1]))
from build import packaging
from check import fleet_typed, package_runs, sessions
from check.debian_booted import COMMANDS, PATIENCE, CannotBe, booted, debian, until
from common import TOP
from common.daemon import connected, frame, received

import request

KEYS, SOCKET = "/etc/macaroond/keys", "/run/macaroond/socket"
# Where no token is minted: frames, and HTTP once it is set up.
VERIFY, HTTP = "/run/macaroond-verify/socket", "/run/macaroond-verify/http"
SETTINGS = "/etc/default/macaroond"
KEPT = "/etc/systemd/system/macaroond.service.d/from-0.1.0.conf"
NAMES = package_runs.NAMES
APT = ["DEBIAN_FRONTEND=noninteractive", "apt-get", "-qq", "-y"]
# What packaged 0.1.0, whose programs are today's here.
RELEASED = TOP / "scripts" / "check" / "released" / "0.1.0"
CLIENTS = 4
GRANTED, NOT_ALLOWED = bytes([0]), bytes([27])


def missing():
    lacking = [f"`{name}` isn't there (package {of})" for name, of in COMMANDS.items() if shutil.which(name) is None]
    return package_runs.missing() + lacking


def packages_of(folder, version=None):
    """The packages made in the folder, the daemon's first, of this version where one is given."""
    laid = packaging.lay_out(folder)
    if version is not None:
        packaging.head_changelog(laid, version)
    return packaging.packages(laid)


def first_release(folder):
    """The package of 0.1.0, but for its programs, which are built elsewhere now."""
    laid = packaging.lay_out(folder)
    for path in (*(laid / "debian").glob("*-macaroond*"), *(laid / "debian").glob("macaroond-fleet*")):
        path.unlink()
    (laid / "debian" / "macaroond.preinst").unlink()
    shutil.copytree(RELEASED, laid, dirs_exist_ok=True)
    for path in (laid / "debian" / "rules", laid / "packaging" / "install.sh"):
        path.write_text(re.sub(r"(?<!/)bin/macaroond", "built/macaroond", path.read_text()))
    packaging.head_changelog(laid, "0.1.0")
    return packaging.packages(laid)[0]


class Client(threading.Thread):
    """Asks whether a token is granted, over and over, over a new connection where one has ended."""

    def __init__(self, path, asked):
        super().__init__(daemon=True)
        self.path, self.asked = path, frame(asked)
        self.is_over, self.wrong, self.ended, self.answered = False, [], 0, 0
        self.start()

    def run(self):
        while not self.is_over:
            with contextlib.suppress(ConnectionError, FileNotFoundError), socket.socket(socket.AF_UNIX) as stream:
                stream.settimeout(PATIENCE)
                stream.connect(self.path)
                self.ask(stream)
            self.ended += not self.is_over
            time.sleep(0.02)

    def ask(self, stream):
        """Asks until the connection ends, which may not be in the middle of a reply."""
        due = frame(GRANTED)
        while not self.is_over:
            stream.sendall(self.asked)
            reply = received(stream, len(due))
            if reply == b"":
                return
            self.answered += reply == due
            self.wrong += [reply] if reply != due else []


def answer(system, payload):
    """The daemon's reply to a request."""
    with connected(system.path(SOCKET)) as stream:
        stream.sendall(frame(payload))
        length = int.from_bytes(received(stream, 4), "big")
        return received(stream, length)


def by_user(system, user, group, script, *words):
    """What a script of Python tells, run in the system by a user who is in one group besides."""
    groups = [f"--groups={group}"] if group else ["--clear-groups"]
    return system.says("setpriv", f"--reuid={user}", "--regid=nogroup", *groups, "python3", "-c", script, *words)


# Asks at a socket, in hexadecimal; or tells that nobody may connect.
ASKING = """
import socket, sys
try:
    stream = socket.socket(socket.AF_UNIX)
    stream.connect(sys.argv[1])
    stream.sendall(bytes.fromhex(sys.argv[2]))
    head = stream.recv(4, socket.MSG_WAITALL)
    print(stream.recv(int.from_bytes(head, "big"), socket.MSG_WAITALL).hex())
except OSError as fault:
    print(type(fault).__name__)
"""
# Asks over HTTP at a Unix socket, and tells the status.
ASKING_HTTP = """
import socket, sys
stream = socket.socket(socket.AF_UNIX)
stream.connect(sys.argv[1])
stream.sendall(sys.argv[2].encode() + b"Host: macaroond\\r\\nConnection: close\\r\\n\\r\\n" + sys.argv[3].encode())
print(stream.recv(65536).split()[1].decode())
"""
# Tells which of these files may be opened.
OPENING = """
import sys
for name in sys.argv[1:]:
    try:
        open(name, "rb").read(1)
        print(name)
    except OSError:
        pass
"""


def asks(system, user, group, path, payload):
    """The reply to a request that a user of the system asks, in hexadecimal, or why he may not."""
    return by_user(system, user, group, ASKING, path, frame(payload).hex())


def installed(system):
    """What stands in a system once the package is installed."""
    yield "the service", system.says("systemctl", "is-active", "macaroond"), "active"
    yield "at each start", system.says("systemctl", "is-enabled", "macaroond"), "enabled"
    yield "whose keys", system.says("stat", "-c", "%U:%G %a", KEYS), "_macaroond:_macaroond 600"
    yield "whose socket", system.says("stat", "-c", "%U:%G %a", SOCKET), "_macaroond:_macaroond 600"
    yield "whose second one", system.says("stat", "-c", "%U:%G %a", VERIFY), "_macaroond:_macaroond-verify 660"
    folder = system.says("stat", "-c", "%U:%G %a", os.path.dirname(VERIFY))
    yield "and its folder", folder, "_macaroond:_macaroond-verify 2750"
    process = system.says("systemctl", "show", "-P", "MainPID", "macaroond")
    yield "as whom", system.says("stat", "-c", "%U", f"/proc/{process}"), "_macaroond"
    yield "whose memory", system.says("stat", "-c", "%U", f"/proc/{process}/mem"), "root"
    yield "no core file", system.says("grep", "core file", f"/proc/{process}/limits").split()[4:6], ["0", "0"]
    mounted = system.says("awk", '$5 == "/" { print $6 }', f"/proc/{process}/mountinfo")
    yield "what may be started", "noexec" in mounted, True
    yield "what it sees of /var", system.says("stat", "-c", "%a", f"/proc/{process}/root/var"), "0"
    yield "what it may swap", system.says("systemctl", "show", "-P", "MemorySwapMax", "macaroond"), "0"
    peeping = by_user(system, "_macaroond", "", OPENING, f"/proc/{process}/mem", f"/proc/{process}/environ")
    yield "another process of its user", peeping, ""


def by_a_gateway(system, name, asked):
    """A gateway's user verifies, by frames and over HTTP, and mints by no path of what is installed."""
    mint = request.mint("v2-text", name, "", "root")
    for user, group in (("www-data", "_macaroond-verify"), ("www-data", ""), ("nobody", "")):
        verifies = group != ""
        due = GRANTED.hex() if verifies else "PermissionError"
        yield f"{user} {group} verifies", asks(system, user, group, VERIFY, asked), due
        due = NOT_ALLOWED.hex() if verifies else "PermissionError"
        yield f"{user} {group} mints", asks(system, user, group, VERIFY, mint), due
        for path in (SOCKET, f"{SOCKET}.status"):
            yield f"{user} {group} at {path}", asks(system, user, group, path, mint), "PermissionError"
        opened = by_user(system, user, group, OPENING, KEYS, "/run/macaroond", "/etc/macaroond")
        yield f"{user} {group} opens", opened, ""
        words = ["macaroond", "mint", "--keys", KEYS, "--key", name, "--identifier", "root"]
        groups = [f"--groups={group}"] if group else ["--clear-groups"]
        status = system.run("setpriv", f"--reuid={user}", "--regid=nogroup", *groups, *words).status
        yield f"{user} {group} by a command", status, 3
    yield "one of the daemon's group", asks(system, "nobody", "_macaroond", SOCKET, mint), "PermissionError"


def over_http(system, name, token):
    """With the options that the settings name for gateways, a gateway's user verifies over HTTP too, and doesn't mint."""
    settings = pathlib.Path(system.path(SETTINGS))
    kept = settings.read_text()
    words = re.search(r"for gateways: (--http .*)$", kept, re.MULTILINE)[1]
    settings.write_text(kept.replace("OPTIONS=", f"OPTIONS={words}"))
    yield "a restart for gateways", system.did("systemctl", "restart", "macaroond"), True
    yield "whose socket over HTTP", system.says("stat", "-c", "%U:%G %a", HTTP), "_macaroond:_macaroond-verify 660"
    asked = f"GET /verify/{name} HTTP/1.1\r\nAuthorization: Macaroon {token}\r\n"
    by = system, "www-data", "_macaroond-verify", ASKING_HTTP, HTTP
    yield "www-data verifies over HTTP", by_user(*by, asked, ""), "200"
    body = '{"identifier": "root"}'
    mint = f"POST /mint/{name} HTTP/1.1\r\nContent-Type: application/json\r\nContent-Length: {len(body)}\r\n"
    yield "www-data mints over HTTP", by_user(*by, mint, body), "404"
    settings.write_text(kept)
    yield "a restart without", system.did("systemctl", "restart", "macaroond"), True


def kept_by_systemd(system, name, asked):
    """The socket that mints as systemd keeps it, beside the second one, which the daemon makes."""
    mint = request.mint("v2-text", name, "", "root")
    for words in (["stop", "macaroond"], ["enable", "--now", "macaroond.socket"], ["start", "macaroond"]):
        yield f"systemctl {words[0]}, with its socket", system.did("systemctl", *words), True
    yield "whose socket by systemd", system.says("stat", "-c", "%U:%G %a", SOCKET), "_macaroond:_macaroond 600"
    yield "root mints there", answer(system, mint)[:1], bytes([1])
    at = system, "www-data", "_macaroond-verify"
    yield "www-data beside it", [asks(*at, VERIFY, it) for it in (asked, mint)], [GRANTED.hex(), NOT_ALLOWED.hex()]
    yield "www-data there", asks(*at, SOCKET, mint), "PermissionError"
    for words in (["disable", "--now", "macaroond.socket"], ["restart", "macaroond"]):
        yield f"systemctl {words[0]}, without it", system.did("systemctl", *words), True


def from_first_release(system, first, packages):
    """Whoever was answered by 0.1.0 as packaged still is behind an upgrade, until an administrator says otherwise."""
    yield "an installation of 0.1.0", system.install(first), True
    name = pathlib.Path(system.path(KEYS)).read_text().split()[1]
    mint = request.mint("v2-text", name, "", "alice")
    of_group = system, "nobody", "_macaroond", SOCKET
    minted = asks(*of_group, mint)
    yield "one of its group mints", minted[:2], "01"
    asked = request.verify(name, bytes.fromhex(minted[2:]).decode(), 0)
    yield from upgraded(system, packages, asked, "_macaroond")
    yield "what is kept", "Environment=MODE=660" in pathlib.Path(system.path(KEPT)).read_text(), True
    yield "one of its group still mints", asks(*of_group, mint)[:2], "01"
    yield "and verifies", asks(*of_group, asked), GRANTED.hex()
    pathlib.Path(system.path(KEPT)).unlink()
    for words in (["daemon-reload"], ["restart", "macaroond"]):
        yield f"systemctl {words[0]}", system.did("systemctl", *words), True
    yield "one of its group then", asks(*of_group, mint), "PermissionError"
    yield "another upgrade keeps nothing", (system.install(*packages), os.path.exists(system.path(KEPT))), (True, False)
    yield "a purge of it", system.did(*APT, "purge", *NAMES), True
    yield "what is left of that", left(system, "/usr", "/lib", "/run", "/etc", "/var"), ""


def by_the_page(system):
    """README's session of a daemon, as whoever installed the packages runs it."""
    steps = sessions.steps("README.md")
    script = sessions.script([re.sub(r"bin/macaroond", "macaroond", command) for command, _ in steps])
    name = "/tmp/readme"
    system.did("install", "-d", "-o", "nobody", name)
    system.did("ln", "-s", "/usr/share/doc/macaroond/examples", f"{name}/examples")
    pathlib.Path(system.path(f"{name}/script")).write_text(script)
    command = f"cd {name} && exec setpriv --reuid=nobody --clear-groups sh script"
    yield "README's sessions", system.run("sh", "-c", command).status, 0
    for step, (command, shown) in enumerate(steps):
        yield f"README: {command}", pathlib.Path(system.path(f"{name}/printed.{step}")).read_text(), shown


def by_hand(system):
    """The commands for people, as anybody."""
    script = """
        umask 077
        macaroond keygen bank > /tmp/keys
        token=$(macaroond mint --keys /tmp/keys --key bank --identifier alice)
        macaroond verify --keys /tmp/keys --key bank "$token"
        macaroond verify --keys /tmp/keys --key bank --at 0 "$(macaroond attenuate --caveat 'time < 1970-01-01T00:00' "$token" 2> /dev/null)"
    """
    due = "granted\nrefused 24: caveat 0 is not satisfied: time < 1970-01-01T00:00"
    yield "commands", system.says("setpriv", "--reuid=nobody", "--clear-groups", "sh", "-c", script), due
    yield "the manual page", system.did("test", "-s", "/usr/share/man/man1/macaroond.1.gz"), True


def upgraded(system, packages, asked, group):
    """An upgrade while clients ask: each reply that comes is right, and all go on behind it."""
    first = system.says("systemctl", "show", "-P", "MainPID", "macaroond")
    folder = os.stat(system.path("/run/macaroond")).st_ino
    clients = [Client(system.path(SOCKET), asked) for _ in range(CLIENTS)]
    until("a first answer", lambda: all(client.answered > 100 for client in clients))
    yield "an upgrade", system.install(*packages), True
    before = [client.answered for client in clients]
    until("an answer behind it", lambda: all(now.answered > then + 100 for now, then in zip(clients, before)))
    for client in clients:
        client.is_over = True
        client.join(PATIENCE)
    yield "wrong replies", [reply for client in clients for reply in client.wrong], []
    yield "connections that ended", [client.ended > 0 for client in clients], [True] * CLIENTS
    second = system.says("systemctl", "show", "-P", "MainPID", "macaroond")
    yield "another process", (first != second, system.says("systemctl", "is-active", "macaroond")), (True, "active")
    yield "the socket's folder", os.stat(system.path("/run/macaroond")).st_ino, folder
    if group:
        yield "one of a group", asks(system, "nobody", group, SOCKET, asked), GRANTED.hex()


def with_a_fault(system):
    """A key file with a fault: the service fails as it starts, and not by a time that runs out."""
    kept = pathlib.Path(system.path(KEYS)).read_text()
    pathlib.Path(system.path(KEYS)).write_text("key\n")
    begin = time.monotonic()
    yield "a start with a fault", system.run("systemctl", "restart", "macaroond").status, 1
    yield "and how it ended", system.says("systemctl", "show", "-P", "ExecMainStatus", "macaroond"), "1"
    yield "and what it told", "keys: line 1: " in system.says("journalctl", "-u", "macaroond", "-n", "20"), True
    yield "at once", time.monotonic() - begin < 8, True
    pathlib.Path(system.path(KEYS)).write_text(kept)
    yield "a start behind it", system.did("systemctl", "restart", "macaroond"), True


def left(system, *folders):
    """The files of macaroond that are there."""
    return system.says("find", *folders, "-xdev", "-name", "*macaroond*", "-not", "-path", "/root/*")


def rows(system, first, packages, newer):
    yield from from_first_release(system, first, packages)
    yield "an installation", system.install(*packages), True
    yield from installed(system)
    yield from by_hand(system)
    yield from by_the_page(system)
    name = pathlib.Path(system.path(KEYS)).read_text().split()[1]
    token = answer(system, request.mint("v1-text", name, "http://mybank/", "alice"))[1:].decode()
    asked = request.verify(name, token, 0)
    yield "a token of its first key", answer(system, asked), GRANTED
    yield from by_a_gateway(system, name, asked)
    yield from over_http(system, name, token)
    yield from kept_by_systemd(system, name, asked)
    yield from with_a_fault(system)
    yield from upgraded(system, newer, asked, "")
    yield "a removal", system.did(*APT, "remove", *NAMES), True
    yield "what is left of it", left(system, "/usr", "/lib", "/run"), ""
    yield "its keys", system.did("test", "-s", KEYS), True
    yield "another installation", system.install(*newer), True
    yield "a token of the first one", answer(system, asked), GRANTED
    yield "a purge", system.did(*APT, "purge", *NAMES), True
    yield "what is left then", left(system, "/usr", "/lib", "/run", "/etc", "/var"), ""


def seen():
    """What was looked at, in a system that is made for it."""
    with contextlib.ExitStack() as kept:
        made, zero, one, another = (kept.enter_context(tempfile.TemporaryDirectory()) for _ in range(4))
        root = f"{made}/debian"
        debian(root, *fleet_typed.PACKAGES)
        # It would listen at ports of this machine.
        os.symlink("/dev/null", f"{root}/etc/systemd/system/etcd.service")
        packages, newer = packages_of(one), packages_of(another, f"{packaging.version()}+git99999999999999")
        with booted(root) as system:
            found = list(rows(system, first_release(zero), packages, newer))
        with booted(root, "--private-network") as system:
            return [*found, *fleet_typed.rows(system, packages, newer, answer)]


def faults():
    """What went otherwise than it must, how many things were looked at, and what isn't installed."""
    lacking = missing()
    if lacking:
        return [], 0, lacking
    try:
        found = seen()
    except CannotBe as why:
        print(f"life cycle: this machine can't run it: {why}")
        return [], 0
    return [f"life cycle: {what}: {got!r} where {due!r} is due" for what, got, due in found if got != due], len(found)


if __name__ == "__main__":
    wrong, *rest = faults()
    print(*wrong, *rest, sep="\n")
    sys.exit(1 if wrong else 0)
