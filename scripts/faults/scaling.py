#!/usr/bin/env python3
"""Three daemons behind HAProxy, asked by both clients and over HTTP while things happen.

    scaling.py [MINUTES]

A daemon is killed and started anew, one is told to end and started anew later, one is replaced at
once, all get a key file with a fault, and new keys in the order that docs/OPERATING.md tells.
HAProxy shares requests by the configurations of examples/scaling: over Unix sockets, by mutual TLS
and over HTTP. Every verdict is compared with the one that is due, and every request has to get one.
Without MINUTES it takes some 20 seconds, more on a busy machine. Asks for haproxy and openssl, for
go where the client for Go is to ask too, and for bin/macaroond, or what MACAROOND names.
"""
import contextlib
import hashlib
import json
import pathlib
import socket
import ssl
import subprocess
import sys
import tempfile
import time

sys.path.insert(0, str(pathlib.Path(__file__).resolve().parents[1]))
from check.clients import has_go
from common.daemon import PATIENCE, awaited, frame
from faults import scaling_asking, scaling_cluster, scaling_go
from faults.scaling_asking import LIFE, REPLY_WITHIN
from faults.scaling_cluster import balanced, started

from macaroond import Client

# How many seconds pass between two changes, and between the daemons of one change.
REST, STAGGER = 1.0, 0.1
# Within how many seconds each HAProxy has asked each daemon, as often as it takes to take it out.
CHECKED = 2.0
# How many clients ask in each way.
CLIENTS = 4
# No request may wait longer for its verdict than so many seconds, on a machine that is busy with
# other work.
LONGEST_WAIT = 10.0
STEADY = hashlib.sha256(b"steady").hexdigest()


def secret(number):
    """The secret of the bank's key of this number, in hexadecimal."""
    return hashlib.sha256(b"bank %d" % number).hexdigest()


def key_file(*numbers):
    """A key file with the bank's keys of these numbers, in order, and the shop's, which stays."""
    return "".join(f"key bank {secret(number)}\n" for number in numbers) + f"key shop {STEADY}\n"


def over_tls(folder, port, name):
    """What the host of `one` answers to a frame of nothing, from who has this certificate."""
    context = ssl.create_default_context(cafile=folder / "ca.pem")
    if name:
        context.load_cert_chain(folder / f"{name}.pem")
    try:
        with socket.create_connection((scaling_cluster.HOSTS["one"], port), PATIENCE) as plain:
            with context.wrap_socket(plain, server_hostname="one") as stream:
                stream.sendall(frame(b""))
                return stream.recv(100)
    except (ssl.SSLError, ConnectionError):
        return b""


class Load:
    """Programs that ask until they are told to stop."""

    def __init__(self, folder, stack):
        self.runs, self.skipped = {}, []
        asking = [sys.executable, scaling_asking.__file__]
        front, tls = f"{folder}/front.socket", f"{folder}/tls.socket"
        self.start("Python, frames", stack, [*asking, "frames", front, CLIENTS])
        self.start("Python, TLS", stack, [*asking, "frames", tls, CLIENTS])
        self.start("Python, HTTP", stack, [*asking, "http", f"{folder}/front.http", front, CLIENTS])
        if not has_go():
            self.skipped.append("the client for Go doesn't ask (scripts/install_peers.sh)")
            return
        program = scaling_go.built(folder)
        self.start("Go, frames", stack, [program, front, CLIENTS])
        self.start("Go, TLS", stack, [program, tls, CLIENTS])

    def start(self, name, stack, command):
        pipes = {"stdin": subprocess.PIPE, "stdout": subprocess.PIPE, "text": True}
        run = subprocess.Popen(list(map(str, command)), **pipes)
        stack.callback(run.kill)
        self.runs[name] = run

    def end(self):
        """What came of each, by its name."""
        return {name: json.loads(run.communicate("", timeout=120)[0]) for name, run in self.runs.items()}


class Changes:
    """What happens to the daemons, one thing after the other; and what of it went wrong."""

    def __init__(self, daemons):
        self.daemons, self.list = daemons, list(daemons.values())
        self.number, self.wrong, self.made, self.checks = 0, [], {}, 0
        self.retired = self.minted(self.list[0])

    def check(self, what, came, due):
        self.checks += 1
        if came != due:
            self.wrong.append(f"{what}: {came}, not {due}")

    def strangers(self, folder, port):
        """Over TLS only the balancer's host is answered, and not that of another daemon."""
        for name, due in (("", b""), ("two", b""), ("front", frame(b"\x10"))):
            self.check(f"who has the certificate `{name}`", over_tls(folder, port, name), due)

    def note(self, what):
        self.made[what] = self.made.get(what, 0) + 1

    def ends(self):
        """How many daemons have ended."""
        return sum(self.made.get(what, 0) for what in ("killed", "drained", "replaced"))

    def killed(self, daemon):
        daemon.close()
        time.sleep(REST)
        daemon.start()
        self.note("killed")

    def drained(self, daemon):
        self.check("a daemon that was told to end", daemon.end(), 0)
        time.sleep(REST)
        daemon.start()
        self.note("drained")

    def replaced(self, daemon):
        self.check("a daemon that is replaced", daemon.end(), 0)
        daemon.start()
        self.note("replaced")

    def spread(self, *numbers):
        """Gives each daemon in turn the keys of these numbers, and waits until all read them."""
        self.spread_text(key_file(*numbers), "keys_read")

    def spread_text(self, text, due):
        """The same of a key file of which this kind of line is told."""
        counts = {daemon: daemon.told(due) + 1 for daemon in self.list}
        for daemon in self.list:
            daemon.put_keys(text)
            time.sleep(STAGGER)
        for daemon, count in counts.items():
            self.check(f"{daemon.name} tells {due}", awaited(lambda: daemon.told(due) >= count), True)

    def refused(self):
        """All get a key file with a fault: the keys stay, and no daemon is taken out."""
        self.spread_text("key bank\n", "keys_refused")
        time.sleep(CHECKED)
        self.spread(self.number)
        self.note("a faulty key file at all")

    def rolled(self):
        """The new key below the old one, then above it, and a new daemon between; then alone."""
        old, self.number = self.number, self.number + 1
        self.spread(old, self.number)
        self.replaced(self.list[self.number % 3])
        self.spread(self.number, old)
        kept = self.minted(self.list[0])
        time.sleep(LIFE + 1)
        self.spread(self.number)
        for daemon in self.list:
            with Client(daemon.path, timeout=REPLY_WITHIN) as client:
                self.check("a token of the new key", client.verify("bank", kept).code, 0)
                self.check("one of a key that went", client.verify("bank", self.retired).code, 23)
        self.retired = kept
        self.note("keys rolled")

    def minted(self, daemon):
        with Client(daemon.path, timeout=REPLY_WITHIN) as client:
            return client.mint("bank", "conductor")

    def all(self):
        """Everything once, with another daemon in each part from round to round."""
        one, two, three = (self.list[(self.number + place) % 3] for place in range(3))
        for change, daemon in ((self.killed, one), (self.drained, two), (self.replaced, three)):
            time.sleep(REST)
            change(daemon)
        self.refused()
        self.rolled()


def told(name, came):
    """A line on what came of one kind of client."""
    parts = f"{came['asked']} verdicts, {came['wrongs']} wrong, {came['lost']} without one, {came['late']} too late to judge"
    again = f"asked again {came['repeated']} verifies and {came['mints_repeated']} of {came['minted']} mints"
    return f"scaling: {name}: {parts}; {again}; the longest wait {came['longest']:.2f} s"


def judged(name, came, ends):
    """What is wrong with it. At each end of a daemon, a client may have to ask once more."""
    yield from (f"{name}: {fault}" for fault in came["wrong"])
    if came["lost"]:
        yield f"{name}: {came['lost']} requests got no verdict"
    if came["repeated"] > CLIENTS * ends:
        yield f"{name}: {came['repeated']} verifies had to be asked again, where {ends} daemons ended"
    if came["asked"] == 0:
        yield f"{name}: nothing was asked"
    if came["longest"] > LONGEST_WAIT:
        yield f"{name}: a request waited for {came['longest']:.1f} s"


def faults(seconds=0):
    """What went wrong, how many verdicts and steps were looked at, and what was left out."""
    if lacking := scaling_cluster.missing():
        return [], 0, [f"there is no {' and no '.join(lacking)} (scripts/install_peers.sh)"]
    begin = time.monotonic()
    with tempfile.TemporaryDirectory() as name, contextlib.ExitStack() as stack:
        folder = pathlib.Path(name)
        changes = Changes(stack.enter_context(started(folder, key_file(0))))
        balancers = stack.enter_context(balanced(folder))
        changes.strangers(folder, balancers.port)
        load = Load(folder, stack)
        while True:
            changes.all()
            if time.monotonic() - begin > seconds:
                break
        time.sleep(REST)
        came = load.end()
    print(*(told(name, it) for name, it in came.items()), sep="\n")
    print("scaling:", ", ".join(f"{what} {count}" for what, count in changes.made.items()), end="")
    print(f", in {time.monotonic() - begin:.0f} s")
    wrong = [*changes.wrong, *(fault for name, it in came.items() for fault in judged(name, it, changes.ends()))]
    return wrong, changes.checks + sum(it["asked"] for it in came.values()), load.skipped


def main():
    wrong, count, skipped = faults(60 * float(sys.argv[1]) if len(sys.argv) > 1 else 0)
    print(*wrong, *skipped, sep="\n")
    print(f"scaling: {len(wrong)} of {count} are wrong")
    sys.exit(bool(wrong))


if __name__ == "__main__":
    main()
