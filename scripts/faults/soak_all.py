#!/usr/bin/env python3
"""All parts together for a long time: nginx, HAProxy, three daemons, both faces, both clients.

    soak_all.py [MINUTES]

Each ten seconds the keys take a step of the order that docs/OPERATING.md tells, and each minute a
daemon is replaced: told to end, and its successor started at the same paths. nginx guards a service
by examples/gateways/nginx.conf, and asks the daemons by way of HAProxy (examples/scaling). Nothing
may be wrong or lost. Every ten seconds the memory, descriptors and threads of the daemons are looked
at: none may grow, nor a successor beside the one before; and once all clients have left, each has as
many descriptors and threads as one that has just been started. MINUTES is 30 where it is left out.
"""
import contextlib
import http.server
import os
import pathlib
import re
import sys
import tempfile
import threading
import time

sys.path.insert(0, str(pathlib.Path(__file__).resolve().parents[1]))
from common import TOP, programs
from common.daemon import free_port
from common.processes import mebibytes
from faults import scaling, scaling_asking, scaling_cluster
from faults.hostile import settled, state
from faults.scaling_cluster import Member, balanced, program_of, running, started

from macaroond import Client

CONFIGURATION = TOP / "examples" / "gateways" / "nginx.conf"
# How many seconds pass between two steps of the keys and two looks, and between two replacements.
STEP, LIFE = 10, 60
# How many MiB a daemon may have, and by how many it may be larger than at its first look, or than
# its first ancestor was.
SIZE_MAX, GROWTH_MAX = 40, 12
# How many clients ask by way of nginx.
CLIENTS = 4


class Service(http.server.BaseHTTPRequestHandler):
    """What nginx guards: it tells whose token it was told of."""

    protocol_version = "HTTP/1.1"

    def answer(self):
        self.rfile.read(int(self.headers.get("Content-Length", 0)))
        self.send_response(200)
        self.send_header("Macaroon-Identifier", self.headers.get("Macaroon-Identifier", ""))
        self.send_header("Content-Length", "0")
        self.end_headers()

    do_GET = do_PUT = answer

    def log_message(self, *_):
        pass


@contextlib.contextmanager
def serving():
    """The port of the service."""
    server = http.server.ThreadingHTTPServer(("127.0.0.1", 0), Service)
    server.daemon_threads = True
    threading.Thread(target=server.serve_forever, daemon=True).start()
    try:
        yield server.server_port
    finally:
        server.shutdown()


@contextlib.contextmanager
def gateway(folder):
    """The port of nginx, which asks at HAProxy's socket as at a daemon's and guards the service."""
    folder.chmod(0o755)
    (folder / "macaroond.http").symlink_to("front.http")
    port = free_port()
    with serving() as behind:
        text = CONFIGURATION.read_text().replace("127.0.0.1:18090", f"127.0.0.1:{behind}")
        (folder / "nginx.conf").write_text(re.sub(r"\b18080\b", str(port), text))
        command = [program_of("nginx"), "-p", str(folder), "-c", "nginx.conf", "-g", "daemon off; master_process off;"]
        with running(folder, *command):
            yield port


def asks_gateway(load, folder, port, stack):
    """Further clients, which ask nginx for what it guards."""
    os.environ["SCALING_PATH"] = "/guarded/page"
    words = ["http", port, f"{folder}/front.socket", CLIENTS]
    load.start("Python, nginx", stack, [sys.executable, scaling_asking.__file__, *words])
    del os.environ["SCALING_PATH"]


class Soak(scaling.Changes):
    """The steps of keys and the replacements, with a look at the daemons behind each."""

    def __init__(self, daemons):
        super().__init__(daemons)
        # What was seen of each life of a daemon: by its name and its number, at each look.
        self.seen = {}
        self.step = 0

    def look(self):
        for daemon in self.list:
            looked = (mebibytes(daemon.run.pid, "VmRSS"), *state(daemon.run.pid))
            self.seen.setdefault((daemon.name, daemon.lives), []).append(looked)

    def next_step(self):
        """The new key below, the new key above, the old one gone; then the next key."""
        old, new = self.number, self.number + 1
        self.spread(*[(old, new), (new, old), (new,)][self.step])
        self.note("steps of keys")
        self.step = (self.step + 1) % 3
        if self.step == 0:
            self.number = new
            self.look_for_key(new - 1)

    def look_for_key(self, gone):
        """Each daemon refuses a token of the key that went, and grants one of the next key."""
        kept = self.minted(self.list[0])
        for daemon in self.list:
            with Client(daemon.path, timeout=scaling_asking.REPLY_WITHIN) as client:
                self.check(f"a token of key {gone + 1}", client.verify("bank", kept).code, 0)
                self.check(f"a token of key {gone}", client.verify("bank", self.retired).code, 23)
        self.retired = kept

    def go_on(self, seconds):
        """Steps until the time is up."""
        begin = time.monotonic()
        replaced = 0
        for number in range(1, max(int(seconds // STEP), 1) + 1):
            time.sleep(max(begin + number * STEP - time.monotonic(), 0))
            self.look()
            if number * STEP // LIFE > replaced:
                self.replaced(self.list[replaced % 3])
                replaced += 1
            self.next_step()

    def grown(self):
        """What is wrong with how large the daemons were."""
        firsts = {}
        for (name, life), looks in self.seen.items():
            sizes = [size for size, _, _ in looks]
            # The first look at a life may find it in its first second.
            first = sizes[1] if len(sizes) > 1 else sizes[0]
            least = min(firsts.setdefault(name, first), first)
            most = min(least + GROWTH_MAX, SIZE_MAX)
            if max(sizes) > most:
                yield f"{name}, life {life}, has {max(sizes):.1f} MiB, where {most:.1f} may be"

    def tell(self):
        """A line for each life: the first, the middle and the last look, and the most of all."""
        for (name, life), looks in self.seen.items():
            told = [f"{size:.1f}" for size, _, _ in (looks[0], looks[len(looks) // 2], looks[-1])]
            most = [max(column) for column in zip(*looks)]
            print(f"soak: {name}, life {life}: {', '.join(told)} MiB, {most[0]:.1f} at most;", end=" ")
            print(f"descriptors {looks[0][1]} to {looks[-1][1]}, {most[1]} at most; threads {most[2]} at most")


def left_over(soak, folder, text):
    """What the daemons still have beside one that has just been started, once nobody asks."""
    fresh = Member(folder, "fresh", text, soak.list[0].facts)
    fresh.start()
    try:
        with Client(fresh.path, timeout=scaling_asking.REPLY_WITHIN) as client:
            client.mint("shop", "alice")
        time.sleep(1)
        due = state(fresh.run.pid)
        for daemon in soak.list:
            soak.check(f"descriptors and threads of {daemon.name}", settled(daemon.run.pid, due), due)
        print(f"soak: descriptors and threads once all have left: {due}, as of one that was just started")
    finally:
        fresh.close()


def soaked(seconds, folder):
    """What went wrong, and how much was looked at."""
    text = scaling.key_file(0)
    with started(folder, text, "header,forwarded") as daemons:
        with balanced(folder, "666"), gateway(folder) as port, contextlib.ExitStack() as stack:
            soak = Soak(daemons)
            load = scaling.Load(folder, stack)
            asks_gateway(load, folder, port, stack)
            soak.go_on(seconds)
            came = load.end()
        soak.tell()
        left_over(soak, folder, text)
    print(*(scaling.told(name, it) for name, it in came.items()), sep="\n")
    print("soak:", ", ".join(f"{what} {count}" for what, count in soak.made.items()))
    wrong = [*soak.wrong, *soak.grown(), *(fault for name, it in came.items() for fault in scaling.judged(name, it, soak.ends()))]
    return wrong, soak.checks + sum(it["asked"] for it in came.values()), load.skipped


def faults(seconds):
    """What went wrong, how much was looked at, and what was left out."""
    lacking = [*scaling_cluster.missing(), *(["nginx"] if program_of("nginx") is None else [])]
    if lacking:
        return [], 0, [f"there is no {' and no '.join(lacking)} (scripts/install_peers.sh)"]
    with tempfile.TemporaryDirectory() as folder:
        return soaked(seconds, pathlib.Path(folder))


def main():
    programs.stop_unless_built("macaroond")
    minutes = float(sys.argv[1]) if len(sys.argv) > 1 else 30
    wrong, count, skipped = faults(60 * minutes)
    print(*wrong, *skipped, sep="\n")
    print(f"soak: {len(wrong)} of {count} are wrong")
    sys.exit(bool(wrong))


if __name__ == "__main__":
    main()
