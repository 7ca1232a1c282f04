#!/usr/bin/env python3
"""Keys and revocations of three daemons by etcd, while clients ask without pause and members of it are killed or cut off.

    fleet.py

Three hosts (faults/fleet_net.py) have an etcd, a daemon and an agent each, behind HAProxy. An operator changes a key
ten times or more, for as long as anything happens, and takes a hundred tokens back, of these five side by side, by
macaroond-fleet. Meanwhile an etcd, a daemon and an agent are killed and brought back, and a host is cut off: as each of
these begins, some of the hundred are taken back. Clients compare each verdict with the one that is due:
a good token is never refused, and one that was taken back is never granted once `revoke` has ended well. Limits of time
are those that a machine keeps which is busy with other work; scripts/measure/fleet.py has those of one at rest. Asks
for root, etcd and HAProxy, and for bin/macaroond, or what MACAROOND names.
"""
import concurrent.futures
import contextlib
import json
import os
import pathlib
import re
import subprocess
import sys
import tempfile
import threading
import time

sys.path.insert(0, str(pathlib.Path(__file__).resolve().parents[1]))
from check import clients
from common import TOP
from common.daemon import PATIENCE, awaited
from common.rows import judged
from common.tokens import text_of, v1
from faults import fleet_asking, fleet_cluster, fleet_net, scaling, scaling_asking
from faults.fleet_cluster import NAMES

from macaroond import Client, MacaroondError

ROTATIONS, REVOCATIONS, REVOKED_AT_ONCE, KEPT = 10, 100, 5, 10
# How many of the tokens are taken back as each part is killed, and as a host is cut off.
HELD_BACK = 10
# For how long tokens of an old key are good, and for how long they are asked of (scaling_asking.py).
OLD_FOR = 3
# How many seconds these may take, whatever else happens: a key's change at three daemons, and a revocation; and what of
# a processor an agent may take that has nothing to do, in thousandths.
ROTATE_WITHIN, REVOKE_WITHIN, IDLE_THOUSANDTHS = 4 * PATIENCE, 2 * PATIENCE, 5
# For how many seconds nothing happens, a part is away, and an idle agent is looked at.
QUIET, AWAY, IDLE = 20, 3, 15
# How many clients ask of each kind, and how long a reply may take: what goes to a host that is cut off waits for it.
CLIENTS, REPLY_WITHIN = 4, 60
# Where the hosts' files are: in memory, so that disks which are busy with other work don't count.
SHARED = "/dev/shm" if os.path.isdir("/dev/shm") else None
FLEET = TOP / "clients" / "fleet"


class Load:
    """Clients that ask on the operator's host until they are told to end."""

    def __init__(self, cluster, stack, tokens):
        folder, before = cluster.folder, cluster.hosts.before(fleet_net.FRONT)
        (folder / "kept").write_text("\n".join(tokens))
        asked, count = f"{folder}/tls.socket", str(CLIENTS)
        self.keys = self.start(stack, before, scaling_asking.__file__, "frames", asked, count)
        self.revoked = self.start(stack, before, fleet_asking.__file__, asked, count, f"{folder}/kept")

    def start(self, stack, before, *words):
        command, environment = [*before, sys.executable, *words], {**os.environ, "SCALING_REPLY_WITHIN": str(REPLY_WITHIN)}
        run = subprocess.Popen(command, stdin=subprocess.PIPE, stdout=subprocess.PIPE, text=True, env=environment)
        stack.callback(run.kill)
        return run

    def taken_back(self, tokens):
        """From now on only a refusal of these is right."""
        self.revoked.stdin.write("".join(f"{token}\n" for token in tokens))
        self.revoked.stdin.flush()

    def end(self):
        """What the clients saw, under changing keys and of tokens that were taken back."""
        return [json.loads(run.communicate("", timeout=120)[0]) for run in (self.keys, self.revoked)]


class Events:
    """What is killed or cut off, each for a while."""

    def __init__(self, cluster):
        self.cluster, self.named = cluster, None
        self.parts = [cluster.etcds["one"], cluster.daemons["two"], cluster.agents["three"]]
        # Which of them have begun: the parts, and then the cut.
        self.begun = [threading.Event() for _ in (*self.parts, "cut")]

    def killed(self, part, begun):
        part.close()
        begun.set()
        time.sleep(AWAY)
        part.start()

    def cut(self, name, begun):
        """Whether `status` names the host meanwhile."""
        self.cluster.hosts.cut(name)
        begun.set()
        away = awaited(lambda: self.of(name).endswith("away"), pause=0.5)
        self.cluster.hosts.join(name)
        return away

    def of(self, name):
        """What `status` says of a member."""
        lines = self.cluster.operator("status")[1].splitlines()
        return next((line for line in lines if line.startswith(f"{name} ")), "")

    def all(self):
        """An etcd, a daemon and an agent, each of another host; then a host is cut off. Before it nothing happens for a while."""
        try:
            time.sleep(QUIET)
            for part, begun in zip(self.parts, self.begun):
                time.sleep(2 * AWAY)
                self.killed(part, begun)
            time.sleep(2 * AWAY)
            self.named = self.cut("three", self.begun[-1])
        finally:
            # Nobody waits for what comes no more.
            for begun in self.begun:
                begun.set()


class Revoking(threading.Thread):
    """Takes tokens back, a few side by side, and then says so to the clients that ask of them. Of the last ones some wait
    for each of what is to begin."""

    def __init__(self, cluster, load, tokens, at_once, begun=()):
        super().__init__()
        self.cluster, self.load, self.tokens, self.at_once = cluster, load, tokens, at_once
        self.saying, self.runs = threading.Lock(), []
        awaited_by = [it for it in begun for _ in range(HELD_BACK)]
        self.held_back = dict(zip([*tokens][len(tokens) - len(awaited_by) :], awaited_by))

    def run(self):
        with concurrent.futures.ThreadPoolExecutor(self.at_once) as operators:
            self.runs = list(operators.map(self.revoke, self.tokens))

    def revoke(self, identifier):
        if identifier in self.held_back:
            self.held_back[identifier].wait()
        came = self.cluster.operator("revoke", "shop", identifier, "--patience", PATIENCE)
        if came[0] == 0:
            with self.saying:
                self.load.taken_back([self.tokens[identifier]])
        return came


def shop_tokens(count, word):
    """Tokens of the shop's key, by their identifiers."""
    secret = bytes.fromhex(scaling.STEADY)
    return {f"{word}-{number}": text_of(v1(secret, f"{word}-{number}".encode())) for number in range(count)}


def seconds_of(pid):
    """The processor time of a process, with all threads that it ever had."""
    return time.clock_gettime((~pid << 3) | 2)


def rested(cluster):
    """An agent that looks as often as it does by itself, and has nothing to do; None where not all is up."""
    agent = cluster.agents["one"]
    agent.close()
    agent.start(beat="5")
    return agent if awaited(lambda: cluster.operator("status")[0] == 0, pause=0.5) else None


def thousandths(agent):
    """What of a processor it takes."""
    time.sleep(2)
    before = seconds_of(agent.run.pid)
    time.sleep(IDLE)
    return (seconds_of(agent.run.pid) - before) / IDLE * 1000


def idle(cluster):
    if (agent := rested(cluster)) is None:
        yield "all is up behind it", cluster.operator("status"), (0, "")
        return
    came = thousandths(agent)
    yield f"an idle agent takes {came:.2f} thousandths of a processor, at most {IDLE_THOUSANDTHS}", came < IDLE_THOUSANDTHS, True


def changes(what, runs, most):
    """How each of these commands ended, and whether it took no longer than it may."""
    for number, (status, told, took) in enumerate(runs):
        yield f"{what} {number}", (status, told if status else ""), (0, "")
        yield f"{what} {number} within {most} s: {took:.1f} s", took < most, True


def rotate(cluster):
    return cluster.operator("rotate", "bank", "--old-for", f"{OLD_FOR}s", "--patience", PATIENCE)


def at_each(cluster, tokens):
    """What each daemon says of the tokens that were taken back, at its own socket; one that is gone, what it told last."""
    for daemon in cluster.daemons.values():
        try:
            with Client(daemon.path, timeout=REPLY_WITHIN) as client:
                codes = {client.verify("shop", token).code for token in tokens}
        except MacaroondError as fault:
            codes = f"{fault}; it ended with {daemon.run.poll()} and told {daemon.errors.read_text()[-1000:]}"
        yield f"tokens that were taken back, at {daemon.path}", codes, {fleet_asking.REVOKED}


def by_load(keys, revoked, least=1000):
    """What clients saw, of so many verdicts of each kind at least."""
    print(f"fleet: {keys['asked']} verdicts under changing keys, {keys['repeated']} asked again, the longest wait {keys['longest']:.2f} s")
    print(f"fleet: {revoked['refused']} verdicts on tokens that were taken back, {revoked['granted']} on others")
    yield "verdicts under changing keys", keys["wrong"], []
    yield "requests without a verdict", keys["lost"], 0
    yield "verdicts were asked for", keys["asked"] > least, True
    yield "verdicts on tokens that were taken back, and others", revoked["wrong"], []
    yield "both were asked for", min(revoked["refused"], revoked["granted"]) > least, True


def together(cluster, stack):
    """Changes, revocations and events at once, under load."""
    kept, taken = shop_tokens(KEPT, "kept"), shop_tokens(REVOCATIONS, "taken")
    load, events = Load(cluster, stack, kept.values()), Events(cluster)
    happening, revoking = threading.Thread(target=events.all), Revoking(cluster, load, taken, REVOKED_AT_ONCE, events.begun)
    happening.start()
    revoking.start()
    rotated = []
    while len(rotated) < ROTATIONS or happening.is_alive():
        rotated.append(rotate(cluster))
    happening.join()
    revoking.join()
    for what, runs, most in (("rotation", rotated, ROTATE_WITHIN), ("revocation", revoking.runs, REVOKE_WITHIN)):
        times = [took for _, _, took in runs]
        print(f"fleet: {len(runs)} of the kind {what} took {min(times):.1f} to {max(times):.1f} s")
        yield from changes(what, runs, most)
    yield "revocations that were asked for", len(revoking.runs), REVOCATIONS
    yield from at_each(cluster, taken.values())
    yield "a host that is cut off is named", events.named, True
    yield from by_load(*load.end())


def rows(cluster, stack):
    cluster.join()
    yield "all have joined", cluster.operator("status")[0], 0
    yield from together(cluster, stack)
    yield from idle(cluster)


@contextlib.contextmanager
def running(room=SHARED):
    """Three hosts with all that runs there, in a folder of their own, and what ends behind this."""
    with contextlib.ExitStack() as stack:
        folder = stack.enter_context(tempfile.TemporaryDirectory(dir=room))
        hosts = stack.enter_context(fleet_net.hosts(*NAMES))
        yield stack.enter_context(fleet_cluster.running(folder, hosts, scaling.key_file(0))), stack


def missing():
    """What the machine lacks for such hosts, if anything."""
    return fleet_net.missing() + fleet_cluster.missing()


def test_faults():
    """What fails of the tests over stores that are hostile, which need no etcd; how many there are, and what was left out."""
    if fleet_cluster.program_of("openssl") is None:
        return [], 0, ["there is no `openssl` (scripts/install_peers.sh)"]
    tested = clients.run([sys.executable, "-W", "error", "-m", "unittest", "discover", "-t", ".", "-s", "tests"], cwd=FLEET)
    counted = re.search(r"^Ran (\d+) tests", tested.stdout, re.MULTILINE)
    return [] if tested.returncode == 0 else [tested.stdout], int(counted[1]) if counted else 0, []


def faults():
    """What went otherwise than it must, how many checks there were, and what was left out."""
    if lacking := missing():
        return [], 0, lacking
    with running() as (cluster, stack):
        found, count = judged(rows(cluster, stack))
        return [f"fleet: {fault}" for fault in found], count, []


if __name__ == "__main__":
    wrong, count, skipped = faults()
    print(*wrong, *skipped, sep="\n")
    print(f"fleet: {len(wrong)} of {count} are wrong")
    sys.exit(bool(wrong))
