"""Hosts that are network namespaces of this machine: one for clients and an operator, and one for each member.

Each has an address in 10.77.0.0/24, on a bridge that stands in the first one. A host is cut off by
taking its end off the bridge: what is sent then is lost without a word. Asks for root and for `ip`.
"""
import contextlib
import os
import shutil
import subprocess

NETWORK = "10.77.0"
FRONT = "front"


class Hosts:
    """The namespaces, by the names of hosts."""

    def __init__(self, names):
        self.addresses = {FRONT: f"{NETWORK}.1", **{name: f"{NETWORK}.{11 + at}" for at, name in enumerate(names)}}
        self.names = names

    def space(self, name):
        """What the system calls a host: other runs have others."""
        return f"fleet{os.getpid()}-{name}"

    def before(self, name):
        """The words that have a command run on a host."""
        return ["nsenter", f"--net=/run/netns/{self.space(name)}", "--"]

    def ip(self, name, *words):
        system("ip", "-n", self.space(name), *words)

    def make(self):
        for name in self.addresses:
            system("ip", "netns", "add", self.space(name))
            self.ip(name, "link", "set", "lo", "up")
        self.ip(FRONT, "link", "add", "bridge", "type", "bridge")
        self.ip(FRONT, "addr", "add", f"{self.addresses[FRONT]}/24", "dev", "bridge")
        self.ip(FRONT, "link", "set", "bridge", "up")
        for name in self.names:
            self.ip(FRONT, "link", "add", name, "type", "veth", "peer", "name", "out", "netns", self.space(name))
            self.ip(FRONT, "link", "set", name, "up", "master", "bridge")
            self.ip(name, "addr", "add", f"{self.addresses[name]}/24", "dev", "out")
            self.ip(name, "link", "set", "out", "up")

    def cut(self, name):
        """From now on nothing comes to this host or from it."""
        self.ip(FRONT, "link", "set", name, "nomaster")

    def join(self, name):
        """From now on all comes through again."""
        self.ip(FRONT, "link", "set", name, "master", "bridge")

    def remove(self):
        for name in self.addresses:
            subprocess.run(["ip", "netns", "del", self.space(name)], stderr=subprocess.DEVNULL)


def system(*words):
    run = subprocess.run(words, capture_output=True, text=True)
    if run.returncode != 0:
        raise OSError(f"{' '.join(words)}: {run.stderr.strip()}")


def missing():
    """Why there can be no such hosts here, if that is so."""
    if lacking := [name for name in ("ip", "nsenter") if shutil.which(name) is None]:
        return [f"there is no `{lacking[0]}` (scripts/install_peers.sh)"]
    if os.geteuid() != 0:
        return ["network namespaces are for root"]
    probe = f"fleet{os.getpid()}-probe"
    run = subprocess.run(["ip", "netns", "add", probe], capture_output=True, text=True)
    if run.returncode != 0:
        return [f"this machine has no network namespaces: {run.stderr.strip()}"]
    system("ip", "netns", "del", probe)
    return []


@contextlib.contextmanager
def hosts(*names):
    """Hosts of these names, as long as this holds."""
    made = Hosts(names)
    try:
        made.make()
        yield made
    finally:
        made.remove()
