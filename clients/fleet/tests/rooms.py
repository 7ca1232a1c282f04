"""What tests are made of: a store in memory that may be hostile, a daemon that reads files when it is told to, certificates."""
import atexit
import functools
import pathlib
import subprocess
import tempfile

from macaroond_fleet import agent as agents
from macaroond_fleet import operate
from macaroond_fleet.errors import StoreAway
from macaroond_fleet.form import key_of
from macaroond_fleet.sealing import Identity
from macaroond_fleet.settings import Settings
from macaroond_fleet.store import Entry

CURVE = ["-newkey", "ec", "-pkeyopt", "ec_paramgen_curve:prime256v1", "-nodes", "-days", "1"]
# What stands in for `macaroond check`: lines of key files and revocations, and nothing else.
CHECK = """#!/bin/sh
case $1$2 in check--keys) line='key [A-Za-z0-9._-]{1,64} ([0-9a-f]{2})+' ;; *) line='revoked [A-Za-z0-9._-]{1,64} ([0-9a-f]{2})*' ;; esac
grep -qvE "^(#.*|$line|)$" "$3" || exit 0
echo "error: $3: line 1: it is refused" >&2
exit 1
"""
SECRET = "61" * 32
KEYS = f"key bank {SECRET}\nkey shop {SECRET}\n".encode()


# Certificates last as long as the tests do: each of them has the same for a name.
CERTIFICATES = tempfile.TemporaryDirectory()
atexit.register(CERTIFICATES.cleanup)


@functools.cache
def certified(name):
    """A certificate and its key."""
    paths = Identity(f"{CERTIFICATES.name}/{name}.pem", f"{CERTIFICATES.name}/{name}.key")
    words = ["req", "-x509", *CURVE, "-subj", f"/CN={name}", "-keyout", paths.key, "-out", paths.certificate]
    subprocess.run(["openssl", *words], check=True, capture_output=True)
    return paths


class MemoryStore:
    """etcd's part, in memory. `away` says why it doesn't answer, if it doesn't."""

    def __init__(self):
        self.held, self.revision, self.leases, self.away, self.before_change = {}, 0, {}, "", None

    def asked(self):
        if self.away:
            raise StoreAway(self.away)

    def get(self, key, longest):
        self.asked()
        entry = self.held.get(key)
        if entry is not None and len(entry.value) > longest:
            raise StoreAway(f"{key} has more than {longest} bytes")
        return entry

    def together(self, key, prefixes, longest):
        self.asked()
        return [entry for name, entry in self.held.items() if name == key or name.startswith(tuple(prefixes))]

    def change(self, change, where):
        self.asked()
        if self.before_change is not None:
            before, self.before_change = self.before_change, None
            before()
        key, revision = where
        if (self.held[key].revision if key in self.held else 0) != revision:
            return False
        self.put(change)
        return True

    def put(self, change):
        self.asked()
        if len(change.puts) + len(change.deletes) > 128:
            raise StoreAway("etcdserver: too many operations in txn request")
        self.revision += 1
        for key, value in change.puts.items():
            self.held[key] = Entry(key, value, self.revision)
            for keys in self.leases.values():
                keys.discard(key)
            if change.lease:
                self.leases[change.lease].add(key)
        for key in change.deletes:
            self.held.pop(key, None)

    def grant(self, seconds):
        self.asked()
        self.revision += 1
        self.leases[self.revision] = set()
        return self.revision

    def keep(self, lease):
        self.asked()
        return lease in self.leases

    def end(self, lease):
        self.asked()
        for key in self.leases.pop(lease, set()):
            self.held.pop(key, None)

    def watch(self, prefix, wake):
        pass

    def write(self, key, value):
        """Somebody writes the store who isn't an operator."""
        self.revision += 1
        self.held[key] = Entry(key, value, self.revision)

    def copy(self):
        return dict(self.held)


class Room:
    """A folder with an operator, members, their settings and a daemon of each that is there only by its numbers."""

    def __init__(self, case, *members):
        folder = tempfile.TemporaryDirectory()
        case.addCleanup(folder.cleanup)
        self.folder, self.store = pathlib.Path(folder.name), MemoryStore()
        self.identities = {name: certified(name) for name in ("operator", *members)}
        self.program = self.folder / "check"
        self.program.write_text(CHECK)
        self.program.chmod(0o755)
        self.numbers = {name: {"keys_read_seconds": 100, "keys_refused": 0, "revoked": 0} for name in members}
        self.told = []
        kept = agents.numbers
        agents.numbers = lambda socket: self.numbers[socket] and dict(self.numbers[socket])
        case.addCleanup(setattr, agents, "numbers", kept)

    def settings(self, name):
        own = self.folder / name
        own.mkdir(exist_ok=True)
        who = self.identities[name]
        return Settings(
            "shop", ["http://127.0.0.1:1"], "", "", "", self.identities["operator"].certificate, who,
            name, name, f"{own}/keys", f"{own}/revoked", str(self.program), f"{own}/state",
        )

    def fleet(self, name="operator"):
        return operate.Fleet(self.settings(name), self.store, self.told.append)

    def agent(self, name):
        return agents.Agent(self.settings(name), self.store, self.told.append)

    def certificate(self, name):
        return pathlib.Path(self.identities[name].certificate).read_text()

    def begun(self, *members):
        """The fleet with these members, as its operator began it."""
        fleet = self.fleet()
        operate.begin(fleet, operate.KeyFile(KEYS), [], is_first=True)
        for name in members:
            operate.add_member(fleet, name, self.certificate(name))
        return fleet

    def daemon_reads(self, name):
        """The daemon has read its files: its numbers tell so."""
        path = self.folder / name / "revoked"
        # Later than any moment of the tests, and another one each time.
        self.numbers[name]["keys_read_seconds"] = 1 + max(4 * 10**9, self.numbers[name]["keys_read_seconds"])
        self.numbers[name]["revoked"] = sum(line.startswith("revoked ") for line in path.read_text().splitlines()) if path.exists() else 0

    def files(self, name):
        """What stands in a member's files."""
        paths = [self.folder / name / it for it in ("keys", "revoked")]
        return [(path.read_bytes(), path.stat().st_mtime_ns, path.stat().st_ino) if path.exists() else None for path in paths]

    def head(self):
        return self.store.held[key_of("shop", "head")].value


def up(room, agent):
    """An agent that has brought what there is, and a daemon that has read it."""
    agent.look_at = 0.0
    agent.turn()
    room.daemon_reads(agent.settings.member)
    agent.taken_at = 0.0
    agent.turn()
    return agent
