"""Three members of a fleet, each on a host of its own (fleet_net.py) with an etcd, a daemon, an agent and an HAProxy;
and an operator on the clients' host, with the HAProxy of examples/scaling/front.cfg."""
import contextlib
import os
import pathlib
import re
import shlex
import subprocess
import sys
import time

sys.path.insert(0, str(pathlib.Path(__file__).resolve().parents[1]))
from common import TOP
from common.daemon import PROGRAM, Daemon, awaited, closed, put_keys
from faults.fleet_net import FRONT
from faults.scaling_cluster import EXAMPLES, certificates, openssl, program_of

NAMES = ("one", "two", "three")
FLEET = [sys.executable, str(TOP / "clients" / "fleet" / "macaroond-fleet")]
PASSWORD = "password of a test"
# The commands that make the users of the store, in a block of their own.
SCALING, USERS = TOP / "docs" / "SCALING.md", re.compile(r"```sh\n(all=/macaroond-fleet/shop/\n.*?)```", re.DOTALL)
ENVIRONMENT = {"PATH": os.environ["PATH"], "ETCDCTL_API": "3"}
CURVE = ["-newkey", "ec", "-pkeyopt", "ec_paramgen_curve:prime256v1", "-nodes", "-days", "30"]
# How often agents look where nothing is new: oftener than by themselves, since hosts vanish here all the time.
BEAT = "2"


def missing():
    """Which of the programs aren't there."""
    found = [name for name in ("etcd", "etcdctl", "haproxy", "openssl") if program_of(name) is None]
    return [f"there is no `{name}` (scripts/install_peers.sh)" for name in found]


class Etcd:
    """A member of the store, on a member's host."""

    def __init__(self, cluster, name):
        self.cluster, self.name, self.run = cluster, name, None

    def start(self):
        folder, hosts = self.cluster.folder, self.cluster.hosts
        address = hosts.addresses[self.name]
        all_members = ",".join(f"{name}=http://{hosts.addresses[name]}:2380" for name in NAMES)
        command = [
            *hosts.before(self.name), program_of("etcd"), "--name", self.name, "--data-dir", f"{folder}/{self.name}.etcd",
            "--listen-client-urls", f"https://{address}:2379", "--advertise-client-urls", f"https://{address}:2379",
            "--listen-peer-urls", f"http://{address}:2380", "--initial-advertise-peer-urls", f"http://{address}:2380",
            "--initial-cluster", all_members, "--initial-cluster-state", "new", "--log-level", "error",
            "--cert-file", f"{folder}/{self.name}.etcd.crt", "--key-file", f"{folder}/{self.name}.etcd.key",
        ]
        with open(f"{folder}/{self.name}.etcd.log", "a") as log:
            self.run = subprocess.Popen(command, stdout=log, stderr=log)
        return self

    def close(self):
        if self.run is not None:
            closed(self.run)
            self.run = None


class Agent:
    """The agent of a member."""

    def __init__(self, cluster, name):
        self.cluster, self.name, self.run = cluster, name, None
        self.errors = pathlib.Path(f"{cluster.folder}/{name}.agent")

    def start(self, beat=BEAT):
        command = [*self.cluster.hosts.before(self.name), *FLEET, "--config", f"{self.name}.conf", "agent", "--beat", beat]
        with self.errors.open("a") as errors:
            self.run = subprocess.Popen(command, cwd=self.cluster.folder, stderr=errors)
        return self

    def close(self):
        if self.run is not None:
            closed(self.run)
            self.run = None


class Cluster:
    """All that runs, in one folder."""

    def __init__(self, folder, hosts, keys):
        self.folder, self.hosts = pathlib.Path(folder), hosts
        self.etcds = {name: Etcd(self, name) for name in NAMES}
        self.agents = {name: Agent(self, name) for name in NAMES}
        self.daemons = {name: self.daemon(name, keys) for name in NAMES}
        self.balancers, self.is_over = [], False

    def daemon(self, name, keys):
        put_keys(self.folder / f"{name}.revoked", "# none\n")
        words = ["--http", f"unix:{name}.http", "--workers", "1", "--loops", "1", "--revoked", f"{name}.revoked"]
        before = self.hosts.before(name)
        return Daemon(self.folder, keys, *words, name=f"{name}.socket", keys=f"{name}.keys", cwd=self.folder, before=before)

    # The parts of it.

    def settings(self, who, *lines):
        """The settings of a member or of the operator, and the certificate that they name."""
        openssl(self.folder, "req", "-x509", *CURVE, "-subj", f"/CN={who}", "-keyout", f"{who}.fleet.key", "-out", f"{who}.fleet.crt")
        endpoints = " ".join(f"https://{self.hosts.addresses[name]}:2379" for name in NAMES)
        text = f"""[fleet]
fleet = shop
endpoints = {endpoints}
authority = ca.pem
user = {who}
password_file = password
operators = operator.fleet.crt
certificate = {who}.fleet.crt
key = {who}.fleet.key
state = {self.folder}/{who}.state
"""
        (self.folder / f"{who}.conf").write_text(text + "".join(f"{line}\n" for line in lines))

    def prepare(self):
        """Certificates, settings and configurations."""
        certificates(self.folder)
        for name in NAMES:
            alternative = f"subjectAltName=IP:{self.hosts.addresses[name]}"
            openssl(self.folder, "req", *CURVE[:-2], "-subj", f"/CN={name}", "-addext", alternative, "-keyout", f"{name}.etcd.key",
                    "-out", f"{name}.etcd.csr")
            openssl(self.folder, "x509", "-req", "-in", f"{name}.etcd.csr", "-CA", "ca.pem", "-CAkey", "ca.key", "-CAcreateserial",
                    "-copy_extensions", "copy", "-days", "30", "-out", f"{name}.etcd.crt")
        (self.folder / "password").write_text(PASSWORD)
        (self.folder / "password").chmod(0o600)
        self.settings("operator")
        for name in NAMES:
            own = [f"{what} = {self.folder}/{name}.{what}" for what in ("socket", "keys", "revoked")]
            self.settings(name, f"member = {name}", *own, f"program = {PROGRAM}")
        for file in ("front.cfg", "back.cfg"):
            text = (EXAMPLES / file).read_text().replace("mode 660", "mode 600")
            for at, name in enumerate(NAMES, 1):
                text = text.replace(f"127.0.0.{at}:", f"{self.hosts.addresses[name]}:")
            (self.folder / file).write_text(text)

    def etcdctl_words(self):
        address = self.hosts.addresses["one"]
        return [*self.hosts.before(FRONT), program_of("etcdctl"), f"--endpoints=https://{address}:2379", f"--cacert={self.folder}/ca.pem"]

    def is_healthy(self):
        """Whether the store answers."""
        words = [*self.etcdctl_words(), "endpoint", "health"]
        return subprocess.run(words, capture_output=True, env=ENVIRONMENT).returncode == 0

    def users(self):
        """Who may do what in the store, by the commands of docs/SCALING.md. Passwords stand where etcdctl would ask for them."""
        named = f'if [ "$1 $2" = "user add" ]; then set -- user add "$3:{PASSWORD}"; fi'
        first = "etcdctl user add root && etcdctl user grant-role root root"
        script = f'set -e\netcdctl() {{\n{named}\n{shlex.join(self.etcdctl_words())} "$@"\n}}\n{first}\n{USERS.search(SCALING.read_text())[1]}'
        run = subprocess.run(["sh", "-c", script], capture_output=True, text=True, env=ENVIRONMENT)
        if run.returncode != 0:
            raise SystemExit(f"the commands of docs/SCALING.md: {run.stdout}{run.stderr}")

    def balance(self):
        for name in NAMES:
            self.balancers.append(self.balancer(name, "back.cfg", NAME=name, HOST=self.hosts.addresses[name]))
        self.balancers.append(self.balancer(FRONT, "front.cfg"))

    def balancer(self, host, file, **variables):
        command = [*self.hosts.before(host), program_of("haproxy"), "-f", file]
        quiet = {"stdout": subprocess.DEVNULL, "stderr": subprocess.DEVNULL}
        return subprocess.Popen(command, cwd=self.folder, env={"PATH": os.environ["PATH"], **variables}, **quiet)

    def start(self):
        self.prepare()
        for etcd in self.etcds.values():
            etcd.start()
        if not awaited(self.is_healthy, pause=0.2):
            raise SystemExit(f"etcd isn't healthy: {(self.folder / 'one.etcd.log').read_text()[-2000:]}")
        self.users()
        for daemon in self.daemons.values():
            if not daemon.start().run.first.startswith("listening at "):
                raise SystemExit(f"a daemon doesn't start: {daemon.errors.read_text()}")
        self.balance()

    def close(self):
        self.is_over = True
        for run in self.balancers:
            closed(run)
        for part in (*self.agents.values(), *self.daemons.values(), *self.etcds.values()):
            part.close()

    # What the operator does.

    def operator(self, *words):
        """How a command of the operator's ends, what it prints, and how many seconds it took."""
        if self.is_over:
            return 1, "it is over", 0.0
        begin = time.monotonic()
        command = [*self.hosts.before(FRONT), *FLEET, "--config", "operator.conf", *map(str, words)]
        run = subprocess.run(command, cwd=self.folder, capture_output=True, text=True)
        return run.returncode, run.stdout + run.stderr, time.monotonic() - begin

    def must(self, *words):
        status, told, took = self.operator(*words)
        if status != 0:
            raise SystemExit(f"macaroond-fleet {words[0]}: {told}")
        return took

    def join(self):
        """Begins the fleet by the first daemon's key file, and has all three join."""
        self.must("publish", "--keys", "one.keys", "--first")
        for name in NAMES:
            self.must("add-member", name, f"{name}.fleet.crt")
            self.agents[name].start()
        awaited(lambda: self.operator("status")[0] == 0, pause=0.3)


@contextlib.contextmanager
def running(folder, hosts, keys):
    cluster = Cluster(folder, hosts, keys)
    try:
        cluster.start()
        yield cluster
    finally:
        cluster.close()
