"""Three daemons and what stands before them: HAProxy by the configurations of examples/scaling.

All is in one folder. What listens there for clients: `front.socket` shares frames over Unix
sockets, `tls.socket` shares them by mutual TLS between addresses of loopback, and `front.http`
shares verifies over HTTP.
"""
import contextlib
import pathlib
import shutil
import subprocess
import sys
import time
import typing

sys.path.insert(0, str(pathlib.Path(__file__).resolve().parents[1]))
from common import TOP
from common.daemon import PATIENCE, Daemon, free_port

from macaroond import Client, MacaroondError

EXAMPLES = TOP / "examples" / "scaling"
NAMES = ("one", "two", "three")
# The address that stands for each daemon's host.
HOSTS = dict(zip(NAMES, ("127.0.0.1", "127.0.0.2", "127.0.0.3")))
# The ports of front.cfg and back.cfg: of frames, and of checks.
PORTS = ("18091", "18092")
QUIET = {"stdout": subprocess.DEVNULL, "stderr": subprocess.DEVNULL}


class Balancers(typing.NamedTuple):
    """Each HAProxy, and the port at which those beside the daemons take frames."""

    runs: typing.Sequence[subprocess.Popen]
    port: int


def program_of(name):
    return shutil.which(name, path="/usr/sbin:/usr/bin:/sbin:/bin")


def missing():
    """Which of the programs aren't there that share requests."""
    return [name for name in ("haproxy", "openssl") if program_of(name) is None]


class Member(Daemon):
    """A daemon with sockets, a key file and a log of its own in the folder of all, and its successors there."""

    def __init__(self, folder, name, text, facts="header"):
        self.name, self.facts = name, facts
        words = ["--mode", "660", "--http", f"unix:{name}.http", "--http-mode", "660", "--http-facts", facts]
        super().__init__(folder, text, *words, name=f"{name}.socket", keys=f"{name}.keys", cwd=folder)

    def start(self):
        super().start()
        if not self.run.first.startswith("listening at "):
            raise SystemExit(f"{self.name} doesn't start: {self.errors.read_text()}")


def certificates(folder):
    """An authority, and a certificate with its key for each host, as docs/SCALING.md makes them."""
    curve = ["-newkey", "ec", "-pkeyopt", "ec_paramgen_curve:prime256v1", "-nodes"]
    authority = ["req", "-x509", *curve, "-days", "30", "-subj", "/CN=macaroond", "-keyout", "ca.key", "-out", "ca.pem"]
    openssl(folder, *authority)
    for name in ("front", *NAMES):
        extras = ["-addext", f"subjectAltName=DNS:{name}", "-addext", "basicConstraints=critical,CA:FALSE"]
        openssl(folder, "req", *curve, "-subj", f"/CN={name}", *extras, "-keyout", f"{name}.key", "-out", f"{name}.csr")
        signing = ["-CA", "ca.pem", "-CAkey", "ca.key", "-CAcreateserial", "-copy_extensions", "copy", "-days", "30"]
        openssl(folder, "x509", "-req", "-in", f"{name}.csr", *signing, "-out", f"{name}.crt")
        joined = (folder / f"{name}.crt").read_text() + (folder / f"{name}.key").read_text()
        (folder / f"{name}.pem").write_text(joined)
        (folder / f"{name}.pem").chmod(0o600)


def openssl(folder, *words):
    run = subprocess.run([program_of("openssl"), *words], cwd=folder, capture_output=True, text=True)
    if run.returncode != 0:
        raise SystemExit(f"openssl {words[0]}: {run.stderr}")


def configurations(folder, mode):
    """Copies of the configurations, with this mode; gives the port of each port there."""
    chosen = {port: str(free_port()) for port in PORTS}
    while len(set(chosen.values())) < len(PORTS):
        chosen = {port: str(free_port()) for port in PORTS}
    for file in EXAMPLES.glob("*.cfg"):
        text = file.read_text().replace("mode 660", f"mode {mode}")
        for port, free in chosen.items():
            text = text.replace(port, free)
        (folder / file.name).write_text(text)
    return chosen


@contextlib.contextmanager
def running(folder, *command, **how):
    """A program that runs in the folder, until it is left."""
    with subprocess.Popen(command, cwd=folder, **{**QUIET, **how}) as run:
        try:
            yield run
        finally:
            run.kill()


def balancing(folder, configuration, **variables):
    """HAProxy by this configuration, which is told its host in variables."""
    env = {"PATH": "/usr/sbin:/usr/bin", **variables}
    return running(folder, program_of("haproxy"), "-f", configuration, env=env)


@contextlib.contextmanager
def started(folder, text, facts="header"):
    """Three daemons by name, each with this key file."""
    daemons = {name: Member(folder, name, text, facts) for name in NAMES}
    try:
        for daemon in daemons.values():
            daemon.start()
        yield daemons
    finally:
        for daemon in daemons.values():
            daemon.close()


@contextlib.contextmanager
def balanced(folder, mode="660"):
    """All that shares requests over the daemons of a folder; its sockets have this mode."""
    certificates(folder)
    ports = configurations(folder, mode)
    with contextlib.ExitStack() as stack:
        runs = [stack.enter_context(balancing(folder, "back.cfg", NAME=name, HOST=host)) for name, host in HOSTS.items()]
        runs += [stack.enter_context(balancing(folder, name)) for name in ("frames.cfg", "http.cfg", "front.cfg")]
        for path in ("front.socket", "tls.socket"):
            await_answer(f"{folder}/{path}")
        yield Balancers(runs, int(ports[PORTS[0]]))


def await_answer(path):
    """Waits until a token is minted by way of this socket, many times in a row."""
    until, answered = time.monotonic() + PATIENCE, 0
    while answered < 10:
        try:
            with Client(path, timeout=1) as client:
                client.mint("shop", "alice")
            answered += 1
        except (MacaroondError, OSError) as fault:
            answered = 0
            if time.monotonic() > until:
                raise SystemExit(f"nobody answers at {path}: {fault}") from fault
            time.sleep(0.1)
