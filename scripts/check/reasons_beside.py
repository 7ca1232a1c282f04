"""The same twelve reasons, as gateways and guards log them, for reasons.py.

A gateway knows what its client is told, and no more. So its access log tells each refusal that forbids a request, and
nothing of one for which the token is none under the keys of the name: else whoever brings no good token would learn
which names there are. Those stand in the daemon's own log. A guard is told each number by the daemon, and logs it.
"""
import asyncio
import concurrent.futures
import contextlib
import logging
import os
import subprocess
import tempfile

from check import clients
from check.gateway_servers import GATEWAYS, asked, guarded, head, key_file, program_of
from check.http_rows import SECRET
from check.reason_rows import GOOD, NO_NAME, REASONS, named, of_access_log, of_guard, of_log, of_whom, revoked_list
from common import TOP
from common.daemon import awaited, come_to, free_port, listening, put_keys

from macaroond import AsyncClient, Client, asgi, wsgi

KEYS = key_file(SECRET)
# The names by which guards ask, and the id of each request that they are asked.
NAMES, ID = ("bank", "none"), "8f14e45fceea167a5a36dedd4bea2543"


def missing():
    """What isn't there to be asked."""
    left_out = [f"{name} isn't installed (scripts/install_peers.sh)" for name in GATEWAYS if program_of(name) is None]
    return left_out + ([] if clients.has_go() else [clients.NO_GO])


# ---- gateways


def refusals(daemon):
    """The lines of the daemon's log that tell of a refused request."""
    lines = daemon.errors.read_text().splitlines()
    return [line for line in lines if " info request " in line and " verdict=granted" not in line]


def drop_name(daemon):
    """Drops the key by whose name the gateway asks, and waits until that is up."""
    daemon.put_keys(key_file(SECRET, "inn"))
    awaited(lambda: daemon.told("keys_read"))


def answered(scene, reason):
    """What the gateway answers a client of this token."""
    target = f"/guarded{reason.path or '/hello'}"
    return asked(scene.port, head(target, f"Authorization: Macaroon {reason.token}", method=reason.method()))


def line_of(log, request_id):
    """The line of a gateway's log that has a request's id, once it is there."""
    return awaited(lambda: next((line for line in log.read_text().splitlines() if request_id in line), None))


def told_by(name):
    """What a gateway's client is told, what the gateway logs, and what the daemon logs that it asks."""
    with guarded(name, "--log", "identifiers", revoked=revoked_list()) as scene:
        log, ids = scene.daemon.folder / GATEWAYS[name].log, []
        for reason in REASONS:
            if reason.what == NO_NAME:
                drop_name(scene.daemon)
            status, fields = answered(scene, reason)
            due = reason.what if reason.is_forbidden() else None
            yield f"{name}: the status of {reason.what}", status, 403 if due else 401
            yield f"{name}: its client is told of {reason.what}", named(fields.get("macaroon-reason")), due
            ids.append(fields["x-request-id"])
            yield f"{name}: its log of {reason.what}", named(of_access_log(line_of(log, ids[-1]))), due
        lines = come_to(lambda: len(refusals(scene.daemon)), len(REASONS)) and refusals(scene.daemon)
        yield f"{name}: the daemon's log", [named(of_log(line)) for line in lines], [it.what for it in REASONS]
        whose = [(it.http_whose(), one) for it, one in zip(REASONS, ids)]
        yield f"{name}: whose, and by the gateway's id", [of_whom(line) for line in lines], whose
        text = "\n".join([*lines, log.read_text()])
        yield f"{name}: no token in any log", [it.what for it in REASONS if len(it.token) > 4 and it.token in text], []


def told_by_gateways():
    """What each gateway that is installed tells, all asked at once."""
    names = [name for name in GATEWAYS if program_of(name)]
    with concurrent.futures.ThreadPoolExecutor(len(names) or 1) as pool:
        for rows in pool.map(lambda name: list(told_by(name)), names):
            yield from rows


# ---- guards


class Kept(logging.Handler):
    """Keeps the lines of a log, and what a hook is told."""

    def __init__(self):
        super().__init__()
        self.lines, self.told = [], []
        self.logger = logging.Logger("guards")
        self.logger.addHandler(self)

    def emit(self, record):
        self.lines.append(self.format(record))

    def hook(self, _, judgement):
        self.told.append(str(judgement))

    def options(self):
        """How a guard is given both."""
        return {"logger": self.logger, "hook": self.hook}


def of_wsgi(path):
    """What a guard of WSGI logs of each reason, and tells its hook."""
    kept = Kept()
    with Client(path) as client:
        guards = {name: wsgi.RequireMacaroon(None, client, name, wsgi.request_facts, **kept.options()) for name in NAMES}
        for reason in REASONS:
            environ = {"REQUEST_METHOD": reason.method(), "REQUEST_URI": reason.path or "/hello", "HTTP_X_REQUEST_ID": ID}
            guards[reason.name]({**environ, "HTTP_AUTHORIZATION": f"Macaroon {reason.token}"}, lambda status, fields: None)
    return kept.lines, kept.told


def of_asgi(path):
    """The same of a guard of ASGI."""
    kept = Kept()

    async def send(_):
        pass

    async def ask():
        async with AsyncClient(path) as client:
            guards = {name: asgi.RequireMacaroon(None, client, name, asgi.request_facts, **kept.options()) for name in NAMES}
            for reason in REASONS:
                headers = [(b"authorization", f"Macaroon {reason.token}".encode()), (b"x-request-id", ID.encode())]
                scope = {"type": "http", "method": reason.method(), "raw_path": (reason.path or "/hello").encode()}
                await guards[reason.name]({**scope, "headers": headers}, None, send)

    asyncio.run(ask())
    return kept.lines, kept.told


def go_guard(folder):
    """The program in go_guard."""
    program = os.path.join(folder, "go_guard")
    how = {"cwd": TOP / "scripts" / "check" / "go_guard", "env": clients.go_surroundings(folder)}
    built = clients.run(["go", "build", "-o", program, "."], **how)
    if built.returncode != 0:
        raise RuntimeError(built.stdout)
    return program


@contextlib.contextmanager
def go_guards(path):
    """The ports of guards by the Go client, by their names, and the files that have their log and what hooks are told."""
    with tempfile.TemporaryDirectory() as folder:
        ports = {name: free_port() for name in NAMES}
        words = [str(word) for pair in ports.items() for word in pair]
        files = [os.path.join(folder, name) for name in ("logged", "told")]
        with open(files[0], "w") as errors, open(files[1], "w") as out:
            with subprocess.Popen([go_guard(folder), path, *words], stdout=out, stderr=errors) as run:
                try:
                    for port in ports.values():
                        awaited(lambda port=port: is_up(port))
                    yield ports, files
                finally:
                    run.kill()


def is_up(port):
    with contextlib.suppress(OSError):
        return asked(port, head("/hello"))[0] is not None


def lines_in(file):
    with open(file) as lines:
        return lines.read().splitlines()


def of_go(path):
    """The same of a guard in Go, behind the requests without a token that waited for it."""
    with go_guards(path) as (ports, files):
        for reason in REASONS:
            fields = f"Authorization: Macaroon {reason.token}", f"X-Request-Id: {ID}"
            asked(ports[reason.name], head(reason.path or "/hello", *fields, method=reason.method()))
        asked(ports["bank"], head("/hello", f"Authorization: Bearer {GOOD}"))
        return [[line for line in lines_in(file) if "no_token" not in line and "granted" not in line] for file in files]


def told_by_guards():
    """What each guard logs, by that line alone, and what it tells its hook: the same."""
    guards = {"WSGI": of_wsgi, "ASGI": of_asgi} | ({"Go": of_go} if clients.has_go() else {})
    with tempfile.TemporaryDirectory() as folder:
        put_keys(f"{folder}/keys", KEYS)
        put_keys(f"{folder}/revoked", revoked_list())
        with listening("--revoked", f"{folder}/revoked", keys=f"{folder}/keys") as (path, _):
            for name, asks in guards.items():
                lines, told = asks(path)
                yield f"the log of {name}", [named(of_guard(line)) for line in lines], [it.what for it in REASONS]
                ends = [line.partition("macaroon refused: ")[2] for line in lines]
                yield f"the hook of {name}", [f"{it} id={ID}" for it in told], ends
