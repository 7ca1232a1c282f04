"""What gateways and guards write, searched for what is secret, for secrecy.py."""
import asyncio
import contextlib
import logging
import pathlib

from check import clients
from check.gateway_servers import FOLDER, GATEWAYS, asked, guarded, head, key_file, program_of
from check.http_rows import SECRET
from check.marks import LOGGED, revoked_list, secrets
from check.reasons_beside import go_guards
from common.daemon import with_keys

from macaroond import AsyncClient, Client, asgi, wsgi

# What a gateway answers that gets no verdict.
LOST = (500, 502, 503, 504)

# ---- gateways


def client_requests(given, tells_query):
    """What a client of a gateway sends: tokens where they belong, and where they don't."""
    for text in given.tokens:
        bearing = f"Authorization: Macaroon {text}"
        yield head("/guarded/hello", bearing, f"Macaroon-Fact: {given.fact}")
        yield head("/guarded/a//b", bearing, f"Cookie: {text}", f"X-Request-Id: {text}")
        yield head("/guarded/hello", bearing, bearing)
        yield head("/open", f"Authorization: Bearer {text}")
        if tells_query:
            yield head(f"/guarded/hello?access_token={text}", bearing)


def written(folder):
    """What a gateway and its daemon wrote into the folder of the configurations."""
    given = {path.name for path in FOLDER.iterdir()} | {"keys", "revoked"}
    for path in sorted(folder.rglob("*")):
        if path.is_file() and path.name not in given:
            yield path.name, path.read_bytes()


def of_gateway(name):
    """All that a gateway and its daemon write, while that is there and once it is gone."""
    given = secrets(SECRET)
    with guarded(name, *LOGGED, revoked=revoked_list(), fact=given.fact) as scene:
        there = {asked(scene.port, sent)[0] for sent in client_requests(given, True)}
        yield f"{name}: all answers but a loss", {200, 401, 403, 404} <= there and not there & set(LOST), True
        scene.daemon.end()
        # Of a request that fails nginx's error log has the first line, whatever its settings are.
        away = {asked(scene.port, sent)[0] for sent in client_requests(given, name != "nginx")}
        yield f"{name}: a loss", bool(away & set(LOST)) and not away & {200, 401, 403}, True
        for what, content in written(scene.daemon.folder):
            yield f"{name}: {what}, {len(content)} bytes", given.marks.found_in(content), []


def of_gateways():
    """What each gateway writes that is installed."""
    for name in GATEWAYS:
        if program_of(name):
            yield from of_gateway(name)


# ---- guards


class AllLines(logging.Handler):
    """Keeps each line that anything of this process logs."""

    def __init__(self):
        super().__init__()
        self.setFormatter(logging.Formatter("%(name)s %(levelname)s %(message)s"))
        self.lines = []

    def emit(self, record):
        self.lines.append(self.format(record))


@contextlib.contextmanager
def all_logged():
    """The lines of all loggers of this process, at every level."""
    kept, root = AllLines(), logging.getLogger()
    level = root.level
    root.addHandler(kept)
    root.setLevel(logging.DEBUG)
    try:
        yield kept.lines
    finally:
        root.removeHandler(kept)
        root.setLevel(level)


def environs(given):
    """Requests as WSGI has them, and the facts that are known of each."""
    for text in given.tokens:
        bearing = {"HTTP_AUTHORIZATION": f"Macaroon {text}", "HTTP_COOKIE": text, "REQUEST_METHOD": "GET"}
        yield {**bearing, "REQUEST_URI": given.path, "QUERY_STRING": f"access_token={text}"}
        yield {**bearing, "REQUEST_URI": f"{given.path}//a"}


def guard_requests(given):
    """The same over HTTP."""
    for text in given.tokens:
        for path in (given.path, f"{given.path}//a"):
            yield head(f"{path}?access_token={text}", f"Authorization: Macaroon {text}", f"Cookie: {text}")


def served(environ, start_response):
    start_response("200 OK", [])
    return []


def by_wsgi(path, given):
    """What the responses of a guard tell, and what its judgements do."""
    told = []
    facts = lambda environ: [given.fact, *wsgi.request_facts(environ)]
    with Client(path, timeout=1) as client:
        hook = lambda environ, found: told.append(f"{found} {found.told()} {found.headers()} {found.body()}")
        guard = wsgi.RequireMacaroon(served, client, "bank", facts, hook=hook)
        for environ in environs(given):
            guard(environ, lambda status, fields: told.append(f"{status} {fields}"))
    return told


def by_asgi(path, given):
    """The same of a guard of ASGI."""
    told = []
    facts = lambda scope: [given.fact, *asgi.request_facts(scope)]

    async def application(scope, receive, send):
        await send({"type": "http.response.start", "status": 200, "headers": []})

    async def send(message):
        told.append(str(message))

    async def ask():
        async with AsyncClient(path, timeout=1) as client:
            guard = asgi.RequireMacaroon(application, client, "bank", facts)
            for text in given.tokens:
                for target in (given.path, f"{given.path}//a"):
                    headers = [(b"authorization", f"Macaroon {text}".encode()), (b"cookie", text.encode())]
                    scope = {"type": "http", "method": "GET", "raw_path": target.encode(), "headers": headers}
                    await guard(scope, None, send)

    asyncio.run(ask())
    return told


def of_guards():
    """What guards log, answer and tell their hooks, while the daemon is there and once it is gone; and what it logs."""
    given = secrets(SECRET)
    with with_keys(key_file(SECRET), *LOGGED) as one, contextlib.ExitStack() as stack:
        ports, files = stack.enter_context(go_guards(one.path)) if clients.has_go() else ({}, [])
        with all_logged() as lines:
            found = {"WSGI": by_wsgi(one.path, given), "ASGI": by_asgi(one.path, given)}
            sent = [*guard_requests(given)] if ports else []
            found["Go"] = [str(asked(ports["bank"], it)) for it in sent]
            one.end()
            for name, asks in (("WSGI", by_wsgi), ("ASGI", by_asgi)):
                found[name] += asks(one.path, given)
            found["Go"] += [str(asked(ports["bank"], it)) for it in sent]
        yield "refusals are logged", any("reason=24" in line for line in lines) and any("reason=away" in line for line in lines), True
        for name, told in found.items():
            yield f"{name}: {len(told)} answers", given.marks.found_in("\n".join(told).encode()), []
        yield f"{len(lines)} lines of Python's loggers", given.marks.found_in("\n".join(lines).encode()), []
        for file in files:
            content = pathlib.Path(file).read_bytes()
            yield f"Go: {len(content)} bytes", (b"reason=24" in content, given.marks.found_in(content)), (True, [])
        yield "the daemon's log", given.marks.found_in(one.errors.read_bytes()), []
