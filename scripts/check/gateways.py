#!/usr/bin/env python3
"""Gateways that ask `macaroond listen` over HTTP, by the configurations of examples/gateways.

    gateways.py [NAME ..]     these alone

Each is asked where Debian's packages are installed (scripts/install_peers.sh), and told as skipped
where they aren't. Envoy and Traefik aren't in Debian: a script sends what they would send.
"""
import concurrent.futures
import http.client
import pathlib
import re
import signal
import sys
import time

sys.path.insert(0, str(pathlib.Path(__file__).resolve().parents[1]))
from check import gateway_scripted
from check.gateway_rows import ALICE, HELLO, HOST, PAST, ROWS, UNASKED, Row, narrowed
from check.gateway_servers import GATEWAYS, asked, connection, guarded, head, key_file, program_of
from common.daemon import PATIENCE, awaited, come_to

# What a gateway answers that got no verdict, and what each does: of a daemon that is gone, and of one that hangs.
LOST = (500, 502, 503, 504)
LOST_BY = {
    "nginx": (500, 500),
    "caddy": (502, 504),
    "haproxy": (503, 503),
    "apache": (503, 503),
}
# More requests than a gateway keeps connections, and after how many seconds none is left of those
# that it doesn't keep.
REPEATS, SETTLED = 40, 3
# An id of a request that macaroond takes for its log.
ID = re.compile(r"[A-Za-z0-9._-]{16,40}")
GRANTED, NO_TOKEN = Row("granted", 200, ALICE), Row("no token", 401)
NEW_SECRET = b"the secret that comes next"
NEW = Row("by the new key", 200, narrowed(secret=NEW_SECRET))


def missing():
    return [name for name in GATEWAYS if program_of(name) is None]


def asked_row(scene, row):
    """The status of a row, the scheme that is asked for, and what the service behind saw."""
    text = head(row.target, *row.lines(), method=row.method, body=row.body)
    status, fields = asked(scene.port, text)
    scheme = fields.get("www-authenticate", "").partition(" ")[0]
    return status, scheme, [told_of(seen) for seen in scene.service.taken()]


def told_of(seen):
    """What counts of a request that the service saw: whose it is, and what a client told."""
    identifiers = [value for value in seen.values("macaroon-identifier") if value]
    left = seen.values("authorization") + seen.values("macaroon-fact") + seen.told_past(PAST)
    target = seen.target.removeprefix("http://example.org")
    return seen.method, target, identifiers, left, len(seen.body)


def due_of(row, name):
    """What `asked_row` has to find."""
    status = row.due(name)
    target = row.target.removeprefix("http://example.org")
    whose = [row.whose] if row.whose else []
    seen = [(row.method, target, whose, [], len(row.body))] if status == 200 else []
    return status, "Macaroon" if status == 401 else "", seen


def rows(name, scene):
    """Each row of the table."""
    for row in ROWS:
        yield row.what, asked_row(scene, row), due_of(row, name)


def on_one_connection(scene):
    """A connection keeps nothing of a grant: the next request needs its own."""
    connection = http.client.HTTPConnection("127.0.0.1", scene.port, timeout=PATIENCE)
    bearing = {"Authorization": f"Macaroon {ALICE}"}
    found = []
    for fields in (bearing, {}, bearing, {"Authorization": f"Macaroon {narrowed('a = b')}"}):
        connection.request("GET", HELLO, headers=fields)
        response = connection.getresponse()
        response.read()
        found.append(response.status)
    connection.close()
    yield "on one connection", found, [200, 401, 200, 403]
    hosts = [seen.values("host")[0].partition(":")[0] for seen in scene.service.taken()]
    yield "and the service saw two, and their host", hosts, ["127.0.0.1"] * 2


def as_reasons_are_told(name, scene):
    """The client is told why, and the log has it and nothing of a token."""
    narrow, tokens, ids = narrowed("a = b"), [ALICE], []
    for what, token, target, reason in (
        ("a caveat that isn't satisfied", narrow, HELLO, "24 0"),
        ("a path that isn't plain", ALICE, "/guarded/a//b", "path"),
        ("a grant", ALICE, HELLO, None),
    ):
        _, fields = asked(scene.port, head(target, f"Authorization: Macaroon {token}", "X-Request-Id: of-the-client"))
        yield f"the client's reason of {what}", fields.get("macaroon-reason") or None, reason
        yield f"an id of {what}", ID.fullmatch(fields.get("x-request-id", "")) is not None, True
        tokens.append(token)
        ids.append(fields["x-request-id"])
    log = scene.daemon.folder / GATEWAYS[name].log
    text = awaited(lambda: (told := log.read_text()) and all(one in told for one in ['"24 0"', '"path"', *ids]) and told) or ""
    yield "the log has both reasons", ['"24 0"' in text, '"path"' in text], [True, True]
    yield "and the ids", [one in text for one in ids], [True] * 3
    yield "and no token", [token for token in tokens if token in text], []
    seen = scene.service.taken()
    yield "and the service saw the grant alone, by its id", [one.values("x-request-id") for one in seen], [ids[2:]]


def by_an_old_client(scene):
    """HTTP/1.0 without a host, which tells no fact about it."""
    for token, due in ((narrowed("method = GET"), 200), (narrowed(HOST), 403)):
        text = f"GET {HELLO} HTTP/1.0\r\nAuthorization: Macaroon {token}\r\n\r\n".encode()
        yield "HTTP/1.0 without a host", asked(scene.port, text)[0], due
    yield "and the service saw one", len(scene.service.taken()), 1


def kept(daemon):
    """How many connections the daemon has over HTTP, besides that which asks."""
    front = b"macaroond_connections_http "
    with connection(daemon.folder / "macaroond.http") as stream:
        stream.sendall(head("/metrics"))
        with stream.makefile("rb") as page:
            return next(int(line[len(front):]) for line in page if line.startswith(front)) - 1


def as_connections_stay(name, scene):
    """Whether the gateway keeps connections to the daemon, and uses them again."""
    for _ in range(REPEATS):
        asked_row(scene, GRANTED)
    count = come_to(lambda: kept(scene.daemon), 0, SETTLED, pause=0.1)
    yield f"{count} connections are kept", 0 < count < REPEATS, name != "apache"


def without_verdict(name, scene, row):
    """Whether a row is refused, as it has to be while the daemon gives no verdict."""
    status, _, seen = asked_row(scene, row)
    is_refused = status in LOST or status == row.due(name) and status in UNASKED
    return "refused" if is_refused and not seen else (status, seen)


def while_it_hangs(name, scene):
    """A daemon that takes connections and answers nothing."""
    scene.daemon.halt()
    begin = time.monotonic()
    yield "a daemon that hangs", asked_row(scene, GRANTED), (LOST_BY[name][1], "", [])
    yield "and that is told in time", time.monotonic() - begin < PATIENCE / 2, True
    scene.daemon.run.send_signal(signal.SIGCONT)
    yield "once it goes on", asked_row(scene, GRANTED), due_of(GRANTED, name)


def while_it_is_gone(name, scene):
    """A daemon that was killed, one that came back, and one that came back unseen."""
    scene.daemon.end(signal.SIGKILL)
    yield "no daemon", asked_row(scene, GRANTED), (LOST_BY[name][0], "", [])
    for row in ROWS:
        yield f"without a daemon: {row.what}", without_verdict(name, scene, row), "refused"
    scene.daemon.start()
    yield "a daemon that came back", asked_row(scene, GRANTED), due_of(GRANTED, name)
    for how in (signal.SIGTERM, signal.SIGKILL):
        scene.daemon.end(how)
        scene.daemon.start()
        yield "one that came back unseen", asked_row(scene, GRANTED), due_of(GRANTED, name)


def await_status(scene, row, status):
    """Waits until a row gets a status, as it does soon after keys changed."""
    awaited(lambda: asked_row(scene, row)[0] == status)


def as_keys_change(name, scene):
    """Keys that change while the daemon and the gateway run on."""
    yield "by a key to come", asked_row(scene, NEW), (401, "Macaroon", [])
    scene.daemon.put_keys(key_file(NEW_SECRET))
    await_status(scene, NEW, 200)
    yield NEW.what, asked_row(scene, NEW), due_of(NEW, name)
    yield "by the old key", asked_row(scene, GRANTED), (401, "Macaroon", [])
    yield "without a token", asked_row(scene, NO_TOKEN), due_of(NO_TOKEN, name)
    scene.daemon.put_keys(key_file(NEW_SECRET, "inn"))
    await_status(scene, NEW, 401)
    yield "no key of the name", asked_row(scene, NEW), (401, "Macaroon", [])


# What a client of README's gateway sends, and whether that is granted.
OF_README = [
    GRANTED,
    NO_TOKEN,
    Row("an identifier of its own", 200, ALICE, ["Macaroon-Identifier: root"]),
    Row("a path", 200, narrowed("path under /guarded", "method = GET")),
    Row("another path", 403, narrowed("path under /guarded/a")),
    Row("another method", 403, narrowed("method = GET"), method="DELETE"),
    Row("a path of its own word", 403, narrowed("path under /admin"), ["X-Forwarded-Uri: /admin"]),
]


def as_readme_says(name):
    """The few lines that README shows for nginx."""
    with guarded(name, patient=False, by_readme=True) as scene:
        for row in OF_README:
            yield f"README: {row.what}", asked_row(scene, row), due_of(row, name)


def of_gateway(name):
    with guarded(name) as scene:
        yield from rows(name, scene)
        yield from on_one_connection(scene)
        yield from as_reasons_are_told(name, scene)
        yield from by_an_old_client(scene)
        yield from as_connections_stay(name, scene)
        yield from while_it_is_gone(name, scene)
        yield from as_keys_change(name, scene)
    with guarded(name, patient=False) as scene:
        yield from while_it_hangs(name, scene)
    if name == "nginx":
        yield from as_readme_says(name)


def listed(name):
    """Each check of a gateway: what was asked, what was told, and what is due."""
    return list(of_gateway(name) if name in GATEWAYS else gateway_scripted.rows(name))


def found_of(names):
    """Each check by its gateway, where all are asked at once."""
    with concurrent.futures.ThreadPoolExecutor(len(names)) as pool:
        return [(name, *row) for name, found in zip(names, pool.map(listed, names)) for row in found]


def all_names():
    return [*GATEWAYS, *gateway_scripted.SCRIPTED]


def faults(*chosen):
    """What is wrong with these gateways, or all, how much was asked, and which aren't there."""
    names = chosen or all_names()
    left_out = [name for name in names if name in missing()]
    found = found_of([name for name in names if name not in left_out])
    wrong = [
        f"{name}: {what}: {str(told)[:500]}, and it should be {str(due)[:500]}"
        for name, what, told, due in found
        if told != due
    ]
    skipped = [f"{name} isn't installed (scripts/install_peers.sh)" for name in left_out]
    return wrong, len(found), skipped


if __name__ == "__main__":
    if unknown := set(sys.argv[1:]) - set(all_names()):
        sys.exit(f"there is no gateway {', '.join(sorted(unknown))}")
    begin = time.monotonic()
    wrong, count, skipped = faults(*sys.argv[1:])
    print(*wrong, *skipped, sep="\n")
    print(f"gateways: {len(wrong)} of {count} are wrong, {time.monotonic() - begin:.1f} s")
    sys.exit(bool(wrong))
