"""What operators ask a daemon: `macaroond status` in its three forms, the status socket beside the daemon's own, the
addresses of `--http-admin`, and the fingerprints of keys."""
import os
import re
import socket
import stat
import tempfile

from check.http_rows import README
from check.http_sockets import SECRET, asking, bearing, key_file, listening, response
from check.key_lines import fingerprint
from check.numbers import WIDE
from common import daemon, logged
from common.daemon import PATIENCE, awaited, come_to, connected, free_port, numbers, reply_to
from common.processes import become_nobody
from common.rows import judged

import request

NO_DAEMON = "no daemon answers there; is one running, and are you its user?"
TWO_PAGES = "error: of `--prometheus` and `--connections` one alone may be given\n"
# A path that has room for a socket, and none for that of its status.
LONG = 101


def status(path, *words, **how):
    """How `macaroond status` ends, what it prints, and what it says."""
    run = daemon.status(path, *words, **how)
    return run.returncode, run.stdout, run.stderr


def keys_in(text):
    """What a page tells of keys, behind its numbers."""
    lines = text.splitlines()
    told = [line for line in lines if line.startswith("key ")]
    return told if told == lines[len(lines) - len(told):] else ["not at the end"]


def version_in(path):
    return status(path)[1].splitlines()[0].removeprefix("version ")


# What numbers are called that Prometheus has another name for.
PLAIN = {"requests_total": "requests", "request_seconds_bucket": "requests_within", "request_seconds_sum": "requests_seconds"}


def plain_name(name):
    """The name of a number in the form for people, with its labels as Prometheus has them."""
    word, brace, labels = name.partition("{")
    return PLAIN.get(word, word) + brace + labels


def metrics(path):
    """The same of `status --prometheus`, by the names of the other form."""
    _, text, _ = status(path, "--prometheus")
    rows = re.findall(r"^macaroond_(\S+) ([0-9.]+)$", text, re.M)
    label = re.compile(r'\{?[a-z]+="([\w.]+)"[,}]')
    return {label.sub(r" \1", plain_name(name)): value for name, value in rows}


def listed(path):
    """What `status --connections` says of each connection."""
    _, text, _ = status(path, "--connections")
    return [logged.fields_of(" " + line) for line in text.splitlines()]


def await_listed(path, *requests):
    """The connections once they were answered so many requests, or what they are after all patience."""
    awaited(lambda: asked_of(listed(path)) == list(requests))
    return listed(path)


def asked_of(rows):
    return sorted(row["requests"] for row in rows)


def forms(served):
    """The numbers of both forms are those of the daemon, and the same."""
    path = served.path
    with connected(served.path) as stream:
        token = "hex:" + reply_to(stream, request.mint("v2-binary", "bank", "here", "alice"))[1:].hex()
        reply_to(stream, request.verify("bank", token, 0))
        # A request is counted right behind its reply.
        awaited(lambda: numbers(path).get("requests verify granted") == "1", 5)
        told = numbers(path)
        yield "its version", f"macaroond {version_in(path)}\n", daemon.version()
        due = {"requests mint token": "1", "requests verify granted": "1", "connections": "1", "key_names": "1"}
        yield "what was asked", {name: told.get(name) for name in due}, due
        both = metrics(path)
        # Prometheus asks for the uses of keys at a page of their own, which key_uses.py compares.
        left_out = [name for name in told if name not in both and not name.startswith("key_requests ")]
        yield "numbers that the other form hasn't", left_out, []
    with served.unix() as gateway:
        gateway.sendall(bearing(README))
        yield "a verify over HTTP", response(gateway)[0], 200
        yield "it is counted", numbers(path)["requests verify granted"], "2"


def connections(served):
    """Each connection has a line, with what it has come to."""
    path = served.path
    with connected(served.path) as one, connected(served.path) as wide:
        reply_to(one, b"")
        reply_to(one, b"")
        reply_to(wide, WIDE)
        rows = await_listed(path, "1", "2")
        yield "both", asked_of(rows), ["1", "2"]
        yield "their socket", {row["socket"] for row in rows}, {path}
        yield "unsent", {row["unsent"] for row in rows}, {"0"}
        yield "numbers apart", len({row["connection"] for row in rows}), 2
        yield "forms", {row["form"] for row in rows} <= {"plain", "wide"}, True
        yield "for how long", all(0 <= int(row["millis"]) < 1_000 * PATIENCE for row in rows), True
    yield "they have left", await_listed(path), []


def places(served):
    """The status socket is its owner's alone, lets no key be used, and is no place for frames."""
    path = f"{served.path}.status"
    yield "its mode", oct(stat.S_IMODE(os.stat(path).st_mode)), "0o600"
    with daemon.connected(path) as stream:
        stream.sendall(bearing(README))
        yield "no key there", response(stream)[0], 401
    with served.unix() as gateway:
        for page, due in (("/status", 404), ("/connections", 404), ("/metrics", 200), ("/healthz", 200)):
            gateway.sendall(asking(page))
            yield f"a gateway at {page}", response(gateway)[0], due
    own = served.path
    yield "two pages", status(own, "--prometheus", "--connections"), (2, "", TWO_PAGES)
    if os.getuid() == 0:
        os.chmod(served.folder, 0o755)
        code, printed, said = status(own, preexec_fn=become_nobody)
        yield "another user", (code, printed, NO_DAEMON in said), (3, "", True)


def admin():
    """With an address for operators, gateways are told no page."""
    port = free_port()
    with listening("--http-admin", f"127.0.0.1:{port}") as served:
        for page, there, here in (("/metrics", 200, 404), ("/healthz", 200, 404), ("/status", 200, 404)):
            yield f"an operator at {page}", asked_at(port, page), there
            yield f"a gateway at {page}", asked_at(served.port, page), here
    with tempfile.TemporaryDirectory() as folder:
        run = daemon.refused(f"{folder}/socket", "--http-admin", "0.0.0.0:8080")
    yield "an address of others", (run.returncode, "0.0.0.0:8080" in run.stderr), (2, True)


def keys():
    """The fingerprints of the keys by which a daemon answers at each moment: at Unix sockets, and at no port."""
    port = free_port()
    first, other = fingerprint(SECRET.encode().hex()), fingerprint(b"another".hex())
    with tempfile.TemporaryDirectory() as folder:
        with listening("--http-admin", f"unix:{folder}/admin,127.0.0.1:{port}", "--http-mode", "600") as served:
            told = lambda: keys_in(status(served.path)[1])
            yield "one key", told(), [f"key bank {first}"]
            both = [f"key bank {other} {first}", f"key shop {first}"]
            served.put_keys(f"{request.key('shop', SECRET)}\n{request.key('bank', 'another')}\n{key_file(['bank'])}")
            yield "two keys of a name, and another name", come_to(told, both), both
            with connected(f"{folder}/admin") as stream:
                stream.sendall(asking("/status"))
                yield "at a Unix socket", keys_in(response(stream)[2].decode()), both
            for page in ("/status", "/metrics"):
                with socket.create_connection(("127.0.0.1", port), PATIENCE) as stream:
                    stream.sendall(asking(page))
                    told_there = response(stream)[2].decode()
                yield f"at a port: {page}", (first in told_there, other in told_there), (False, False)
            with connected(f"{folder}/admin") as stream:
                stream.sendall(bearing(README))
                yield "none may be used there", response(stream)[0], 401
            with served.unix() as gateway:
                gateway.sendall(bearing(README))
                yield "a gateway may", response(gateway)[0], 200


def asked_at(port, page):
    with socket.create_connection(("127.0.0.1", port), PATIENCE) as stream:
        stream.sendall(asking(page))
        return response(stream)[0]


def without():
    """No daemon, one whose path is too long for a second socket, and a second one at the same path."""
    with tempfile.TemporaryDirectory() as folder:
        path = f"{folder}/none"
        yield "no daemon", status(path), (3, "", f"error: {path}.status: {NO_DAEMON}\n")
        with socket.socket(socket.AF_UNIX) as silent:
            silent.bind(f"{path}.status")
            silent.listen()
            yield "one that hangs", status(path), (3, "", f"error: {path}.status: {NO_DAEMON}\n")
        long = f"{folder}/{'a' * (LONG - len(folder) - 1)}"
        with daemon.running(long) as run:
            run.terminate()
            said = run.communicate(timeout=PATIENCE)[1]
        yield "a long path", (run.first.startswith("listening"), f"warning: {long}.status: " in said), (True, True)
    with daemon.listening() as (path, _):
        run = daemon.refused(path)
        yield "a second daemon warns of nothing", (run.returncode, "warning" in run.stderr), (3, False)


def faults():
    with listening() as served:
        seen = [row for part in (forms, connections, places) for row in part(served)]
    return judged([*seen, *admin(), *keys(), *without()])
