"""The numbers of `macaroond listen`, at `/metrics` of its HTTP face: each is made to change here, and compared with what
was done. Those that docs/OPERATING.md lists are those that are told. And what `macaroond status` prints of a stranger."""
import pathlib
import re
import socket
import subprocess
import tempfile
import time

from check.http_rows import OLD, README, json_text, v2
from check.http_sockets import asking, bearing, listening, response
from common import TOP
from common.daemon import PROGRAM, REST, come_to, connected, frame, put_keys, reply_to
from common.rows import judged

import request

PAGE = TOP / "docs" / "OPERATING.md"
LINE = re.compile(r'macaroond_([a-z_]+)(\{[^}]*\})? (\d+(?:\.\d{6})?)')
TYPE = re.compile(r"# TYPE macaroond_([a-z_]+) (counter|gauge|histogram)")
# Facts that make a request longer than 4,096 bytes. A loop doesn't answer one whose token begins as JSON besides.
LONG = ["a" * 250] * 20
WIDE = request.verify("bank", "{", 0, *LONG)
# How many requests are timed: small ones, dear ones, and verifies over HTTP, so many of each.
TIMED = 5


def numbers(daemon):
    """What the daemon tells: each number by its name, and its labels where it has any."""
    with daemon.unix() as stream:
        stream.sendall(asking("/metrics"))
        status, fields, body, _ = response(stream)
    lines = body.decode().splitlines()
    values = dict(line.rsplit(" ", 1) for line in lines if LINE.fullmatch(line))
    told = {name.removeprefix("macaroond_"): float(value) if "." in value else int(value) for name, value in values.items()}
    strangers = [line for line in lines if not LINE.fullmatch(line) and not TYPE.fullmatch(line)]
    return told if status == 200 and not strangers else {"strangers": strangers}


# What tells requests apart: what was asked, what was told, and the number of a refusal that has one.
LABELS = "asked", "told", "code"


def requests_total(*words):
    """The name of a number of requests."""
    labels = ",".join(f'{label}="{word}"' for label, word in zip(LABELS, words))
    return f"requests_total{{{labels}}}"


def of_requests(counts):
    """The numbers of requests, by the words that tell them apart."""
    return {requests_total(*words): count for words, count in counts.items()}


def grown(before, after):
    """How much the numbers of requests have grown, those that have."""
    return {name: after[name] - before[name] for name in before if "asked=" in name and after[name] != before[name]}


def await_number(daemon, name, value):
    """The number once it is this one, or what it is after all patience."""
    return come_to(lambda: numbers(daemon).get(name), value)


def requests_and_bytes(daemon):
    """Requests of each kind, and each answer, are counted once; and so are bytes."""
    before = numbers(daemon)
    with connected(daemon.path) as stream:
        token = reply_to(stream, request.mint("v2-binary", "bank", "here", "alice"))[1:]
        text = "hex:" + token.hex()
        payloads = [
            request.mint("v2-binary", "none", "here", "alice"),
            request.attenuate("v2-binary", text, "a = b"),
            request.attenuate("v2-binary", "hex:00", "a = b"),
            request.verify("bank", text, 0),
            request.verify("bank", text, 0),
            b"",
            b"\x09",
        ]
        replies = [reply_to(stream, payload) for payload in payloads]
        narrow = "hex:" + replies[1][1:].hex()
        payloads.append(request.verify("bank", narrow, 0))
        replies.append(reply_to(stream, payloads[-1]))
        payloads.append(request.verify("none", text, 0))
        replies.append(reply_to(stream, payloads[-1]))
        first = len(frame(request.mint("v2-binary", "bank", "here", "alice")))
        came = first + sum(len(frame(payload)) for payload in payloads)
        went = 5 + len(token) + sum(len(frame(reply)) for reply in replies)
        yield "connections", (numbers(daemon)["connections"], numbers(daemon)["connections_plain"]), (1, 1)
    yield "connections: it has left", await_number(daemon, "connections", 0), 0
    after = numbers(daemon)
    # A connection that asked for the numbers may be there still.
    names = {name for name in after if name != "connections_http" and "_seconds" not in name}
    changed = {name: after[name] - before[name] for name in names if after[name] != before[name]}
    due = of_requests({
        ("mint", "token"): 1, ("mint", "refused", 18): 1, ("attenuate", "token"): 1, ("attenuate", "refused", 19): 1,
        ("verify", "granted"): 2, ("verify", "unsatisfied"): 1, ("verify", "refused", 18): 1,
        ("nothing", "refused", 16): 2,
    })
    yield "what has grown", changed, {**due, "connections_total": 1, "bytes_in_total": came, "bytes_out_total": went}


def wide(daemon):
    """A request that is dear is counted beside the others."""
    before, refused = numbers(daemon), requests_total("verify", "refused", 20)
    with connected(daemon.path) as stream:
        replies = [reply_to(stream, WIDE) for _ in range(3)]
    yield "its replies", replies, [b"\x14"] * 3
    yield "by their kind", await_number(daemon, refused, before.get(refused, 0) + 3), before.get(refused, 0) + 3
    yield "requests_wide_total", await_number(daemon, "requests_wide_total", before["requests_wide_total"] + 3), 3
    yield "connections_wide", await_number(daemon, "connections_wide", 0), 0
    after = numbers(daemon)
    yield "bytes in", after["bytes_in_total"] - before["bytes_in_total"], 3 * len(frame(WIDE))
    yield "bytes out", after["bytes_out_total"] - before["bytes_out_total"], 3 * len(frame(b"\x14"))


def times(daemon):
    """How long requests took: each has its time, no longer than who asks waits, and the buckets hold all of them."""
    small = request.verify("bank", v2(b"dora"), 0)
    before, begin = numbers(daemon), time.monotonic()
    with connected(daemon.path) as stream:
        replies = [reply_to(stream, payload) for payload in [small, WIDE] * TIMED]
    with daemon.unix() as gateway:
        for _ in range(TIMED):
            gateway.sendall(bearing(README))
            replies.append(response(gateway)[0])
    waited = time.monotonic() - begin
    yield "replies that are timed", replies, [b"\0", b"\x14"] * TIMED + [200] * TIMED
    count = before["request_seconds_count"] + 3 * TIMED
    yield "each has its time", await_number(daemon, "request_seconds_count", count), count
    after = numbers(daemon)
    took = after["request_seconds_sum"] - before["request_seconds_sum"]
    yield f"they took {took:.6f} s of {waited:.3f} s", 0 < took < waited, True
    buckets = [value for name, value in after.items() if name.startswith("request_seconds_bucket")]
    yield "those of a bound are among those of the next", buckets, sorted(buckets)
    asked = sum(value for name, value in after.items() if name.startswith("requests_total"))
    yield "all are in the last", (len(buckets), buckets[-1], asked), (12, count, count)


def remembered(daemon):
    """A dear verify waits for a worker until its token is remembered, and then for none; with other facts too."""
    token, before = json_text(b"carol", [b"a = 1"]), numbers(daemon)
    granted, lacks = (request.verify("bank", token, 0, *facts, *LONG) for facts in (["a = 1"], []))
    with connected(daemon.path) as stream:
        replies = [reply_to(stream, granted) for _ in range(5)]
        told = await_number(daemon, "requests_wide_total", before["requests_wide_total"] + 2)
        replies += [reply_to(stream, payload) for payload in (lacks, granted, lacks)]
    yield "replies of a dear token", replies, [b"\0"] * 5 + [b"\x18\0\0", b"\0", b"\x18\0\0"]
    yield "what a worker told of it", told - before["requests_wide_total"], 2
    after = numbers(daemon)["requests_wide_total"]
    yield "what a worker told of it then", after - before["requests_wide_total"], 2


def taken_back():
    """A token that was taken back is counted apart from one of another secret: in loops, by a worker, and over HTTP."""
    gone, forged, stays = v2(b"alice"), v2(b"alice", secret=OLD), v2(b"bob")
    payloads = {
        request.verify("bank", gone, 0): 29,
        request.owner("bank", gone): 29,
        request.verify("bank", json_text(b"alice"), 0, *LONG): 29,
        request.verify("bank", forged, 0): 23,
        request.verify("bank", stays, 0): 0,
        request.attenuate("v2-binary", gone, "a = b"): 1,
    }
    statuses = {gone: 401, forged: 401, stays: 200}
    due = {("verify", "revoked", 29): 4, ("verify", "refused", 23): 2, ("verify", "granted"): 2, ("attenuate", "token"): 1}
    with tempfile.TemporaryDirectory() as folder:
        listed = pathlib.Path(folder, "revoked")
        put_keys(listed, f"revoked bank {b'alice'.hex()}\n")
        with listening("--revoked", str(listed)) as daemon:
            before = numbers(daemon)
            yield "revoked: its lines", before["revoked"], 1
            with connected(daemon.path) as stream:
                replies = [reply_to(stream, payload)[0] for payload in payloads]
            yield "revoked: replies", replies, list(payloads.values())
            with daemon.unix() as stream:
                told = []
                for token in statuses:
                    stream.sendall(bearing(token))
                    told.append(response(stream)[0])
            yield "revoked: statuses", told, list(statuses.values())
            yield "revoked: what has grown", come_to(lambda: grown(before, numbers(daemon)), of_requests(due)), of_requests(due)


def connections(daemon):
    """Connections past the limit, in a fault, and over HTTP."""
    with connected(daemon.path) as one, connected(daemon.path) as other:
        for stream in (one, other):
            reply_to(stream, b"")
        time.sleep(REST)
        with connected(daemon.path) as third:
            yield "one gives way to a third", one.recv(1), b""
            reply_to(third, b"")
            told = numbers(daemon)
            yield "connections at the limit", (told["connections"], told["connections_closed_at_limit_total"]), (2, 1)
        other.sendall(bytes(3))
    yield "connections_faulty_total", await_number(daemon, "connections_faulty_total", 1), 1
    with daemon.unix(), daemon.tcp():
        yield "connections_http", await_number(daemon, "connections_http", 3), 3


def keys(daemon):
    """A key file that is read anew, and one that is refused."""
    daemon.write_keys("bank", "shop")
    yield "key_names", await_number(daemon, "key_names", 2), 2
    age = time.time() - numbers(daemon)["keys_read_seconds"]
    yield f"keys_read_seconds: {age:.0f} s ago", -2 < age < 60, True
    daemon.keys.write_text("key bank\n")
    yield "keys_refused", await_number(daemon, "keys_refused", 1), 1
    with daemon.unix() as stream:
        stream.sendall(asking("/healthz"))
        status, _, body, _ = response(stream)
    yield "its health", (status, body), (503, b"the last key file was refused; the keys stay as they were\n")
    daemon.write_keys("bank")
    yield "and again", await_number(daemon, "keys_refused", 0), 0


def page(daemon):
    # How keys are used is told at a page of its own.
    told = {name.split("{")[0] for name in numbers(daemon)} | {"key_requests_total"}
    section = PAGE.read_text().split("## Numbers")[1].split("\n## ")[0]
    rows = [line.split("|")[1] for line in section.splitlines() if line.startswith("| `")]
    listed = {name for row in rows for name in re.findall(r"`([a-z_]+)[`{]", row)}
    yield "the page lists each number", sorted(listed), sorted(told)
    age = time.time() - numbers(daemon)["started_seconds"]
    yield f"started_seconds: {age:.0f} s ago", -2 < age < 600, True


# What a socket may say that isn't the daemon's, and how it is shown.
SAID = b"connections 1\n\x1b[2J\x1b]0;root\x07 \xc3\xa4\\ \r\t\0\nend"
SHOWN = b"connections 1\n\\x1b[2J\\x1b]0;root\\x07 \\xc3\\xa4\\x5c \\x0d\\x09\\x00\nend"


def another():
    """What `status` prints of a socket where another program listens."""
    with tempfile.TemporaryDirectory() as folder, socket.socket(socket.AF_UNIX) as server:
        server.bind(f"{folder}/socket.status")
        server.listen()
        for words in ([], ["--prometheus"], ["--connections"]):
            command = [PROGRAM, "status", "--socket", f"{folder}/socket", *words]
            with subprocess.Popen(command, stdout=subprocess.PIPE) as run:
                stream, _ = server.accept()
                with stream:
                    stream.recv(65_536)
                    stream.sendall(b"HTTP/1.0 200 OK\r\n\r\n" + SAID)
                printed = run.communicate()[0]
            yield f"what status {' '.join(words)} prints of another", (run.returncode, printed), (0, SHOWN)


def faults():
    seen = [*another(), *taken_back()]
    with listening() as daemon:
        for part in (requests_and_bytes, wide, times, remembered, keys, page):
            seen += part(daemon)
    with listening("--connections", "2") as daemon:
        seen += connections(daemon)
    return judged(seen)
