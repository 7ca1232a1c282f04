"""How the keys of each name are used, as `/metrics/keys` and `macaroond status` tell it: each use is made here in loops, by
a worker and over HTTP, with and without a memory of tokens, and compared with what was asked."""
import collections
import re

from check.http_rows import OLD, json_text, v2
from check.http_sockets import asked, asking, bearing, key_file, listening, response
from check.numbers import LONG
from common import daemon as daemons
from common.daemon import come_to, connected, reply_to
from common.rows import judged

import request

METRIC = re.compile(r'macaroond_key_requests_total\{name="([^"]*)",asked="([a-z]+)",told="([a-z]+)",key="([a-z]+)"\} (\d+)')
LINE = re.compile(r"key_requests (\S+) ([a-z]+) ([a-z]+) ([a-z]+) (\d+)")
TYPE = "# TYPE macaroond_key_requests_total counter"
# As many names as are counted apart, and one more.
NAMES = [f"name{number}" for number in range(1_001)]
REST = "*"
# Two secrets at one name, and one at another.
TWO_KEYS = key_file(["bank"]) + f"{request.key('bank', OLD.decode())}\n" + key_file(["shop"])


def uses(daemon):
    """What the daemon tells of each use."""
    with connected(f"{daemon.path}.status") as stream:
        stream.sendall(asking("/metrics/keys"))
        status, _, body, _ = response(stream)
    kind, *lines = body.decode().splitlines()
    found = [METRIC.fullmatch(line) for line in lines]
    if (status, kind) != (200, TYPE) or not all(found):
        return {"strangers": body}
    return {tuple(it.groups()[:4]): int(it[5]) for it in found}


def printed(daemon):
    """The same by `macaroond status`."""
    text = daemons.status(daemon.path).stdout
    return {tuple(it.groups()[:4]): int(it[5]) for it in LINE.finditer(text)}


def in_loops(daemon):
    """Mints, and verifies whose tokens either key signed, some again and again."""
    first, second, forged = v2(b"alice", [b"a = 1"]), v2(b"bob", [b"a = 1"], secret=OLD), v2(b"carol", secret=b"other")
    payloads = [
        *[request.verify("bank", first, 0, "a = 1")] * 3, request.verify("bank", first, 0),
        *[request.verify("bank", second, 0, "a = 1")] * 4, *[request.verify("bank", second, 0)] * 2,
        request.verify("bank", forged, 0), request.verify("bank", "?", 0), request.verify("none", first, 0),
        request.mint("v2-binary", "bank", "here", "alice"), request.mint("v2-binary", "shop", "here", "alice"),
        request.mint("v2-binary", "none", "here", "alice"), request.attenuate("v2-binary", first, "a = b"), b"",
    ]
    with connected(daemon.path) as stream:
        for payload in payloads:
            reply_to(stream, payload)
    return {
        ("bank", "verify", "granted", "first"): 3, ("bank", "verify", "unsatisfied", "first"): 1,
        ("bank", "verify", "granted", "second"): 4, ("bank", "verify", "unsatisfied", "second"): 2,
        ("bank", "verify", "refused", "none"): 2, ("bank", "mint", "token", "first"): 1,
        ("shop", "mint", "token", "first"): 1,
    }


def over_http(daemon):
    """Verifies over HTTP, one of them of a token that is too long to be remembered: nobody looks which key signed it."""
    with daemon.unix() as gateway:
        for token in [v2(b"dora")] * 2 + [v2(b"erik", secret=OLD)] * 3 + ["?", v2(b"hugo", [b"a" * 1_000] * 9)]:
            asked(gateway, bearing(token))
    return {
        ("bank", "verify", "granted", "first"): 2, ("bank", "verify", "granted", "second"): 3,
        ("bank", "verify", "refused", "none"): 1, ("bank", "verify", "unsatisfied", "either"): 1,
    }


def by_workers(daemon):
    """Dear verifies: a worker's answer doesn't tell which of two keys signed; that of a name with one is clear."""
    at_two, at_one = (request.verify(name, json_text(who, [b"a = 1"]), 0, "a = 1", *LONG)
                      for name, who in (("bank", b"frida"), ("shop", b"gert")))
    with connected(daemon.path) as stream:
        for payload in (at_two, at_one):
            reply_to(stream, payload)
    return {("bank", "verify", "granted", "either"): 1, ("shop", "verify", "granted", "first"): 1}


def each_way(*words):
    """All ways, one behind the other, at a daemon with these words."""
    due = collections.Counter()
    with listening(*words) as daemon:
        daemon.put_keys(TWO_KEYS)
        yield "uses: the keys are read", come_to(lambda: daemon.told_of_keys(), ["names: 2"]), ["names: 2"]
        yield "uses: none yet", uses(daemon), {}
        for way in (in_loops, over_http, by_workers):
            due.update(way(daemon))
            yield f"uses {' '.join(words)}: {way.__name__}", come_to(lambda: uses(daemon), dict(due)), dict(due)
        yield "uses: what status prints", printed(daemon), dict(due)
        with daemon.unix() as gateway:
            yield "uses: a gateway is told none", asked(gateway, asking("/metrics/keys")), 404


def many_names():
    """Past a thousand names all others are counted together."""
    with listening(names=NAMES[:1_000]) as daemon:
        with connected(daemon.path) as stream:
            for name in NAMES[:1_000]:
                reply_to(stream, request.mint("v2-binary", name, "here", "alice"))
        yield "uses: a thousand names", len(uses(daemon)), 1_000
        daemon.write_keys(NAMES[-1])
        yield "uses: another name", come_to(lambda: daemon.told_of_keys(), ["names: 1"]), ["names: 1"]
        with connected(daemon.path) as stream:
            reply_to(stream, request.mint("v2-binary", NAMES[-1], "here", "alice"))
        told = uses(daemon)
        yield "uses: the others", (len(told), told.get((REST, "mint", "token", "first"))), (1_001, 1)


def faults():
    return judged([*each_way(), *each_way("--remember", "0"), *many_names()])
