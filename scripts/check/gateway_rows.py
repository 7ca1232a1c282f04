"""The requests that each gateway is sent, and what it has to answer.

A row's status is that of all gateways, but for those that it names as differing by nature. Where it
is 200 the service behind sees the request once, with whose the token is; else it sees nothing.
"""
import pathlib
import sys
import typing

sys.path.insert(0, str(pathlib.Path(__file__).resolve().parents[1]))
from check.http_rows import README, SECRET, json_text, signature, third_party, v1, v2
from common.tokens import field, hashed, packet, text_of

HELLO = "/guarded/hello"
# What a gateway answers without asking, whether the daemon is there or not.
UNASKED = (301, 400, 404, 414, 431)


class Row(typing.NamedTuple):
    """A request, and what it has to be answered."""

    what: str
    status: int
    # What stands in Authorization behind `Macaroon `; none, and there is no such field.
    token: typing.Optional[str] = None
    fields: typing.Sequence[str] = ()
    target: str = HELLO
    method: str = "GET"
    body: bytes = b""
    # The gateways that differ, and what each answers.
    own: typing.Mapping[str, int] = {}
    whose: str = "alice"

    def due(self, name):
        return self.own.get(name, self.status)

    def lines(self):
        """The fields of the request."""
        return [f"Authorization: Macaroon {self.token}"] * (self.token is not None) + [*self.fields]


def narrowed(*caveats, **how):
    return v2(b"alice", [caveat.encode() for caveat in caveats], **how)


def without_its_caveat():
    """A token whose caveat was taken away, under the signature that it had."""
    out = b"\x02" + field(2, b"alice") + b"\0"
    return text_of(out + b"\0" + field(6, signature(b"alice", [b"role = admin"], SECRET)))


def caveat_somewhere():
    """A token of V1 whose first-party caveat has a location."""
    chain = hashed(signature(b"alice", [], SECRET), b"a = b")
    parts = [(b"location", b""), (b"identifier", b"alice"), (b"cid", b"a = b"), (b"cl", b"there")]
    return text_of(b"".join(packet(*it) for it in parts) + packet(b"signature", chain))


def turned(token):
    """A token with a bit of its signature turned."""
    return token[:-3] + ("A" if token[-3] != "A" else "B") + token[-2:]


ALICE = narrowed()
BEARER = f"Authorization: Macaroon {ALICE}"
BAD = f"Authorization: Macaroon {narrowed(secret=b'forged')}"
ADMIN = narrowed("role = admin")

TOKENS = [
    Row("a token of V1", 200, README, whose="we%20used%20our%20secret%20key"),
    Row("a token of V1 with a caveat", 200, v1(b"alice", [b"method = GET"])),
    Row("a token of V2", 200, ALICE),
    Row("a token of V2 JSON", 200, json_text(b"alice")),
    Row("as Bearer", 200, fields=[f"Authorization: Bearer {ALICE}"]),
    Row("another case, and blanks", 200, fields=[f"authorization: bEARER   {ALICE}"]),
    Row("an identifier in escapes", 200, v2(b"\xc3\xa4 %"), whose="%C3%A4%20%25"),
    Row("the longest identifier", 200, v2(b"\xff" * 4096), whose="%FF" * 4096),
    Row("an empty identifier", 200, v2(b""), ["Macaroon-Identifier: root"], whose=""),
    Row("no token", 401),
    Row("another scheme", 401, fields=["Authorization: Basic eDp5"]),
    Row("a scheme alone", 401, fields=["Authorization: Macaroon"]),
    Row("an empty field", 401, fields=["Authorization:"]),
    Row("two tokens", 401, fields=[BEARER, BEARER], own={"nginx": 400}),
    Row("a good token and a bad one", 401, fields=[BEARER, BAD], own={"nginx": 400}),
    Row("a bad token and a good one", 401, fields=[BAD, BEARER], own={"nginx": 400}),
    Row("two tokens in a field", 401, f"{ALICE}, Macaroon {ALICE}"),
    Row("a token in the query alone", 401, target=f"{HELLO}?access_token={ALICE}"),
    Row("no base64", 401, "?"),
    Row("no form of a token", 401, "AAAA"),
    Row("a token that is cut", 401, ALICE[:-8]),
    Row("a third-party caveat", 401, third_party(b"alice")),
    Row("a caveat with a location", 401, caveat_somewhere()),
    Row("more caveats than a token has", 401, narrowed(*["method = GET"] * 129)),
    Row("another secret", 401, narrowed(secret=b"forged")),
    Row("the key of another name", 401, narrowed(secret=b"shop")),
    Row("a bit of the signature turned", 401, turned(ALICE)),
    Row("a caveat taken away", 401, without_its_caveat()),
]
HOST = "host = example.org"
# These tell the host as the client wrote it, and Envoy doesn't tell it.
AS_WRITTEN = {"caddy": 403, "traefik": 403, "envoy": 403}
PIECES = "Transfer-Encoding: chunked"
CAVEATS = [
    Row("a caveat that nothing meets", 403, ADMIN),
    Row("one that is met, and one that isn't", 403, narrowed("method = GET", "role = admin")),
    Row("a caveat of another spelling", 403, narrowed("method=GET")),
    Row("a time that is over", 403, narrowed("time < 2020-01-01T00:00")),
    Row("a time to come", 200, narrowed("time < 2100-01-01T00:00")),
    Row("a time that has begun", 200, narrowed("time >= 2020-01-01T00:00")),
    Row("a time that hasn't", 403, narrowed("time >= 2100-01-01T00:00")),
    Row("a day without its time", 403, narrowed("time < 2100-01-01")),
    Row("a month that isn't", 403, narrowed("time < 2100-13-01T00:00")),
    Row("a method", 200, narrowed("method = GET")),
    Row("another method", 403, narrowed("method = GET"), method="DELETE"),
    Row("HEAD is no GET", 403, narrowed("method = GET"), method="HEAD"),
    Row("HEAD", 200, narrowed("method = HEAD"), method="HEAD"),
    Row("a safe method", 200, narrowed("method is safe")),
    Row("HEAD is safe", 200, narrowed("method is safe"), method="HEAD"),
    Row("DELETE is not safe", 403, narrowed("method is safe"), method="DELETE"),
    Row("a body", 200, narrowed("method = POST"), method="POST", body=b"x" * 100_000),
    Row("a body in pieces", 200, ALICE, [PIECES], method="PUT", body=b"hello"),
    Row("a body without a grant", 403, narrowed("method = GET"), method="POST", body=b"12345"),
    Row("a path", 200, narrowed("path = /guarded/hello")),
    Row("a path and a query", 200, narrowed("path = /guarded/hello"), target=f"{HELLO}?a=/../b"),
    Row("under a path", 200, narrowed("path under /guarded")),
    Row("under a longer path", 200, narrowed("path under /guarded/a"), target="/guarded/a/b"),
    Row("beside a path", 403, narrowed("path under /guarded/a"), target="/guarded/ab"),
    Row("above a path", 403, narrowed("path under /guarded/a"), target="/guarded/"),
    Row("a host", 200, narrowed(HOST), own={"envoy": 403}),
    Row("another host", 403, narrowed(HOST), ["Host: example.net"]),
    Row("a host and a port", 200, narrowed(HOST), ["Host: example.org:8080"], own=AS_WRITTEN),
    Row("a host in other letters", 200, narrowed(HOST), ["Host: Example.ORG"], own=AS_WRITTEN),
    # Envoy is asked about method and path alone, and Traefik tells no address of its client.
    Row("a scheme", 200, narrowed("scheme = http"), own={"envoy": 403}),
    Row("an address", 200, narrowed("ip = 127.0.0.1"), own={"envoy": 403, "traefik": 403}),
    Row("the gateway's own fact", 200, narrowed("service = demo")),
    Row("another fact of its kind", 403, narrowed("service = other")),
]
# What a client tells of itself, and the caveat that it would meet so.
FORGED = {
    "Macaroon-Fact: role = admin": "role = admin",
    "X-Forwarded-Method: PUT": "method = PUT",
    "X-Original-Method: PUT": "method = PUT",
    "X-Forwarded-Uri: /admin": "path under /admin",
    "X-Original-URI: /admin": "path under /admin",
    "X-Forwarded-Host: admin.example": "host = admin.example",
    "X-Forwarded-Proto: https": "scheme = https",
    "X-Real-IP: 192.0.2.7": "ip = 192.0.2.7",
    "X-Forwarded-For: 192.0.2.7": "ip = 192.0.2.7",
    "Forwarded: for=192.0.2.7;host=admin.example": "host = admin.example",
}
# What a client tells the service past its gateway: another method, path or address than those that were judged.
PAST = [
    *(line for line in FORGED if not line.startswith("Macaroon-Fact")),
    "X-HTTP-Method-Override: PUT",
    "X-HTTP-Method: PUT",
    "X-Method-Override: PUT",
    "X-Original-URL: /admin",
    "X-Original-Host: admin.example",
    "X-Rewrite-URL: /admin",
    "X-Forwarded-Path: /admin",
    "X-Forwarded-Prefix: /admin",
    "X-Forwarded-Port: 65432",
    "X-Forwarded-Scheme: https",
    "X-Forwarded-Server: admin.example",
    "X-Forwarded-Ssl: on",
    "X-Forwarded-User: root",
    "X-Request-Id: of-the-client",
]


def as_cgi(line):
    """A field whose name has `_` for `-`."""
    name, _, value = line.partition(":")
    return f"{name.replace('-', '_')}:{value}"


TRUE = ["method = GET", "path under /guarded", HOST, "service = demo"]
# Fields that a client may tell a gateway to take out on the way.
NAMED = "Macaroon-Identifier, Macaroon-Fact, X-Forwarded-Method, X-Forwarded-Uri, X-Forwarded-Host"
ELSEWHERE = narrowed("path under /guarded/a")
FORGERIES = [
    *(Row(f"forged: {line}", 403, narrowed(caveat), [line]) for line, caveat in FORGED.items()),
    Row("all of them, and true facts", 200, narrowed(*TRUE), [*FORGED], own={"envoy": 403}),
    Row("what is told past the gateway", 200, ALICE, PAST),
    Row("the same in other letters", 200, ALICE, [line.lower() for line in PAST]),
    Row("the same as CGI reads it", 200, ALICE, [as_cgi(line) for line in PAST]),
    Row("two facts of a kind", 403, ADMIN, ["Macaroon-Fact: a", "macaroon-fact: role = admin"]),
    Row("a fact in the query", 403, ADMIN, target=f"{HELLO}?fact=role+=+admin"),
    Row("an identifier", 200, ALICE, ["Macaroon-Identifier: root"]),
    Row("two of them", 200, ALICE, ["macaroon-identifier: root", "MACAROON-IDENTIFIER: root"]),
    Row("an identifier as CGI reads it", 200, ALICE, ["Macaroon_Identifier: root"]),
    Row("an identifier without a token", 401, fields=["Macaroon-Identifier: root"]),
    Row("fields to take out", 200, narrowed(*TRUE), [f"Connection: close, {NAMED}"]),
    Row("a token to take out", 200, ALICE, ["Connection: close, Authorization"]),
    Row("a path to take out", 403, ELSEWHERE, ["Connection: close, X-Forwarded-Uri"]),
]
# These look for their rule by the path as it is once dots are resolved, and then it isn't guarded.
CLEANED = {"nginx": 404, "caddy": 404, "apache": 404}
ABOVE_ALL = {"nginx": 400, "haproxy": 404, "apache": 400}
ZERO = {"caddy": 200, "haproxy": 200, "apache": 404}
WHOLE = "http://example.org/guarded/hello"
FOREIGN = "http://example.net/guarded/hello"
PATHS = [
    Row("a path that isn't guarded", 404, ALICE, target="/open"),
    Row("what a gateway asks itself", 404, ALICE, target="/_macaroon"),
    Row("the front of a name", 404, ALICE, target="/guardedx"),
    Row("an escape", 200, narrowed("path = /guarded/%41"), target="/guarded/%41"),
    Row("two dots out", 403, ALICE, target="/guarded/../x", own=CLEANED),
    Row("two dots within", 403, ALICE, target="/guarded/a/../x"),
    Row("two dots in escapes", 403, ALICE, target="/guarded/%2e%2e/x", own=CLEANED),
    Row("two dots within, in escapes", 403, ALICE, target="/guarded/a/%2E%2e/x"),
    Row("two dots into it", 403, ALICE, target="/x/../guarded/hello", own={"haproxy": 404}),
    Row("two dots above all", 403, ALICE, target="/../guarded/hello", own=ABOVE_ALL),
    Row("a dot", 403, ALICE, target="/guarded/./hello"),
    Row("two slashes", 403, ALICE, target="/guarded//hello"),
    Row("two slashes in front", 403, ALICE, target="//guarded/hello", own={"haproxy": 404}),
    Row("a backslash", 403, ALICE, target="/guarded/a\\..\\x"),
    Row("a backslash in an escape", 403, ALICE, target="/guarded/a%5cx"),
    Row("a slash in an escape", 403, ALICE, target="/guarded/..%2fx", own=CLEANED),
    Row("an escape that isn't", 400, ALICE, target="/guarded/%zz", own={"haproxy": 200}),
    Row("a zero byte", 400, ALICE, target="/guarded/%00", own=ZERO),
    Row("two dots and a parameter", 200, ALICE, target="/guarded/a/..;b/x"),
    Row("two dots, escaped twice", 200, ALICE, target="/guarded/a/%252e%252e/x"),
    Row("a whole address", 200, narrowed(*TRUE), target=WHOLE, own={"apache": 403}),
    Row("a whole address elsewhere", 403, narrowed(*TRUE), target=FOREIGN, own={"haproxy": 400}),
    Row("a path without a token", 401, target="/guarded/a//b"),
    Row("letters of another case", 404, ALICE, target="/GUARDED/hello", own={"caddy": 200}),
    Row("64 steps", 200, ALICE, target="/guarded" + "/a" * 63),
    Row("65 steps", 403, ALICE, target="/guarded" + "/a" * 64),
]


def long_row(what, count, status=200, **how):
    """A request whose token has `count` caveats of 3,700 bytes that its path meets."""
    path = "/guarded/".ljust(3_693, "a")
    return Row(what, status, narrowed(*[f"path = {path}"] * count), target=path, **how)


SIZES = [
    long_row("a token of 9 KiB and more", 2),
    long_row("a token of 29 KiB", 6),
    long_row("a token that is too long", 7, 401),
    Row("a long token that isn't granted", 403, narrowed(*["role = admin".ljust(4_000)] * 6)),
    Row("a field of 200 KiB", 400, "A" * 200_000, own={"caddy": 431}),
    Row("70 fields", 200, ALICE, [f"X-{number}: a" for number in range(70)]),
    Row("cookies of 58 KiB", 200, ALICE, ["Cookie: " + "a" * 20_000] * 3),
]
ROWS = [*TOKENS, *CAVEATS, *FORGERIES, *PATHS, *SIZES]
