#!/usr/bin/env python3
"""The rows of try_http, requests with the responses that they are to get.

The statuses, fields and bodies stand here as docs/HTTP.md has them. Tokens are made by hmac and
hashlib of Python, but for the README token of libmacaroons, whose text stands below.
"""
import pathlib
import sys

sys.path.insert(0, str(pathlib.Path(__file__).resolve().parents[1]))
from common import tokens
from common.tokens import field, text_of

CRATE = pathlib.Path(__file__).resolve().parents[2] / "crates" / "try_http"
SECRET = b"this is our super secret key; only we should know it"
OLD = b"another one"

# The text that libmacaroons' README prints: no caveat, and one.
README = ("MDAxY2xvY2F0aW9uIGh0dHA6Ly9teWJhbmsvCjAwMjZpZGVudGlmaWVyIHdlIHVzZWQgb3VyIHNlY3JldCBrZXkK"
          "MDAyZnNpZ25hdHVyZSDj2eApCFJsTAA5rhURQRXZf91ovyujebNCqvD2F9BVLwo")
WHOSE = [("macaroon-identifier", "we%20used%20our%20secret%20key"),
         ("macaroon-location", "http://mybank/")]

REASONS = {200: "OK", 204: "No Content", 400: "Bad Request", 401: "Unauthorized",
           403: "Forbidden", 404: "Not Found", 405: "Method Not Allowed",
           413: "Payload Too Large", 415: "Unsupported Media Type",
           431: "Request Header Fields Too Large", 501: "Not Implemented",
           503: "Service Unavailable"}


def signature(identifier, caveats, secret):
    return tokens.signed(secret, identifier, caveats)


def v2(identifier, caveats=(), secret=SECRET, location=b""):
    """The text of a V2 token."""
    return text_of(tokens.v2(secret, identifier, caveats, location))


def v1(identifier, caveats=(), secret=SECRET, location=b""):
    """The text of a V1 token."""
    return text_of(tokens.v1(secret, identifier, caveats, location))


def json_text(identifier, caveats=(), secret=SECRET):
    """The base64 text of a V2 token in JSON."""
    cavs = ",".join('{"i":"%s"}' % caveat.decode() for caveat in caveats)
    words = '{"v":2,"i":"%s","c":[%s],"s64":"%s"}' % (
        identifier.decode(), cavs, text_of(signature(identifier, caveats, secret)))
    return text_of(words.encode())


def third_party(identifier):
    """The text of a token with a third-party caveat."""
    out = b"\x02" + field(2, identifier) + b"\0" + field(2, b"c") + field(4, b"v") + b"\0"
    return text_of(out + b"\0" + field(6, bytes(32)))


def get(target, *fields, method="GET", version="1.1"):
    return [f"{method} {target} HTTP/{version}", "Host: macaroond", *fields, ""]


def post(target, body):
    """A call: its body is a line, whose end is white space of the JSON."""
    length = f"Content-Length: {len(body.encode()) + 2}"
    return [f"POST {target} HTTP/1.1", "Host: macaroond", length, "", body]


def token(text, scheme="Macaroon"):
    return f"Authorization: {scheme} {text}"


def response(status, fields=(), body="", version="1.1", length=True, close=False):
    lines = [f"HTTP/{version} {status} {REASONS[status]}"]
    lines += [f"{name}: {value}" for name, value in fields]
    if close == "first":
        lines.append("connection: close")
    if length:
        lines.append(f"content-length: {len(body)}")
    if close is True:
        lines.append("connection: close")
    return "\r\n".join(lines) + "\r\n\r\n" + body


def granted(identifier, location=""):
    return response(200, [("macaroon-identifier", identifier), ("macaroon-location", location)])


PLAIN = ("content-type", "text/plain; charset=utf-8")


def page(status, text):
    return response(status, [PLAIN], text)


def closing(status, fields, text=""):
    """A response behind which the connection is closed, as the service says itself."""
    return response(status, [*fields, ("connection", "close")], text)


def asks(challenge):
    return response(401, [("www-authenticate", challenge)])


def unsatisfied(index):
    body = '{"code":24,"caveat":%d,"reason":"caveat %d is not satisfied"}' % (index, index)
    fields = [("macaroon-reason", f"24 {index}"), ("content-type", "application/json")]
    return response(403, fields, body)


JSON = ("content-type", "application/json")


def told(text):
    """The response to a call that is answered."""
    return response(200, [JSON], text)


def made(text):
    return told('{"token":"%s"}' % text)


def doubted(caveats, *doubts):
    """The response that brings a token of these caveats, and at which places of them what is amiss."""
    told_of = ",".join('{"caveat":%d,"reason":"a caveat %s"}' % doubt for doubt in doubts)
    return told('{"token":"%s","warnings":[%s]}' % (v2(b"alice", [it.encode() for it in caveats]), told_of))


NO_BOUND = "is no bound of time, and holds only as a fact"
PASSED = "is a time limit that has passed, and holds only as a fact"
SLASH = "ends in a slash, and no path is under it"
SPACES = "has not one space on each side of its equals sign"
TWICE = "stands there twice"


def bad(reason):
    return response(400, [JSON], '{"reason":"%s"}' % reason)


def refused(code, reason):
    return response(400, [JSON], '{"code":%d,"reason":"%s"}' % (code, reason))


NO_TOKEN = asks("Macaroon")
INVALID = asks('Macaroon error="invalid_token"')
INVALID_BEARER = asks('Bearer error="invalid_token"')
UNKNOWN = response(404)
UNSAFE = response(403, [("macaroon-reason", "path"), ("content-type", "application/json")],
                  '{"reason":"the path is not plain"}')
README_GRANTED = response(200, WHOSE)

plain = v2(b"alice")
account = v2(b"alice", [b"account = 17"])
ended = v2(b"alice", [b"time < 2023-11-14T22:13:20"])
running = v2(b"alice", [b"time < 2023-11-14T22:13:21"])
under = v2(b"alice", [b"path under /a"])
reading = v2(b"alice", [b"method = GET"])
safe = v2(b"alice", [b"method is safe"])


def paths(path, want, caveat=b"path under /a"):
    """A forwarded path, and what a token with a caveat on it is to get."""
    fields = [token(v2(b"alice", [caveat])), f"X-Forwarded-Uri: {path}"]
    return "forwarded", [(get("/verify/bank", *fields), want)]


def strictly(path, want):
    """The same, where paths are read strictly."""
    words, rows = paths(path, want)
    return f"{words} strict", rows


ALICE = granted("alice")

ROWS = [
    # ---- tokens, in each form
    ("", [(get("/verify/bank", token(README)), README_GRANTED)]),
    ("204", [(get("/verify/bank", token(README)), response(204, WHOSE, length=False))]),
    ("", [(get("/verify/bank", token(v1(b"alice", location=b"there"))), granted("alice", "there"))]),
    ("", [(get("/verify/bank", token(plain)), ALICE)]),
    ("", [(get("/verify/bank", token(json_text(b"alice"))), ALICE)]),
    ("", [(get("/verify/bank", token(v2(b"al%\xc3\xbf\x01 e~"))), granted("al%25%C3%BF%01%20e~"))]),
    ("", [(get("/verify/bank", token(v2(b"alice", secret=OLD))), ALICE)]),
    # ---- the field that brings the token
    ("", [(get("/verify/bank", "authorization: bEaReR " + plain), ALICE)]),
    ("", [(get("/verify/bank", "Authorization: Bearer   " + plain), ALICE)]),
    ("", [(get("/verify/bank"), NO_TOKEN)]),
    ("", [(get("/verify/bank", "Authorization: Basic eDp5"), NO_TOKEN)]),
    ("", [(get("/verify/bank", "Authorization: Macaroon"), NO_TOKEN)]),
    ("", [(get("/verify/bank", "Authorization: Macaroon" + plain), NO_TOKEN)]),
    ("", [(get("/verify/bank", token(plain), token(plain)), NO_TOKEN)]),
    ("", [(get("/verify/bank", token(plain), "Authorization: Basic eDp5"), NO_TOKEN)]),
    # ---- tokens that are none under the key
    ("", [(get("/verify/bank", token("?")), INVALID)]),
    ("", [(get("/verify/bank", token("?", "Bearer")), INVALID_BEARER)]),
    ("", [(get("/verify/bank", token("AAAA")), INVALID)]),
    ("", [(get("/verify/bank", token(third_party(b"alice"))), INVALID)]),
    ("", [(get("/verify/bank", token(v2(b"alice", secret=b"forged"))), INVALID)]),
    ("", [(get("/verify/shop", token(plain)), INVALID)]),
    ("", [(get("/verify/bank", token(plain[:10] + "A" + plain[11:], "bearer")), INVALID_BEARER)]),
    # ---- paths of the request's own
    ("", [(get("/verify/none", token(plain)), INVALID)]),
    ("", [(get("/verify/none", token(plain, "Bearer")), INVALID_BEARER)]),
    ("", [(get("/verify/none"), NO_TOKEN)]),
    ("", [(get("/verify/", token(plain)), INVALID)]),
    ("", [(get("/verify", token(plain)), UNKNOWN)]),
    ("", [(get("/", token(plain)), UNKNOWN)]),
    ("", [(get("/mint/bank", token(plain), method="POST"), UNKNOWN)]),
    ("", [(get("/verify/bank/", token(plain)), ALICE)]),
    ("", [(get("/verify/bank/a//b/../c", token(plain)), ALICE)]),
    ("", [(get("/verify/bank?fact=a", token(plain), method="DELETE"), ALICE)]),
    # ---- names that may not be used are as those without keys, whatever else the request brings
    *(("names=shop,mill forwarded query", [
        (get(f"/verify/{name}", token(plain)), INVALID),
        (get(f"/verify/{name}", token("?", "Bearer")), INVALID_BEARER),
        (get(f"/verify/{name}"), NO_TOKEN),
        (get(f"/verify/{name}", token(plain), "X-Forwarded-Uri: /a//b"), UNSAFE),
        (get(f"/verify/{name}", token(plain), "X-Forwarded-Uri: /a#b"), response(400)),
        (get(f"/verify/{name}?" + "fact=a&" * 129, token(plain)), response(400)),
    ]) for name in ("bank", "none", "mill")),
    ("names=shop,mill", [(get("/verify/shop", token(v2(b"alice", secret=b"shop"))), ALICE)]),
    ("names=", [(get("/verify/bank", token(plain)), INVALID)]),
    # ---- time, by the request's moment
    ("", [(get("/verify/bank", token(running)), ALICE)]),
    ("", [(get("/verify/bank", token(ended)), unsatisfied(0))]),
    # ---- facts of fields
    ("header", [(get("/verify/bank", token(account), "Macaroon-Fact: account = 17"), ALICE)]),
    ("header", [(get("/verify/bank", token(account), "macaroon-fact: x",
                     "Macaroon-Fact: account = 17"), ALICE)]),
    ("header", [(get("/verify/bank", token(account), "Macaroon-Fact: account = 1"),
                 unsatisfied(0))]),
    ("", [(get("/verify/bank", token(account), "Macaroon-Fact: account = 17"), unsatisfied(0))]),
    ("query forwarded", [(get("/verify/bank", token(account), "Macaroon-Fact: account = 17"),
                          unsatisfied(0))]),
    ("header", [(get("/verify/bank", token(v2(b"a", [b"time < 2100-01-01T00:00", b"b", b"c"])),
                     "Macaroon-Fact: b"), unsatisfied(2))]),
    # ---- facts of the query
    ("query", [(get("/verify/bank?fact=account+%3d+17", token(account)), ALICE)]),
    ("query", [(get("/verify/bank?x=1&fact=a&fact=account%20=%2017", token(account)), ALICE)]),
    ("query", [(get("/verify/bank?facts=account+%3d+17", token(account)), unsatisfied(0))]),
    ("header forwarded", [(get("/verify/bank?fact=account+%3d+17", token(account)),
                           unsatisfied(0))]),
    ("query", [(get("/verify/bank?" + "fact=a&" * 128, token(plain)), ALICE)]),
    ("query", [(get("/verify/bank?" + "fact=a&" * 129, token(plain)), response(400))]),
    # ---- facts of the proxies' fields
    paths("/a", ALICE), paths("/a/", ALICE), paths("/a/b?x=/../y", ALICE), paths("/a?b", ALICE),
    paths("/ab", unsatisfied(0)), paths("/", unsatisfied(0)), paths("/b/a", unsatisfied(0)),
    paths("/a/b", ALICE, b"path = /a/b"), paths("/a/b/", unsatisfied(0), b"path = /a/b"),
    paths("/a/b", ALICE, b"path under /"), paths("/", ALICE, b"path under /"),
    paths("/a/b", unsatisfied(0), b"path under /a/"),
    paths("/a/b", unsatisfied(0), b"path under "),
    paths("/a/../b", UNSAFE), paths("/a/..", UNSAFE), paths("/a/./b", UNSAFE),
    paths("/a/.", UNSAFE), paths("/a/...", ALICE), paths("/a/.b", ALICE), paths("/a//b", UNSAFE),
    paths("//a", UNSAFE), paths("/a/%2e%2E/b", UNSAFE), paths("/a%2Fb", UNSAFE),
    paths("/a%2fb", UNSAFE), paths("/a%5Cb", UNSAFE), paths("/a\\b", UNSAFE),
    paths("/a/%41", ALICE), paths("http://x/a", UNSAFE), paths("a", UNSAFE), paths("*", UNSAFE),
    paths("/a" + "/b" * 63, ALICE), paths("/a" + "/b" * 64, UNSAFE),
    paths("/a/" + "b" * 4093, ALICE), paths("/a/" + "b" * 4094, UNSAFE),
    paths("/a#b", response(400)), paths("/a?b#c", response(400)), paths("/a//b#c", response(400)),
    *(row for odd in ("..;", "%3B", "..%00", ".%09.", "%u002e", "%c0%ae", "%C1%9c", "%e0%80%ae",
                      "%E0%9F%BF", "%f0%80%80%ae")
      for row in (paths(f"/a/{odd}/x", ALICE), strictly(f"/a/{odd}/x", UNSAFE))),
    *(strictly(f"/a/{usual}", ALICE) for usual in ("b", "%20", "%c3%a9", "%e0%a0%80", "%f0%90%80%80",
                                                  "é", "ࠀ", "𐀀")),
    strictly("/a//b", UNSAFE), strictly("/ab", unsatisfied(0)), strictly("/a/b?x=;", ALICE),
    ("header", [(get("/verify/bank", token(under), "X-Forwarded-Uri: /a"), unsatisfied(0))]),
    ("header", [(get("/verify/bank", token(plain), "X-Forwarded-Uri: /a/../b"), ALICE)]),
    ("forwarded", [(get("/verify/bank", token(under), "X-Original-URI: /a/b"), ALICE)]),
    ("forwarded", [(get("/verify/bank", token(under), "X-Original-URI: /a", "X-Forwarded-Uri: /a"),
                    unsatisfied(0))]),
    ("forwarded", [(get("/verify/bank", token(under), "X-Original-URI: /a", "X-Original-URI: /b"),
                    unsatisfied(0))]),
    ("forwarded", [(get("/verify/bank/a/b", token(under)), ALICE)]),
    ("forwarded", [(get("/verify/bank/a/b", token(under), "X-Forwarded-Method: GET"),
                    unsatisfied(0))]),
    ("forwarded", [(get("/verify/bank/a/../b", token(under)), UNSAFE)]),
    ("forwarded", [(get("/verify/bank/a", token(reading)), ALICE)]),
    ("forwarded", [(get("/verify/bank", token(reading)), unsatisfied(0))]),
    ("forwarded", [(get("/verify/bank/a", token(reading), method="POST"), unsatisfied(0))]),
    ("forwarded", [(get("/verify/bank", token(reading), "X-Forwarded-Method: GET",
                        method="POST"), ALICE)]),
    ("forwarded", [(get("/verify/bank", token(reading), "X-Original-Method: PUT"),
                    unsatisfied(0))]),
    *(("forwarded", [(get("/verify/bank", token(safe), f"X-Forwarded-Method: {method}"), ALICE)])
      for method in ("GET", "HEAD", "OPTIONS", "TRACE")),
    *(("forwarded", [(get("/verify/bank", token(safe), f"X-Forwarded-Method: {method}"), unsatisfied(0))])
      for method in ("POST", "PUT", "DELETE", "PATCH", "CONNECT", "get", "GETS", "GE", "SEARCH", "QUERY")),
    ("forwarded", [(get("/verify/bank/a", token(safe)), ALICE)]),
    ("forwarded", [(get("/verify/bank/a", token(safe), method="POST"), unsatisfied(0))]),
    ("forwarded", [(get("/verify/bank", token(safe)), unsatisfied(0))]),
    ("forwarded", [(get("/verify/bank", token(safe), "X-Forwarded-Method: GET", "X-Original-Method: GET"), unsatisfied(0))]),
    ("", [(get("/verify/bank", token(safe), "X-Forwarded-Method: GET"), unsatisfied(0))]),
    ("forwarded", [(get("/verify/bank", token(v2(b"alice", [
        b"method = GET", b"host = example.org", b"ip = 192.0.2.7", b"scheme = https",
        b"path = /a/b", b"path under /a/b"])), "X-Forwarded-Method: GET",
        "X-Forwarded-Host: example.org", "X-Real-IP: 192.0.2.7", "X-Forwarded-Proto: https",
        "X-Forwarded-Uri: /a/b?c"), ALICE)]),
    ("forwarded", [(get("/verify/bank", token(v2(b"alice", [b"ip = 192.0.2.7"])),
                        "X-Real-IP: 192.0.2.7", "X-Real-IP: 192.0.2.8"), unsatisfied(0))]),
    # ---- the daemon's own pages, and a daemon that ends
    ("", [(get("/healthz"), page(200, "ok\n")), (get("/healthz?x"), page(200, "ok\n"))]),
    ("unwell", [(get("/healthz"), page(503, "why\n")),
                (get("/verify/bank", token(plain)), ALICE)]),
    ("", [(get("/metrics"), page(200, "told\n")), (get("/healthz/"), UNKNOWN)]),
    ("", [(get("/status"), UNKNOWN), (get("/connections"), UNKNOWN)]),
    ("operators", [(get("/healthz"), page(200, "ok\n")), (get("/metrics"), page(200, "told\n")),
                   (get("/status"), page(200, "told\n")),
                   (get("/connections"), page(200, "told\n"))]),
    ("pageless", [(get("/healthz"), UNKNOWN), (get("/metrics"), UNKNOWN),
                  (get("/status"), UNKNOWN), (get("/connections"), UNKNOWN)]),
    ("ending", [(get("/verify/bank", token(plain)),
                 closing(200, [("macaroon-identifier", "alice"), ("macaroon-location", "")])),
                (get("/verify/bank", token(plain)), "")]),
    ("ending", [(get("/healthz"), closing(200, [PLAIN], "ok\n"))]),
    # ---- HTTP: one connection after another request, without a body, and what is no request
    ("", [(get("/verify/bank", token(plain)), ALICE), (get("/verify/bank"), NO_TOKEN),
          (get("/verify/bank", token(README)), README_GRANTED)]),
    ("", [(get("/verify/bank", token(plain), method="HEAD"),
           response(200, [("macaroon-identifier", "alice"), ("macaroon-location", "")],
                    length=False))]),
    ("", [(["GET /verify/bank HTTP/1.1", "no colon", ""], response(400, close="first"))]),
    ("", [(["GET /verify/bank HTTP/1.1", "Host: a b", ""], response(400, close="first"))]),
    ("", [(get("/verify/bank", "X: " + "x" * 50_000), response(431, close="first"))]),
    ("", [(get("/verify/bank", "Transfer-Encoding: gzip, chunked"),
           response(501, close="first"))]),
]


# ---- calls

NO_OBJECT = bad("the body is no JSON object")
UNKNOWN_MEMBER = bad("the body has a member that the call does not have")
NO_IDENTIFIER = bad("there is to be one text, identifier or identifier64")
# What try_http draws for each mint, in hexadecimal.
DRAWN = b"0123456789abcdef".hex()
NO_CAVEATS = bad("the caveats are no list of texts")
NO_TEXT = bad("there is no text that is the token")
NO_MOMENT = bad("there is no number of seconds that is the moment")
TWO = [b"a = 1", b"b = 2"]
# 1,700,000,000 is 2023-11-14T22:13:20Z.
BOUNDS = [b"time < 2023-11-14T22:13:20", b"time < 2023-11-14T22:13:21", b"time >= 2023-11-14T22:13:20Z",
          b"time >= 2023-11-14T22:13:21Z", b"time < soon"]


def sent(target, body, host, *fields):
    """A call to a host, with fields of its own."""
    length = f"Content-Length: {len(body.encode()) + 2}"
    return [f"POST {target} HTTP/1.1", f"Host: {host}", *fields, length, "", body]


MINT_BODY = '{"identifier":"alice"}'
SENDS_JSON = "Content-Type: application/json"
# Hosts and fields of a mint at a port, and what it is to get.
BROWSERS = [
    *((host, [SENDS_JSON], made(plain)) for host in (
        "127.0.0.1:8080", "127.0.0.1", "localhost", "LocalHost:80", "[::1]:80", "[::1]", "192.0.2.1:1")),
    *((host, [SENDS_JSON], response(403)) for host in (
        "evil.example:8080", "evil.example", "localhost.evil.example", "127.0.0.1.evil.example:80", "macaroond", "a127.0.0.1")),
    *(("127.0.0.1", [f"Content-Type: {kind}"], made(plain)) for kind in (
        "Application/JSON", "application/json; charset=utf-8", "application/json;x")),
    *(("127.0.0.1", [f"Content-Type: {kind}"], response(415)) for kind in (
        "text/plain", "application/jsonp", "application/x-www-form-urlencoded", "text/plain; application/json")),
    ("127.0.0.1", [], response(415)),
    ("127.0.0.1", [SENDS_JSON, SENDS_JSON], response(415)),
    *(("127.0.0.1", [SENDS_JSON, f"Origin: {origin}"], response(403)) for origin in (
        "http://evil.example", "null", "http://127.0.0.1", "")),
]


def minted(body, want):
    return "mint", [(post("/mint/bank", body), want)]


def drawn(secret=SECRET):
    """What a mint is told that says no identifier."""
    return told('{"identifier":"%s","token":"%s"}' % (DRAWN, v2(DRAWN.encode(), secret=secret)))


def narrowed(body, want):
    return "attenuate", [(post("/attenuate", body), want)]


def inspected(body, want):
    return "inspect", [(post("/inspect", body), want)]


def checked(body, want):
    return "check", [(post("/check", body), want)]


def whole_json(identifier, caveats=()):
    """The base64 text of a V2 token in JSON, its members in order."""
    listed = ",".join('{"i":"%s"}' % caveat.decode() for caveat in caveats)
    return text_of(('{"c":[%s],"i":"%s","s64":"%s","v":2}' % (
        listed, identifier.decode(), text_of(signature(identifier, caveats, SECRET)))).encode())


def said(form, identifier, caveats, location, sig):
    """What inspect tells, from members that are written already."""
    return told('{"caveats":[%s],"form":"%s",%s,"location":"%s","signature":"%s"}' % (
        ",".join("{%s}" % caveat for caveat in caveats), form, identifier, location, sig))


ROWS += [
    # ---- a mint: forms, parts that are left out, and what a text may hold
    minted('{"identifier":"we used our secret key","location":"http://mybank/","form":"v1-text"}',
           made(README)),
    minted('{"identifier":"alice"}', made(plain)),
    minted('{ "form" : "v2-text" , "caveats" : [ ] , "location" : "" , "identifier" : "alice" }',
           made(plain)),
    minted('{"identifier":"alice","caveats":["a = 1","b = 2"]}', made(v2(b"alice", TWO))),
    minted('{"identifier":"alice","caveats":["a = 1","b = 2"],"form":"v2-json"}',
           made(whole_json(b"alice", TWO))),
    minted('{"identifier64":"YWwl_wE"}', made(v2(b"al%\xff\x01"))),
    minted('{"identifier64":"YWwl_wE="}', made(v2(b"al%\xff\x01"))),
    minted('{"identifier":"\\u00e9\\"é","location":"ü"}',
           made(v2("é\"é".encode(), location="ü".encode()))),
    minted('{"identifier":"bob","identifier":"alice"}', made(plain)),
    # ---- a mint without an identifier gets one that was drawn; an empty one is one
    minted("{}", drawn()), minted('{"caveats":["a = 1"],"form":"v2-json","location":""}', told(
        '{"identifier":"%s","token":"%s"}' % (DRAWN, whole_json(DRAWN.encode(), TWO[:1])))),
    minted('{"identifier":""}', made(v2(b""))), minted('{"identifier64":""}', made(v2(b""))),
    ("mint drawless", [(post("/mint/bank", "{}"), response(503)), (post("/mint/none", "{}"), response(503))]),
    ("mint names=shop", [(post("/mint/bank", "{}"), UNKNOWN), (post("/mint/shop", "{}"), drawn(b"shop"))]),
    # ---- caveats that can hardly hold
    *(minted('{"identifier":"alice","caveats":["%s"]}' % caveat, doubted([caveat], (0, why))) for caveat, why in (
        ("time < 2030-01-01", NO_BOUND), ("TIME < 2030-01-01T00:00", NO_BOUND), ("time<2030-01-01T00:00", NO_BOUND),
        ("time < 2023-11-14T22:13:20", PASSED), ("path under /guarded/", SLASH), ("method=GET", SPACES))),
    minted('{"identifier":"alice","caveats":["a = 1","method =GET","a = 1","time < 2023-11-14T22:13:21","a = 1"]}', doubted(
        ["a = 1", "method =GET", "a = 1", "time < 2023-11-14T22:13:21", "a = 1"], (1, SPACES), (2, TWICE), (4, TWICE))),
    minted('{"identifier":"alice","caveats":["path under /","method is safe","time >= 2030-01-01T00:00"]}',
           made(v2(b"alice", [b"path under /", b"method is safe", b"time >= 2030-01-01T00:00"]))),
    narrowed('{"token":"%s","caveats":["a = 1","a = 1"]}' % plain, doubted(["a = 1", "a = 1"], (1, TWICE))),
    narrowed('{"token":"%s","caveats":["a = 1"]}' % v2(b"alice", TWO[:1]), made(v2(b"alice", [b"a = 1", b"a = 1"]))),
    # ---- what is no mint
    minted("alice", NO_OBJECT), minted("[]", NO_OBJECT), minted('{"identifier":"alice"', NO_OBJECT),
    minted('{"identifier":7}', NO_IDENTIFIER), minted('{"identifier64":7}', NO_IDENTIFIER),
    minted('{"identifier":"alice","identifier64":"YQ"}', NO_IDENTIFIER),
    minted('{"identifier64":"a+b/"}', bad("identifier64 is no base64url text")),
    minted('{"identifier":"alice","key":"bank"}', UNKNOWN_MEMBER),
    minted('{"identifier":"alice","location":null}', bad("the location is no text")),
    minted('{"identifier":"alice","caveats":"a = 1"}', NO_CAVEATS),
    minted('{"identifier":"alice","caveats":["a = 1",2]}', NO_CAVEATS),
    minted('{"identifier":"alice","form":"v2"}', bad("the form is none of v1-text, v2-text and v2-json")),
    minted('{"identifier":"%s"}' % ("a" * 4097), refused(22, "the token passes a limit")),
    minted('{"identifier":"a","caveats":[%s]}' % ",".join(['"b"'] * 129),
           refused(22, "the token passes a limit")),
    minted('{"identifier":"a","form":"v2-json","caveats":[%s]}' % ",".join(['"%s"' % ("b" * 4096)] * 6),
           refused(22, "the token passes a limit")),
    # ---- an attenuate
    narrowed('{"token":"%s","caveats":["a = 1"]}' % README, made(v1(
        b"we used our secret key", [b"a = 1"], location=b"http://mybank/"))),
    narrowed('{"token":"%s","caveats":["a = 1","b = 2"]}' % plain, made(v2(b"alice", TWO))),
    narrowed('{"token":"%s","caveats":["b = 2"]}' % v2(b"alice", TWO[:1]), made(v2(b"alice", TWO))),
    narrowed('{"token":"%s","caveats":["a = 1"]}' % json_text(b"alice"),
             made(whole_json(b"alice", TWO[:1]))),
    narrowed('{"token":"%s"}' % plain, bad("there is no caveat to add")),
    narrowed('{"token":"%s","caveats":[]}' % plain, bad("there is no caveat to add")),
    narrowed('{"caveats":["a = 1"]}', NO_TEXT), narrowed('{"token":[],"caveats":["a"]}', NO_TEXT),
    narrowed('{"token":"%s","caveats":["a"],"key":"bank"}' % plain, UNKNOWN_MEMBER),
    narrowed('{"token":"%s","caveats":["a = 1","b = 2"],"form":"v1-text"}' % plain, made(v1(b"alice", TWO))),
    narrowed('{"token":"%s","caveats":["a = 1"],"form":"v2-text"}' % README, made(v2(
        b"we used our secret key", [b"a = 1"], location=b"http://mybank/"))),
    narrowed('{"token":"%s","caveats":["a = 1"],"form":"v2-json"}' % plain,
             made(whole_json(b"alice", TWO[:1]))),
    narrowed('{"token":"?","caveats":["a"],"form":"v3"}', bad("the form is none of v1-text, v2-text and v2-json")),
    narrowed('{"token":"?","caveats":[],"form":"v2-text"}', bad("there is no caveat to add")),
    narrowed('{"token":"?","caveats":["a = 1"]}',
             refused(19, "the token is neither a bare form nor base64 text")),
    narrowed('{"token":"AAAA","caveats":["a = 1"]}', refused(20, "the bytes are in no form of a token")),
    narrowed('{"token":"%s","caveats":["a = 1"]}' % third_party(b"alice"),
             refused(21, "a caveat of the token is third-party")),
    narrowed('{"token":"%s","caveats":["%s"]}' % (plain, "a" * 4097),
             refused(22, "the token passes a limit")),
    # ---- an inspect
    inspected('{"token":"%s"}' % README, said(
        "v1-text", '"identifier":"we used our secret key"', [], "http://mybank/",
        "e3d9e02908526c4c0039ae15114115d97fdd68bf2ba379b342aaf0f617d0552f")),
    inspected('{"token":"%s"}' % v2(b"al\xff", [b"a \"b\"", b"\xff"]), said(
        "v2-text", '"identifier64":"YWz_"', ['"text":"a \\"b\\""', '"bytes64":"_w"'], "",
        signature(b"al\xff", [b"a \"b\"", b"\xff"], SECRET).hex())),
    inspected('{"token":"%s"}' % json_text(b"alice", [b"a"]), said(
        "v2-json", '"identifier":"alice"', ['"text":"a"'], "",
        signature(b"alice", [b"a"], SECRET).hex())),
    inspected("{}", NO_TEXT), inspected('{"token":"?"}', refused(
        19, "the token is neither a bare form nor base64 text")),
    # ---- a check: facts, bounds of time, and a signature that nobody looks at
    checked('{"token":"%s","moment":0}' % plain, told('{"holds":[]}')),
    checked('{"token":"%s","facts":["b = 2"],"moment":0}' % v2(b"alice", TWO),
            told('{"holds":[false,true]}')),
    checked('{"token":"%s","facts":["b = 2","a = 1"],"moment":0}' % v1(b"alice", TWO, b"forged"),
            told('{"holds":[true,true]}')),
    checked('{"token":"%s","moment":1700000000}' % v2(b"alice", BOUNDS),
            told('{"holds":[false,true,true,false,false]}')),
    checked('{"token":"%s","moment":1700000001,"facts":["time < soon"]}' % v2(b"alice", BOUNDS),
            told('{"holds":[false,false,true,true,true]}')),
    checked('{"token":"%s","moment":18446744073709551615}' % v2(b"alice", BOUNDS),
            told('{"holds":[false,false,true,true,false]}')),
    checked('{"moment":0}', NO_TEXT), checked('{"token":"?"}', NO_MOMENT),
    checked('{"token":"?","moment":"0"}', NO_MOMENT), checked('{"token":"?","moment":-1}', NO_MOMENT),
    checked('{"token":"?","moment":1.5}', NO_MOMENT),
    checked('{"token":"?","moment":18446744073709551616}', NO_MOMENT),
    checked('{"token":"?","facts":"a","moment":0}', bad("the facts are no list of texts")),
    checked('{"token":"?","facts":[%s],"moment":0}' % ",".join(['"a"'] * 129),
            bad("the facts are more or longer than a request may have")),
    checked('{"token":"%s","facts":[%s],"moment":0}' % (v2(b"alice", TWO[:1]), ",".join(
        ['"a"'] * 127 + ['"a = 1"'])), told('{"holds":[true]}')),
    checked('{"token":"?","moment":0}',
            refused(19, "the token is neither a bare form nor base64 text")),
    checked('{"token":"?","moment":0,"name":"bank"}', UNKNOWN_MEMBER),
    # ---- paths and methods of calls, and calls that aren't allowed
    ("mint", [(post("/mint/none", '{"identifier":"alice"}'), UNKNOWN),
              (post("/mint/", '{"identifier":"alice"}'), UNKNOWN),
              (post("/mint/bank/a", '{"identifier":"alice"}'), UNKNOWN),
              (post("/mint", '{"identifier":"alice"}'), UNKNOWN),
              (post("/attenuate", '{"token":"%s","caveats":["a"]}' % plain), UNKNOWN),
              (post("/inspect", '{"token":"%s"}' % plain), UNKNOWN),
              (get("/mint/bank"), response(405, [("allow", "POST")])),
              (get("/inspect"), UNKNOWN), (get("/verify/bank", token(plain)), ALICE),
              (post("/mint/shop", '{"identifier":"alice"}'), made(v2(b"alice", secret=b"shop")))]),
    ("attenuate inspect", [(post("/mint/bank", '{"identifier":"alice"}'), UNKNOWN),
                           (post("/inspect/", '{"token":"%s"}' % plain), UNKNOWN),
                           (get("/attenuate"), response(405, [("allow", "POST")])),
                           (get("/inspect", method="PUT"), response(405, [("allow", "POST")]))]),
    # ---- who may mint, and under which names
    ("mint no-mint", [(post("/mint/bank", '{"identifier":"alice"}'), UNKNOWN), (get("/mint/bank"), UNKNOWN)]),
    ("mint names=shop", [(post("/mint/bank", '{"identifier":"alice"}'), UNKNOWN),
                         (post("/mint/bank", "{}"), UNKNOWN), (post("/mint/none", "{}"), UNKNOWN),
                         (post("/mint/shop", '{"identifier":"alice"}'), made(v2(b"alice", secret=b"shop")))]),
    # ---- what a page in a browser may have had sent
    *(("port mint", [(sent("/mint/bank", MINT_BODY, host, *fields), want)]) for host, fields, want in BROWSERS),
    ("port inspect", [(sent("/inspect", "{}", "127.0.0.1", "Origin: null"), response(403)),
                      (sent("/inspect", "{}", "127.0.0.1"), response(415)),
                      (sent("/inspect", "{}", "127.0.0.1", SENDS_JSON), NO_TEXT),
                      (get("/verify/bank", token(plain), "Origin: http://x"), ALICE)]),
    ("port mint", [(["GET /mint/bank HTTP/1.1", "Host: [::1]:80", SENDS_JSON, ""], response(405, [("allow", "POST")]))]),
    ("mint", [(sent("/mint/bank", MINT_BODY, "evil.example", "Origin: http://evil.example"), made(plain))]),
    ("", [(post("/mint/bank", '{"identifier":"alice"}'), UNKNOWN),
          (post("/attenuate", '{"token":"%s","caveats":["a"]}' % plain), UNKNOWN),
          (post("/inspect", '{"token":"%s"}' % plain), UNKNOWN),
          (post("/check", '{"token":"%s","moment":0}' % plain), UNKNOWN)]),
]


def files():
    lines = [f"key bank {SECRET.hex()}", f"key bank {OLD.hex()}", f"key shop {b'shop'.hex()}"]
    out = ""
    for words, exchanges in ROWS:
        head = "== " + words
        lines.append(head)
        out += head + "\n"
        for request, answer in exchanges:
            lines += request
            out += answer
        out += "\n"
    return "\n".join(lines) + "\n", out


def faults():
    """Which files of try_http aren't what is made here, and how many there are."""
    given, wanted = files()
    made = {CRATE / "stdin": given, CRATE / "stdout": wanted}
    old = [path.name for path, text in made.items() if path.read_bytes() != text.encode()]
    return [f"crates/try_http/{name} is out of date: scripts/check/http_rows.py" for name in old], len(made)


def main():
    given, wanted = files()
    (CRATE / "stdin").write_bytes(given.encode())
    (CRATE / "stdout").write_bytes(wanted.encode())


if __name__ == "__main__":
    main()
