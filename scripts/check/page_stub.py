#!/usr/bin/env python3
"""Answers as `macaroond page` does, in Python: the three files of the page, and its calls.

    page_stub.py [--address 127.0.0.1:PORT] [--keys FILE]

With it the page can be tried without the proved program. Tokens are read by the Python client.
"""
import argparse
import calendar
import hashlib
import hmac
import http.server
import json
import pathlib
import re
import secrets
import sys

sys.path.insert(0, str(pathlib.Path(__file__).resolve().parents[1]))
import common

from macaroond import binary, jsontext, packets, tokens
from macaroond.base64text import decoded, encoded
from macaroond.errors import BadToken
from macaroond.forms import Form
from macaroond.parts import Caveat, Parts

FOLDER = common.TOP / "crates" / "macaroond" / "page"
FILES = {
    "/": ("page.html", "text/html"),
    "/page.css": ("page.css", "text/css"),
    "/page.js": ("page.js", "text/javascript"),
}
POLICY = (
    "default-src 'none'; script-src 'self'; style-src 'self'; connect-src 'self'; img-src 'self' data:; "
    "base-uri 'none'; form-action 'none'; frame-ancestors 'none'"
)
REASONS = {
    18: "the key file has no key of this name",
    19: "the token is neither a bare form nor base64 text",
    20: "the bytes are in no form of a token",
    21: "a caveat of the token is third-party",
    22: "the token passes a limit",
    23: "the key does not give the signature of the token",
    26: "a first-party caveat of the token has a location",
}
WRITERS = {"v1-text": packets.write, "v2-text": binary.write, "v2-json": jsontext.write}
NAMES = {Form.V1_TEXT: "v1-text", Form.V2_BINARY: "v2-text", Form.V2_TEXT: "v2-text", Form.V2_JSON: "v2-json"}
MEMBERS = {
    "mint": ("identifier", "identifier64", "location", "caveats", "form"),
    "attenuate": ("token", "caveats", "form"),
    "inspect": ("token",),
    "check": ("token", "facts", "moment"),
    "verify": ("token", "facts", "moment"),
}
BOUND = re.compile(rb"time (<|>=) (\d{4})-(\d\d)-(\d\d)T(\d\d):(\d\d)(?::(\d\d))?Z?", re.ASCII)
BODY_MAX, FACTS_MAX, MOMENT_MAX = 65_536, 128, 2**64 - 1
GENERATOR = b"macaroons-key-generator".ljust(32, b"\0")


class Refused(Exception):
    """A status and what the body says."""


def refused(code, status=400):
    return Refused(status, {"code": code, "reason": REASONS[code]})


def demand(holds, reason):
    if not holds:
        raise Refused(400, {"reason": reason})


def chained(key, *texts):
    for text in texts:
        key = hmac.new(key, text, hashlib.sha256).digest()
    return key


def keys_of(path):
    """The root keys of each name of a key file."""
    found = {}
    for line in pathlib.Path(path).read_text().splitlines():
        if line.startswith("key "):
            _, name, secret = line.split(" ")
            found.setdefault(name, []).append(chained(GENERATOR, bytes.fromhex(secret)))
    return found


def bound_of(caveat):
    """The sign and the second of a bound of time, or None."""
    found = BOUND.fullmatch(caveat)
    if not found:
        return None
    year, month, day, hour, minute, second = (int(part or 0) for part in found.groups()[1:])
    is_leap = year % 4 == 0 and (year % 100 != 0 or year % 400 == 0)
    days = (31, 28 + is_leap, 31, 30, 31, 30, 31, 31, 30, 31, 30, 31)
    if not (1 <= month <= 12 and 1 <= day <= days[month - 1] and hour < 24 and minute < 60 and second < 60):
        return None
    # The calendar comes around after 400 years, and Python's begins with the year 1.
    if year == 0:
        return found[1], calendar.timegm((400, month, day, hour, minute, second)) - 146_097 * 86_400
    return found[1], calendar.timegm((year, month, day, hour, minute, second))


def holds(caveat, facts, moment):
    bound = bound_of(caveat)
    if caveat in facts:
        return True
    if bound is None:
        return False
    return moment < bound[1] if bound[0] == b"<" else moment >= bound[1]


def text_member(name, content):
    try:
        return {name: content.decode()}
    except UnicodeDecodeError:
        return {f"{name}64" if name != "text" else "bytes64": encoded(content).decode()}


def read(body):
    demand(isinstance(body.get("token"), str), "there is no text that is the token")
    try:
        return tokens.read(body["token"].encode("utf-8", "replace"))
    except BadToken as fault:
        raise refused(fault.code) from None


def texts(body, name, reason):
    found = body.get(name, [])
    demand(isinstance(found, list) and all(isinstance(text, str) for text in found), reason)
    return [text.encode("utf-8", "replace") for text in found]


def form_in(body, own):
    form = body.get("form", own)
    demand(form in WRITERS, "the form is none of v1-text, v2-text and v2-json")
    return form


def written(parts, form):
    content = encoded(WRITERS[form](parts))
    if not tokens.is_within_limits(parts) or len(content) > tokens.TOKEN_MAX:
        raise refused(22)
    return {"token": content.decode()}


def inspected(body):
    parts, form = read(body)
    return {
        "caveats": [text_member("text", caveat.identifier) for caveat in parts.caveats],
        "form": NAMES[form],
        **text_member("identifier", parts.identifier),
        "location": parts.location.decode(),
        "signature": parts.signature.hex(),
    }


def attenuated(body):
    demand(isinstance(body.get("token"), str), "there is no text that is the token")
    added = texts(body, "caveats", "the caveats are no list of texts")
    form_in(body, "v2-text")
    demand(added, "there is no caveat to add")
    parts, form = read(body)
    caveats = (*parts.caveats, *map(Caveat, added))
    return written(parts._replace(caveats=caveats, signature=chained(parts.signature, *added)), form_in(body, NAMES[form]))


def asked(body):
    """The facts and the moment of a check or a verify."""
    demand(isinstance(body.get("token"), str), "there is no text that is the token")
    facts = texts(body, "facts", "the facts are no list of texts")
    moment = body.get("moment")
    is_moment = type(moment) is int and 0 <= moment <= MOMENT_MAX
    demand(is_moment, "there is no number of seconds that is the moment")
    demand(len(facts) <= FACTS_MAX, "the facts are more or longer than a request may have")
    return facts, moment


def checked(body):
    facts, moment = asked(body)
    parts, _ = read(body)
    return {"holds": [holds(caveat.identifier, facts, moment) for caveat in parts.caveats]}


def verified(body, keys):
    facts, moment = asked(body)
    parts, _ = read(body)
    chain = [parts.identifier, *(caveat.identifier for caveat in parts.caveats)]
    if all(chained(key, *chain) != parts.signature for key in keys):
        return {"granted": False, "code": 23, "reason": REASONS[23]}
    for index, caveat in enumerate(parts.caveats):
        if not holds(caveat.identifier, facts, moment):
            return {"granted": False, "code": 24, "caveat": index, "reason": f"caveat {index} is not satisfied"}
    return {"granted": True}


def minted(body, keys):
    named = [name for name in ("identifier", "identifier64") if isinstance(body.get(name), str)]
    meant = [name for name in ("identifier", "identifier64") if name in body]
    demand(len(named) == len(meant) < 2, "there is to be one text, identifier or identifier64")
    identifier = body[named[0]].encode("utf-8", "replace") if named else secrets.token_hex(16).encode()
    if named == ["identifier64"]:
        identifier = decoded(identifier)
        demand(identifier is not None, "identifier64 is no base64url text")
    location = body.get("location", "")
    demand(isinstance(location, str), "the location is no text")
    caveats = texts(body, "caveats", "the caveats are no list of texts")
    signature = chained(keys[0], identifier, *caveats)
    return written(Parts(location.encode(), identifier, tuple(map(Caveat, caveats)), signature), form_in(body, "v2-text"))


class Answering(http.server.BaseHTTPRequestHandler):
    protocol_version = "HTTP/1.1"
    disable_nagle_algorithm = True
    wbufsize = -1
    keys: dict = {}
    # What the page shows, and what it is shown.
    secrets = secrets.token_hex(16), secrets.token_hex(16)

    def log_message(self, *_):
        pass

    def answer(self, status, content=b"", kind="application/json"):
        self.send_response(status)
        fields = {
            "Content-Type": f"{kind}; charset=utf-8" if kind.startswith("text/") else kind,
            "Content-Length": str(len(content)),
            "Content-Security-Policy": POLICY,
            "X-Content-Type-Options": "nosniff",
            "Referrer-Policy": "no-referrer",
            "Cache-Control": "no-store",
            "Cross-Origin-Resource-Policy": "same-origin",
            "Cross-Origin-Opener-Policy": "same-origin",
        }
        if status == 405:
            fields["Allow"] = "POST"
        for name, value in fields.items():
            self.send_header(name, value)
        self.end_headers()
        self.wfile.write(content)

    def is_shown(self, *sites):
        """Whether the request names this address, and no other page."""
        host, port = self.server.server_address
        origin = self.headers.get("Origin")
        is_own = self.headers.get("Host") == f"{host}:{port}" and origin in (None, f"http://{host}:{port}")
        return is_own and self.headers.get("Sec-Fetch-Site", "same-origin") in ("same-origin", *sites)

    def is_own(self):
        """Whether it comes from the page besides."""
        return self.is_shown() and self.headers.get("Macaroond-Page") == self.secrets[0]

    def do_GET(self):
        if self.path in FILES and self.is_shown("none"):
            name, kind = FILES[self.path]
            return self.answer(200, (FOLDER / name).read_bytes(), kind)
        if not self.is_own():
            return self.answer(403)
        if self.path == "/here":
            return self.answer(200, self.secrets[1].encode(), "text/plain")
        if self.path == "/names" and self.keys:
            return self.told({"names": sorted(self.keys)})
        self.answer(405 if self.path.strip("/").split("/")[0] in MEMBERS else 404)

    def do_POST(self):
        length = int(self.headers.get("Content-Length", 0))
        if length > BODY_MAX:
            self.close_connection = True
            return self.answer(413)
        content = self.rfile.read(length)
        if not self.is_own():
            return self.answer(403)
        try:
            self.told(self.called(content))
        except Refused as fault:
            self.told(fault.args[1], fault.args[0])
        except KeyError:
            self.answer(404)

    def told(self, reply, status=200):
        text = json.dumps(reply, ensure_ascii=False, sort_keys=True, separators=(",", ":"))
        self.answer(status, text.encode("utf-8", "surrogatepass"))

    def called(self, content):
        call, _, name = self.path[1:].partition("/")
        needs_key = call in ("mint", "verify")
        if bool(name) != needs_key:
            raise KeyError(self.path)
        keys = self.keys[name] if needs_key else []
        members = MEMBERS[call]
        try:
            body = json.loads(content)
        except ValueError:
            body = None
        demand(isinstance(body, dict), "the body is no JSON object")
        demand(all(member in members for member in body), "the body has a member that the call does not have")
        calls = {"inspect": inspected, "attenuate": attenuated, "check": checked}
        if needs_key:
            return {"mint": minted, "verify": verified}[call](body, keys)
        return calls[call](body)


def main():
    words = argparse.ArgumentParser()
    words.add_argument("--address", default="127.0.0.1:0")
    words.add_argument("--keys")
    given = words.parse_args()
    host, _, port = given.address.rpartition(":")
    Answering.keys = keys_of(given.keys) if given.keys else {}
    with http.server.ThreadingHTTPServer((host, int(port)), Answering) as server:
        server.daemon_threads = True
        print(f"http://{host}:{server.server_port}/#{''.join(Answering.secrets)}", flush=True)
        server.serve_forever()


if __name__ == "__main__":
    main()
