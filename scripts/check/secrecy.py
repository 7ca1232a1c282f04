#!/usr/bin/env python3
"""Nothing that is secret stands in a log, in the numbers or in a page: tokens, facts, texts of caveats and keys, each of
which has a random word in it, are brought over every face, with all logs on.

    secrecy.py

What is searched: the daemon's log and its pages, gateways' logs of accesses and of errors, what guards log, what the
page serves to everybody, and what `check` and `status` print. A mark is searched for in each part of it, as it is, in
escapes, in hexadecimal and in both alphabets of base64. What gateways and guards write is in secrecy_beside.py.
"""
import json
import pathlib
import subprocess
import sys
import tempfile

sys.path.insert(0, str(pathlib.Path(__file__).resolve().parents[1]))
from check import reasons_beside, secrecy_beside
from check.gateway_servers import asked, head
from check.marks import LOGGED, Marks, revoked_list, secrets
from check.page_tab import SECRET as PAGE_SECRET
from check.page_tab import URL, asked_at, secrets_in
from common import daemon
from common.daemon import PATIENCE, Daemon, connected, frame, put_keys, received
from common.rows import judged, of_each
from common.tokens import root_of, text_of, v1, v2

import request

# The pages of operators, and what the page of `macaroond page` serves to who asks for it.
PAGES = ("/metrics", "/status", "/healthz", "/connections")
FILES = ("/", "/page.css", "/page.js", "/names", "/other")
# The kinds of lines that are provoked here.
KINDS = {"request", "mint", "keys_refused", "keys_read", "connection_fault"}


def search_works():
    """A mark is found in each spelling, beside anything, and where a part of it was cut off."""
    marks = Marks()
    word = marks.word("a word").encode()
    for what, content in {
        "as it is": word, "cut": word[:13], "hexadecimal": word.hex().encode(), "in capitals": word.hex().upper().encode(),
        "V1": text_of(v1(b"s", b"i", [word])).encode(), "V2": text_of(v2(b"s", b"i", [word])).encode(),
        "V2 of a longer identifier": text_of(v2(b"s", b"ii", [word])).encode(), "of another": text_of(v2(b"s", b"iii", [word])).encode(),
        "escapes": "".join(f"\\x{byte:02x}" for byte in word).encode(),
    }.items():
        yield what, marks.found_in(b"a line " + content + b" of a log"), ["a word"]
    yield "not in another text", marks.found_in(word[:11] + b"-" * 1_000), []


class Marked(Daemon):
    """A daemon that logs all it can, with each of its faces, and a key that is marked."""

    def __init__(self, folder):
        self.http, self.calls, self.admin = (f"{folder}/{name}" for name in ("http", "calls", "admin"))
        self.own = Marks()
        secret = self.own.word("a key").encode()
        self.own.add("a root key", root_of(secret))
        self.given = secrets(secret)
        put_keys(f"{folder}/revoked", revoked_list())
        web = ["--http", f"unix:{self.http}", "--http-facts", "header,query,forwarded", "--http-admin", f"unix:{self.admin}"]
        web += ["--http-calls", f"unix:{self.calls}", "--http-calls-allow", "mint,attenuate,inspect,check"]
        super().__init__(folder, f"{request.key('bank', secret)}\n", "--revoked", f"{folder}/revoked", *LOGGED, *web)

    def row(self, what, content):
        """What of its key and of what was brought stands in these bytes."""
        return f"{what}, {len(content)} bytes", self.own.found_in(content) + self.given.marks.found_in(content), []


def payloads(given):
    """Requests in frames: of each kind, with a token in the place of a name, and cut."""
    for text in given.tokens:
        bare = "hex:" + text.encode().hex()
        whole = request.verify("bank", bare, "now", given.fact)
        yield whole
        yield whole[:-5]
        # The name's length and its bytes stand behind the kind: here is a token in their place.
        yield whole[:1] + bytes([min(len(text), 255)]) + text.encode()[:255] + whole[6:]
        yield request.verify("none", bare, "now", given.fact)
        yield request.attenuate("v2-text", bare, given.fact)
        yield request.mint("v2-text", "bank", "", "bob", given.fact)


def by_frames(path, given):
    """The last connection ends within its request."""
    for payload in payloads(given):
        with connected(path) as stream:
            stream.sendall(frame(payload))
            received(stream, int.from_bytes(received(stream, 4), "big"))
    with connected(path) as stream:
        stream.sendall(frame(request.verify("bank", given.tokens[0], "now", given.fact))[:-3])


def web_requests(given):
    """Requests over HTTP whose token stands where it belongs, and where it doesn't."""
    for text in given.tokens:
        bearing, fact = f"Authorization: Macaroon {text}", f"Macaroon-Fact: {given.fact}"
        yield head("/verify/bank", bearing, fact)
        yield head("/verify/none", f"Authorization: Bearer {text}", fact)
        yield head("/verify/bank", bearing, f"X-Forwarded-Uri: {given.path}//a", "X-Forwarded-Method: GET")
        yield head(f"/verify/bank?fact={given.fact.replace(' ', '+')}", bearing, f"X-Forwarded-Uri: {given.path}")
        yield head(f"/verify/{text}", bearing)
        yield head(f"/verify/bank{given.path}?access_token={text}", bearing, bearing)
        yield head(f"/{text}", bearing, f"Cookie: {text}", f"X-Request-Id: {text}")


def calls(given):
    """Calls in JSON, with members that they have and that they haven't."""
    for text in given.tokens:
        told = {"token": text, "caveats": [given.fact], "facts": [given.fact], "moment": 1}
        yield "/attenuate", {"token": text, "caveats": [given.fact]}
        yield "/inspect", {"token": text}
        yield "/check", {"token": text, "facts": [given.fact], "moment": 1}
        yield "/mint/bank", {"identifier": "bob", "caveats": [given.fact]}
        for target in ("/attenuate", "/inspect", "/check", "/mint/bank", f"/mint/{text}"):
            yield target, told


def by_calls(path, given):
    """Each is made whole, and with a body that is cut."""
    for target, members in calls(given):
        body = json.dumps(members).encode()
        for sent in (body, body[:-4]):
            asked(path, head(target, "Content-Type: application/json", method="POST", body=sent))


def printed(*words):
    """What the command line prints, on both of its outputs."""
    run = subprocess.run([daemon.PROGRAM, *words], capture_output=True, timeout=PATIENCE)
    return run.stdout + run.stderr


def key_files(one):
    """What `check` prints of key files with a fault, which the daemon refuses meanwhile, and of a good one."""
    good = one.keys.read_text().rstrip("\n")
    name, digits = good.split()[1:]
    faulty = (f"{good} more\n", f"{good}zz\n", f"key {digits} {name}\n", f"{digits}\n", f"{good}\n{good}\n{good}\n")
    for count, text in enumerate((*faulty, f"{good}\n# the same\n"), start=1):
        one.put_keys(text)
        yield printed("check", "--keys", str(one.keys))
        one.await_told(count)


def body_of(path, sent):
    """All that comes back."""
    with connected(path) as stream:
        stream.sendall(sent)
        return b"".join(iter(lambda: stream.recv(65_536), b""))


def of_daemon():
    """The daemon's log, its pages, and what the commands of operators print."""
    with tempfile.TemporaryDirectory() as folder:
        one = Marked(folder).start()
        try:
            by_frames(one.path, one.given)
            for sent in web_requests(one.given):
                asked(one.http, sent)
            by_calls(one.calls, one.given)
            for told in key_files(one):
                yield one.row("check", told)
            for page in PAGES:
                yield one.row(page, body_of(one.admin, head(page)))
            for words in ([], ["--prometheus"], ["--connections"]):
                yield one.row(f"status {words}", printed("status", "--socket", one.path, *words))
        finally:
            one.end()
        yield "all was logged", KINDS - {line.what for line in one.lines()}, set()
        yield one.row("its log", one.errors.read_bytes())


def of_page():
    """What the page serves to everybody, and prints, while who has its URL asks it all that it answers."""
    with tempfile.TemporaryDirectory() as folder:
        one = Marked(folder)
        command = [daemon.PROGRAM, "page", "--keys", str(one.keys), "--revoked", f"{folder}/revoked"]
        with daemon.ending(daemon.begun(command)) as run:
            url = run.first.strip()
            yield "its URL is printed", URL.fullmatch(url) is not None, True
            shown, port = {PAGE_SECRET: secrets_in(url)[0]}, int(url.split("/#")[0].rpartition(":")[2])
            fields = [f"Host: 127.0.0.1:{port}", *(": ".join(pair) for pair in shown.items())]
            for target, members in calls(one.given):
                for where in (target, "/verify/bank"):
                    asked(port, head(where, *fields, method="POST", body=json.dumps(members).encode()))
            for path in FILES:
                _, fields, content = asked_at(url, "GET", path, None, shown)
                yield one.row(path, str(fields).encode() + content)
            run.kill()
            yield one.row("what it prints", (run.stdout.read() + run.stderr.read()).encode())


def faults():
    """What stands where it mustn't, how much was searched, and what was left out."""
    beside = (secrecy_beside.of_gateways, secrecy_beside.of_guards)
    return *judged(of_each(search_works, of_daemon, of_page, *beside)), reasons_beside.missing()


if __name__ == "__main__":
    wrong, count, skipped = faults()
    print("\n".join([*wrong, *skipped]) or f"{count} right")
    sys.exit(bool(wrong))
