"""Who may ask the page of `macaroond page`: whoever has the URL that it printed. Another user's program, a page elsewhere
and a name that was pointed at this machine get 403 and nothing else, and connections that are silent shut nobody out.

    page_asking.py
"""
import contextlib
import json
import os
import socket
import tempfile
import time

from check.page_tab import SECRET, SECRETS, asked_at, secrets_in, serving, v2
from common import TOP
from common.daemon import REST, put_keys
from common.rows import judged

COMMAND = [str(TOP / "bin" / "macaroond"), "page"]
NOTHING = (403, b"")
# A user who has no file and no process of whoever runs this.
STRANGER = 65_534
# As many connections as there may be, and some more.
SILENT = 80
MINT = {"identifier": "mallory"}
ASKED = (
    ("GET", "/names", None), ("GET", "/here", None), ("GET", "/other", None), ("GET", "/mint/bank", None),
    ("POST", "/mint/bank", MINT), ("POST", "/mint/none", MINT),
    ("POST", "/verify/bank", {"token": v2(), "facts": [], "moment": 1}),
    ("POST", "/check", {"token": v2(), "facts": [], "moment": 1}),
    ("POST", "/inspect", {"token": v2()}), ("POST", "/attenuate", {"token": v2(), "caveats": ["a"]}),
)
FILES = ("/", "/page.css", "/page.js")


def answer(url, method, path, body, fields):
    status, _, content = asked_at(url, method, path, body and json.dumps(body), fields)
    return status, content


def as_stranger(work):
    """What the work gives as another user."""
    reads, writes = os.pipe()
    child = os.fork()
    if child == 0:
        status = 1
        with contextlib.suppress(Exception):
            os.setgroups([])
            os.setresgid(STRANGER, STRANGER, STRANGER)
            os.setresuid(STRANGER, STRANGER, STRANGER)
            os.write(writes, json.dumps(work()).encode())
            status = 0
        os._exit(status)
    os.close(writes)
    with os.fdopen(reads, "rb") as pipe:
        told = pipe.read()
    os.waitpid(child, 0)
    return json.loads(told or b"null")


def another_user(url):
    """A program of another user, which finds the port as anybody does."""
    def work():
        found = (answer(url, *asked, {}) for asked in ASKED)
        return [[status, content.decode()] for status, content in found]

    # Made first as oneself, which reads the modules that another user may not be able to.
    yield "all that an own program asks", work(), [[403, ""]] * len(ASKED)
    yield "all that it asks", as_stranger(work), [[403, ""]] * len(ASKED)


def another_secret(url):
    """What isn't the secret, whole and alone."""
    own, others = secrets_in(url)
    texts = {
        "none": {}, "an empty one": {SECRET: ""}, "its front": {SECRET: own[:-1]}, "one digit": {SECRET: own[0]},
        "it and more": {SECRET: own + "0"}, "in capitals": {SECRET: own.upper() + "A"}, "zeros": {SECRET: "0" * 32},
        "the daemon's": {SECRET: others}, "both": {SECRET: own + others}, "twice": {SECRET: f"{own}, {own}"},
        "in another field": {"Authorization": own},
    }
    for name, fields in texts.items():
        for asked in ASKED:
            yield f"{name}: {asked[:2]}", answer(url, *asked, fields), NOTHING
    yield "its own", answer(url, "GET", "/here", None, {SECRET: own}), (200, others.encode())
    status, content = answer(url, "POST", "/mint/bank", MINT, {SECRET: own})
    yield "a mint by its own", (status, list(json.loads(content))), (200, ["token"])


def another_page(url):
    """A page elsewhere, with the secret and without: by its own name, by one that is pointed here, and in a frame."""
    own, _ = secrets_in(url)
    here = url.removeprefix("http://").split("/")[0]
    port = here.rsplit(":", 1)[1]
    pages = {
        "rebinding": {"Host": f"evil.example:{port}"},
        "rebinding, as its own origin": {"Host": f"evil.example:{port}", "Origin": f"http://evil.example:{port}"},
        "another origin": {"Origin": "http://evil.example"}, "no origin": {"Origin": "null"},
        "another port": {"Origin": "http://127.0.0.1:1"}, "https": {"Origin": f"https://{here}"},
        "another site": {"Sec-Fetch-Site": "cross-site"}, "the same site": {"Sec-Fetch-Site": "same-site"},
        "two sites": {"Sec-Fetch-Site": "same-origin, cross-site"},
    }
    for name, fields in pages.items():
        for asked in ASKED:
            yield f"{name}: {asked[:2]}", answer(url, *asked, {SECRET: own, **fields}), NOTHING
        for path in FILES:
            yield f"{name}: {path}", answer(url, "GET", path, None, fields), NOTHING
    yield "a person, for a call", answer(url, "GET", "/names", None, {SECRET: own, "Sec-Fetch-Site": "none"}), NOTHING
    for site in ("none", "same-origin"):
        for path in FILES:
            yield f"{site}: {path}", answer(url, "GET", path, None, {"Sec-Fetch-Site": site})[0], 200
    own_page = {SECRET: own, "Sec-Fetch-Site": "same-origin", "Origin": f"http://{here}"}
    yield "its own page", answer(url, "GET", "/names", None, own_page)[0], 200
    fields = asked_at(url, "GET", "/", None, {})[1]
    yield "no hold on its window", fields["Cross-Origin-Opener-Policy"], "same-origin"


def silent(url):
    """Connections that bring nothing, or the front of a request."""
    host, port = url.removeprefix("http://").split("/")[0].rsplit(":", 1)
    own, others = secrets_in(url)
    with contextlib.ExitStack() as held:
        for index in range(SILENT):
            stream = held.enter_context(socket.create_connection((host, int(port)), 20))
            if index % 2:
                stream.sendall(b"G")
        time.sleep(REST)
        for _ in range(3):
            yield "it is served beside them", answer(url, "GET", "/here", None, {SECRET: own}), (200, others.encode())


def starts():
    """Each start has secrets of its own."""
    with serving(COMMAND, True) as (one, _), serving(COMMAND, True) as (other, _):
        found = {*secrets_in(one), *secrets_in(other)}
        yield "secrets of two starts", len(found), 4
        yield "another start's", answer(other, "GET", "/here", None, {SECRET: secrets_in(one)[0]}), NOTHING


def listed():
    """Of a list that was read at the start, each token is refused, whatever its caveats, and no other one."""
    revoked = {"granted": False, "code": 29, "reason": "the token was taken back"}
    unsatisfied = {"granted": False, "code": 24, "caveat": 0, "reason": "caveat 0 is not satisfied"}
    cases = (
        ("listed", "bank", v2(), revoked), ("narrowed", "bank", v2("a"), revoked),
        ("another's", "bank", v2(identifier=b"bob"), {"granted": True}),
        ("another's that is narrowed", "bank", v2("a", identifier=b"bob"), unsatisfied),
        ("of another name", "shop", v2(secret=SECRETS["shop"]), {"granted": True}),
    )
    with tempfile.TemporaryDirectory() as folder:
        put_keys(f"{folder}/revoked", f"revoked bank {b'alice'.hex()}\n")
        with serving([*COMMAND, "--revoked", f"{folder}/revoked"], True) as (url, _):
            fields = {SECRET: secrets_in(url)[0]}
            for name, key, token, due in cases:
                status, content = answer(url, "POST", f"/verify/{key}", {"token": token, "facts": [], "moment": 1}, fields)
                yield name, (status, json.loads(content)), (200, due)


def rows():
    is_root = os.geteuid() == 0
    with serving(COMMAND, True) as (url, _):
        for part in (*([another_user] if is_root else []), another_secret, another_page, silent):
            yield from ((part.__name__, *row) for row in part(url))
    for part in (starts, listed):
        yield from ((part.__name__, *row) for row in part())


def faults():
    """What the page tells whom it shouldn't, how many checks were made, and what was left out."""
    seen = ((f"{part}: {name}", got, due) for part, name, got, due in rows())
    return *judged(seen), [] if os.geteuid() == 0 else ["another user's program asks the page (it takes root)"]
