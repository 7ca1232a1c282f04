#!/usr/bin/env python3
"""The page of `macaroond page`, in Chromium: what it shows of tokens of every form, what of hostile ones, and that it
can be used by keyboard, on a phone, in the dark and by a screen reader.

    page.py --stub                  by scripts/check/page_stub.py, which answers in Python
    page.py bin/macaroond page      by the program
    page.py --pictures ..           the same, and writes docs/page-light.png and docs/page-dark.png
    page.py --only=PART ..          a part alone, by its function's name; may be given often

Tokens are made by Python's `hmac` and the writers of the Python client.
"""
import contextlib
import http.server
import json
import pathlib
import re
import sys
import threading
import time

sys.path.insert(0, str(pathlib.Path(__file__).resolve().parents[1]))
from check import chromium
from check.page_looks import keyboard, looks, named, pictures
from check.page_stub import POLICY
from check.page_tab import Page, headline, parts, serving, v2
from check.page_tokens import caveats, forms, hostile, narrowed, refusals, times, with_keys, without_keys
from common import TOP

from macaroond import binary, jsontext, packets
from macaroond.base64text import encoded

STUB = [sys.executable, str(pathlib.Path(__file__).with_name("page_stub.py"))]
# Of a token with the caveats `a` and `time < 1970-01-01T00:01`: whether they hold.
CHECKS = (
    ({"moment": 59}, [False, True]),
    ({"moment": 60}, [False, False]),
    ({"moment": 2**63}, [False, False]),
    ({"facts": ["b", "a"], "moment": 0}, [True, True]),
    ({"facts": ["time < 1970-01-01T00:01"], "moment": 60}, [False, True]),
    ({"facts": ["a"] * 128, "moment": 60}, [True, False]),
)
NO_CHECKS = (
    {}, {"moment": -1}, {"moment": 1.5}, {"moment": "1"}, {"moment": None},
    {"moment": 1, "facts": "a"}, {"moment": 1, "facts": [1]}, {"moment": 1, "facts": None}, {"moment": 1, "facts": ["a"] * 129},
    {"moment": 1, "other": 1},
)
FILES_MAX = 50 * 1_024
PATHS = {"/": "text/html", "/page.css": "text/css", "/page.js": "text/javascript"}


def served(page):
    """The three files, and the fields that keep the page to them."""
    files = {path: page.asked("GET", path) for path in PATHS}
    for path, (status, fields, content) in files.items():
        yield f"{path}: status", status, 200
        yield f"{path}: kind", fields["Content-Type"].split(";")[0], PATHS[path]
        yield f"{path}: policy", fields["Content-Security-Policy"], POLICY
        yield f"{path}: printable ASCII", re.findall(rb"[^\n -~]", content), []
    size = sum(len(content) for _, _, content in files.values())
    yield f"{size} bytes are few", size <= FILES_MAX, True
    text = files["/"][2].decode()
    yield "no style and no handler in it", re.findall(r"\s(?:style|on[a-z]+)=", text), []
    yield "each script is a file", re.findall(r"<script(?! src=)", text), []
    yield "nothing from elsewhere", re.findall(r"https?://", text + files["/page.css"][2].decode()), []
    yield "another path", page.asked("GET", "/page.txt")[0], 404
    body = json.dumps({"token": v2()})
    yield "a call", page.asked("POST", "/inspect", body)[0], 200
    yield "from a page elsewhere", page.asked("POST", "/inspect", body, Origin="http://example.org")[0] == 200, False
    yield "by another name of this machine", page.asked("POST", "/inspect", body, Host="example.org")[0] == 200, False


def calls(page):
    """What the page asks, asked by hand."""
    caveats = ["a", "time < 1970-01-01T00:01"]
    token, narrow = parts(*caveats), parts(*caveats, "b")
    forms = {"v1-text": packets.write, "v2-text": binary.write, "v2-json": jsontext.write}
    texts = {form: encoded(write(token)).decode() for form, write in forms.items()}
    longer = {form: (200, {"token": encoded(write(narrow)).decode()}) for form, write in forms.items()}
    told = {"caveats": [{"text": caveat} for caveat in caveats], "identifier": "alice", "location": "http://mybank/"}
    for form, text in texts.items():
        due = {**told, "form": form, "signature": token.signature.hex()}
        yield f"an inspect of {form}", asked(page, "inspect", token=text), (200, due)
        yield f"an attenuate of {form}", asked(page, "attenuate", token=text, caveats=["b"]), longer[form]
        for to in forms:
            yield f"from {form} to {to}", asked(page, "attenuate", token=text, caveats=["b"], form=to), longer[to]
    for given, holds in CHECKS:
        found = asked(page, "check", token=texts["v2-text"], **{"facts": [], **given})
        yield f"a check with {str(given)[:60]}", found, (200, {"holds": holds})
    for given in NO_CHECKS:
        status, fault = asked(page, "check", token=texts["v2-text"], **{"facts": [], **given})
        yield f"no check with {str(given)[:60]}", (status, list(fault)), (400, ["reason"])
    refused = {"code": 19, "reason": "the token is neither a bare form nor base64 text"}
    for call, given in (("inspect", {}), ("check", {"facts": [], "moment": 1}), ("attenuate", {"caveats": ["a"]})):
        yield f"a refusal of {call}", asked(page, call, token="?", **given), (400, refused)
        status, _, content = page.asked("POST", f"/{call}", "[]")
        yield f"no object for {call}", (status, content), (400, b'{"reason":"the body is no JSON object"}')
        status, fields, _ = page.asked("GET", f"/{call}")
        yield f"a GET of {call}", (status, fields["Allow"]), (405, "POST")
    fault = {"reason": "the form is none of v1-text, v2-text and v2-json"}
    yield "no form", asked(page, "attenuate", token=texts["v2-text"], caveats=["b"], form="v3"), (400, fault)
    fault = {"reason": "there is no caveat to add"}
    yield "no caveat", asked(page, "attenuate", token=texts["v2-text"], caveats=[]), (400, fault)


def no_names(page):
    """Without keys there are no names."""
    for method, path in (("GET", "names"), ("POST", "verify/bank"), ("POST", "mint/bank")):
        yield path, page.asked(method, f"/{path}", "{}")[0], 404


def calls_of_names(page):
    """The same of what asks for a key."""
    status, _, content = page.asked("GET", "/names")
    yield "the names", (status, json.loads(content)), (200, {"names": ["bank", "shop"]})
    text = v2("a", "time < 1970-01-01T00:01")
    told = lambda **of: (200, {"granted": False, **of})
    unsatisfied = lambda at: told(code=24, caveat=at, reason=f"caveat {at} is not satisfied")
    signature = "the key does not give the signature of the token"
    rows = [
        ("granted", "bank", text, ["a"], 59, (200, {"granted": True})),
        ("a caveat", "bank", text, [], 59, unsatisfied(0)),
        ("a bound", "bank", text, ["a"], 60, unsatisfied(1)),
        ("another key", "shop", text, [], 59, told(code=23, reason=signature)),
        ("another name", "none", text, ["a"], 59, (404, {})),
    ]
    for name, key, token, facts, moment, due in rows:
        yield name, asked(page, f"verify/{key}", token=token, facts=facts, moment=moment), due
    mint = {"identifier": "alice", "location": "http://mybank/", "caveats": ["a"]}
    yield "a mint", asked(page, "mint/bank", **mint), (200, {"token": v2("a")})
    drawn = [asked(page, "mint/bank")[1].get("identifier", "") for _ in range(2)]
    yield "identifiers that are drawn", [len(it) for it in drawn] + [drawn[0] != drawn[1]], [32, 32, True]
    yield "no mint", asked(page, "mint/none", identifier="alice"), (404, {})


def asked(page, call, **members):
    """The status and the object that a call is answered with."""
    status, _, content = page.asked("POST", "/" + call, json.dumps(members))
    return status, json.loads(content or b"{}")


def kept(page):
    """Nothing is kept, nothing is asked elsewhere, no policy is broken, and nothing failed."""
    tab, token = page.tab, v2("a secret caveat")
    page.paste(token)
    page.enter("caveat", "b")
    tab.until("document.querySelectorAll('#copies button').length", 4)
    yield "the address", tab.value("location.href"), page.address
    yield "its history", tab.value("history.state"), None
    yield "cookies", tab.value("document.cookie"), ""
    kept = tab.value("[localStorage.length, ...Object.values(sessionStorage)]")
    yield "storage: the secrets of the page alone", kept, [0, "#" + page.url.split("#")[1]]
    yield "databases", tab.value("indexedDB.databases().then((it) => it.length)"), 0
    yield "the title", token in tab.value("document.title"), False
    sent = [event["request"]["url"] for event in tab.told_of("Network.requestWillBeSent")]
    asked = sorted({url.removeprefix(page.address) for url in sent if url != "about:blank" and not url.startswith("data:")})
    known = r"|page\.css|page\.js|here|names|inspect|check|attenuate|verify/(bank|shop)|mint/bank"
    yield "what was asked", [url for url in asked if not re.fullmatch(known, url)], []
    yield "no policy is broken", tab.value("broken"), []
    faults = [event["exceptionDetails"]["text"] for event in tab.told_of("Runtime.exceptionThrown")]
    yield "no fault", faults, []
    # A refusal's status stands in the browser's log, and so does a 404 for the names.
    entries = [event["entry"]["text"] for event in tab.told_of("Log.entryAdded")]
    yield "nothing else in the log", [it for it in entries if not re.search(r"status of 4(00|04|13)", it)], []
    tab.value("location.reload()")
    tab.until("document.readyState === 'complete' && document.getElementById('token').value === ''", True)
    yield "gone after a reload", tab.value("document.getElementById('token').value"), ""
    page.paste(token)
    yield "it asks still", page.states("fails"), "fails"


def unopened(page):
    """A page that was opened without what stands behind the address."""
    tab = page.tab
    tab.value("sessionStorage.clear()")
    tab.go("about:blank")
    tab.go(page.address)
    due = "This page is to be opened at the whole address that `macaroond page` printed."
    yield "it is told", headline(page, due), due
    tab.told_of("Network.requestWillBeSent").clear()
    tab.events.clear()
    page.click("#example")
    yield "it is told of a token", headline(page, due), due
    yield "nothing is asked", tab.told_of("Network.requestWillBeSent"), []
    tab.go(page.url, page.address)
    yield "it works once it is opened there", headline(page, "No token yet"), "No token yet"


def gone(page, run):
    """A server that ended, and another that took its port: it is asked whether it is the one, and no more."""
    tab = page.tab
    page.paste(v2("a"))
    run.kill()
    run.wait()
    with taken_over(int(page.address.rsplit(":", 1)[1].rstrip("/"))) as asked:
        due = "macaroond has ended, and this page asks nothing more. Start it again, and open the address that it prints."
        page.enter("fact", "b")
        yield "it is told", headline(page, due), due
        page.enter("fact", "c")
        page.paste(v2("b"))
        time.sleep(4)
        yield "it is told still", headline(page, due), due
        # A check that was under way may have asked beside the call.
        yield "what the other was asked", sorted(set(asked)), ["/here"]
        yield "how often", len(asked) <= 4, True
    yield "the secrets are forgotten", tab.value("sessionStorage.length"), 0


@contextlib.contextmanager
def taken_over(port):
    """Another program at a port, which answers 200 to all; what it was asked for."""
    asked = []

    class Other(http.server.BaseHTTPRequestHandler):
        def do_GET(self):
            asked.append(self.path)
            self.send_response(200)
            self.end_headers()
            self.wfile.write(b"{}")

        do_POST = do_GET

        def log_message(self, *_):
            pass

    with http.server.ThreadingHTTPServer(("127.0.0.1", port), Other) as server:
        threading.Thread(target=server.serve_forever, daemon=True).start()
        try:
            yield asked
        finally:
            server.shutdown()


PARTS = {
    False: (served, calls, no_names, forms, caveats, times, refusals, narrowed, without_keys, hostile, kept, unopened),
    True: (served, calls_of_names, with_keys, keyboard, named, looks, kept),
}


def rows(command, makes_pictures, only):
    """Each check with its part, what was found and what is due."""
    for has_keys, parts_of in PARTS.items():
        with serving(command, has_keys) as (url, run), chromium.tab() as tab:
            page = Page(tab, url)
            for part in (*parts_of, *([pictures] if makes_pictures and has_keys else [])):
                if only and part.__name__ not in only:
                    continue
                tab.sized(1_280, 900)
                tab.colored("light")
                page.open()
                yield from ((part.__name__, *row) for row in part(page))
            if not only:
                page.open()
                yield from (("gone", *row) for row in gone(page, run))


def compared(command, makes_pictures=False, only=()):
    """What the page of this command does otherwise, and how many checks were made."""
    wrong, count = [], 0
    for part, name, got, due in rows(command, makes_pictures, only):
        count += 1
        if got != due:
            wrong.append(f"{part}: {name}: {got!r}, and it should be {due!r}")
    return wrong, count


def faults():
    """What the program's page does otherwise, how many checks were made, and why they were left out."""
    if not chromium.path_of():
        return [], 0, ["there is no chromium (scripts/install_peers.sh)"]
    return compared([str(TOP / "bin" / "macaroond"), "page"])


def main(words):
    makes_pictures = "--pictures" in words
    only = [word.removeprefix("--only=") for word in words if word.startswith("--only=")]
    words = [word for word in words if word != "--pictures" and not word.startswith("--only=")]
    if not words:
        sys.exit(__doc__)
    if not chromium.path_of():
        sys.exit("there is no chromium (scripts/install_peers.sh)")
    wrong, count = compared(STUB if words == ["--stub"] else words, makes_pictures, only)
    print(*wrong, f"page: {count - len(wrong)} passed, {len(wrong)} failed", sep="\n")
    sys.exit(bool(wrong))


if __name__ == "__main__":
    main(sys.argv[1:])
