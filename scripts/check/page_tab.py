"""The page of `macaroond page`: a server of it, a tab that shows it, and tokens to paste there."""
import contextlib
import datetime
import http.client
import json
import pathlib
import re
import subprocess
import tempfile
import zoneinfo

from check import chromium
from check.page_stub import GENERATOR, chained

from macaroond import binary
from macaroond.base64text import encoded
from macaroond.parts import Caveat, Parts

SECRETS = {"bank": b"this is our super secret key; only we should know it", "shop": b"another long secret"}
ZONE = zoneinfo.ZoneInfo(chromium.ZONE)


class Page:
    """A server of the page, and a tab that shows it."""

    def __init__(self, tab, url):
        self.tab, self.url, self.address = tab, url, url.split("#")[0]

    def open(self):
        self.tab.go("about:blank")
        self.tab.go(self.url, self.address)
        self.tab.until("document.getElementById('verdict-words').innerText.trim() !== ''", True)

    def paste(self, token):
        """Gives the page no token, and then this one as a paste does, and waits until each was looked at."""
        self.forget_verdict()
        self.tab.value("{ const it = document.getElementById('token'); it.value = ''; it.dispatchEvent(new Event('input')); }")
        headline = "(document.querySelector('#verdict-words .headline') || {}).textContent"
        self.tab.until(f"{headline} === 'No token yet'", True)
        if token:
            self.forget_verdict()
            self.focus("token")
            self.tab.type(token)
            self.tab.until(f"![undefined, 'No token yet'].includes({headline})", True)

    def forget_verdict(self):
        """Takes the last verdict away, so that the next one is not taken for it."""
        self.tab.value("document.getElementById('verdict-words').replaceChildren()")

    def focus(self, field):
        self.tab.value(f"document.getElementById('{field}').focus()")

    def enter(self, field, text):
        self.focus(field)
        self.tab.type(text)
        self.tab.press("Enter")

    def click(self, selector):
        self.tab.value(f"document.querySelector({json.dumps(selector)}).click()")

    def text(self, selector):
        return self.tab.value(f"(document.querySelector({json.dumps(selector)}) || {{}}).innerText")

    def texts(self, selector):
        return self.tab.value(f"[...document.querySelectorAll({json.dumps(selector)})].map((it) => it.innerText)")

    def shows(self, selector, due):
        """The text at a selector once it is due."""
        return self.tab.until(f"(document.querySelector({json.dumps(selector)}) || {{}}).innerText", due)

    def states(self, due):
        return self.tab.until("[...document.querySelectorAll('#caveats li')].map((it) => it.dataset.state).join(' ')", due)

    def is_hidden(self, selector):
        return self.tab.value(f"document.querySelector({json.dumps(selector)}).offsetParent === null")

    def asked(self, method, path, body=None, **fields):
        """What the server answers to a request by hand, with the secret of the page."""
        return asked_at(self.url, method, path, body, {SECRET: secrets_in(self.url)[0], **fields})


# The field by which the page shows its secret.
SECRET = "Macaroond-Page"
URL = re.compile(r"http://127\.0\.0\.1:\d+/#([0-9a-f]{32})([0-9a-f]{32})")


def secrets_in(url):
    """The secret of the page, and that of who serves it."""
    return URL.fullmatch(url).groups()


def asked_at(url, method, path, body, fields):
    """What the server of a page answers to a request with these fields: status, fields and body."""
    address = url.removeprefix("http://").split("/")[0]
    stream = http.client.HTTPConnection(address, timeout=chromium.PATIENCE)
    with contextlib.closing(stream):
        stream.request(method, path, body, fields)
        reply = stream.getresponse()
        return reply.status, reply.headers, reply.read()


@contextlib.contextmanager
def serving(command, has_keys):
    """The URL of a page that is served, as it was printed, and the process."""
    with tempfile.TemporaryDirectory() as folder:
        keys = pathlib.Path(folder) / "keys"
        keys.touch(0o600)
        keys.write_text("".join(f"key {name} {secret.hex()}\n" for name, secret in SECRETS.items()))
        words = ["--keys", str(keys)] if has_keys else []
        run = subprocess.Popen([*command, *words], stdout=subprocess.PIPE, stderr=subprocess.PIPE, text=True)
        try:
            url = run.stdout.readline().strip()
            if not URL.fullmatch(url):
                raise SystemExit(f"{' '.join([*command, *words])} printed {url!r}: {run.stderr.read()}")
            yield url, run
        finally:
            run.kill()
            run.wait()
            run.stdout.close()
            run.stderr.close()


def parts(*caveats, identifier=b"alice", location=b"http://mybank/", secret=SECRETS["bank"]):
    caveats = [caveat if isinstance(caveat, bytes) else caveat.encode() for caveat in caveats]
    signature = chained(chained(GENERATOR, secret), identifier, *caveats)
    return Parts(location, identifier, tuple(map(Caveat, caveats)), signature)


def v2(*caveats, **how):
    return encoded(binary.write(parts(*caveats, **how))).decode()


def timed(seconds):
    return datetime.datetime.fromtimestamp(seconds, datetime.timezone.utc).strftime("%Y-%m-%dT%H:%M:%SZ")


def dated(seconds):
    """A moment as the page tells it."""
    return datetime.datetime.fromtimestamp(seconds, ZONE).strftime("%a, %-d %b %Y, %H:%M:%S ") + zone_of(seconds)


def zone_of(seconds):
    return datetime.datetime.fromtimestamp(seconds, ZONE).tzname()


def headline(page, due):
    return page.shows("#verdict-words .headline", due)
