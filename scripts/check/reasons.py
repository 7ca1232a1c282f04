#!/usr/bin/env python3
"""Twelve reasons for which a request is refused, as each face tells them, and as the logs do.

    reasons.py

Frames tell the number of a reason, and the place of a caveat. HTTP tells a status and `Macaroon-Reason`, a call and
the page the number in JSON, and `macaroond verify --explain` the number, and what the token lacks in words. Whichever
face was asked, the line of the daemon's log alone tells which of the twelve it was, and by `--log identifiers` whose
token, where its signature is right. Over HTTP it has the id that the asker sent. What gateways and guards log is told by
reasons_beside.py, which is a part of this one.
"""
import json
import pathlib
import subprocess
import sys
import tempfile
import time

sys.path.insert(0, str(pathlib.Path(__file__).resolve().parents[1]))
from check import reasons_beside
from check.page_tab import SECRET as PAGE_SECRET
from check.page_tab import asked_at, secrets_in, serving
from check.reason_rows import CALLED, NO_NAME, REASONS, named, of_frame, of_log, of_page, of_whom, of_words, revoked_list
from common import daemon
from common.daemon import Daemon, awaited, connected, frame, put_keys
from common.rows import judged, of_each

import request

# What HTTP tells of a request: the fields of its facts, and where its path is told.
FACT, PATH, ID = "Macaroon-Fact", "X-Forwarded-Uri", "X-Request-Id"


class Refusing(Daemon):
    """A daemon that logs each request and identifiers, with a list of tokens that were taken back."""

    def __init__(self, folder):
        self.http, self.calls, self.revoked = f"{folder}/http", f"{folder}/calls", pathlib.Path(folder, "revoked")
        put_keys(self.revoked, revoked_list())
        web = ["--http", f"unix:{self.http}", "--http-facts", "header,forwarded"]
        web += ["--http-calls", f"unix:{self.calls}", "--http-calls-allow", "mint,attenuate"]
        super().__init__(folder, reasons_beside.KEYS, "--revoked", str(self.revoked), "--log", "identifiers", *web)

    def requests(self):
        """The lines of requests, as they stand in the log."""
        return [line for line in self.errors.read_text().splitlines() if " info request " in line]

    def line_of(self, ask):
        """What is answered, and the line that the log has of it: that may come behind the answer."""
        before, answer = len(self.requests()), ask()
        awaited(lambda: len(self.requests()) > before)
        return answer, self.requests()[before]


def asked(path, sent, is_whole):
    """What comes back on a connection of its own."""
    with connected(path) as stream:
        stream.sendall(sent)
        data = b""
        while not is_whole(data) and (piece := stream.recv(65_536)):
            data += piece
        return data


def id_of(reason):
    """By what a request over HTTP is told apart."""
    return f"of-{reason.what.replace(' ', '_')}".replace("'", "")


def by_frame(path, reason):
    """The payload of the reply to a verify."""
    sent = frame(request.verify(reason.name, reason.token, "now", *reason.facts))
    return asked(path, sent, lambda data: len(data) >= 4 and len(data) >= 4 + int.from_bytes(data[:4], "big"))[4:]


def by_http(path, reason):
    """The status of a response, and what it tells as its reason."""
    fields = ["Host: here", f"Authorization: Macaroon {reason.token}", *(f"{FACT}: {fact}" for fact in reason.facts)]
    fields += [f"{ID}: {id_of(reason)}"]
    fields += [f"{PATH}: {reason.path}"] if reason.path else []
    sent = "\r\n".join([f"GET /verify/{reason.name} HTTP/1.1", *fields, "", ""])
    head = asked(path, sent.encode(), lambda data: b"\r\n\r\n" in data).split(b"\r\n\r\n")[0].decode()
    told = dict(line.lower().split(": ", 1) for line in head.split("\r\n")[1:])
    return int(head.split(" ")[1]), told.get("macaroon-reason")


def due_of_http(reason):
    """A response says nothing of a token that is none under the name's keys."""
    if not reason.is_forbidden():
        return 401, None
    return 403, "path" if reason.path else reason.told()


def by_call(path, reason):
    """The status of a mint or of an attenuate, and the number that it tells."""
    where = "/attenuate" if reason.name == "bank" else f"/mint/{reason.name}"
    body = json.dumps({"token": reason.token, "caveats": ["a = b"]} if reason.name == "bank" else {})
    fields = f"Connection: close\r\n{ID}: {id_of(reason)}\r\nContent-Length: {len(body)}"
    sent = f"POST {where} HTTP/1.1\r\nHost: here\r\n{fields}\r\n\r\n{body}"
    head, _, told = asked(path, sent.encode(), lambda data: False).partition(b"\r\n\r\n")
    return int(head.split(b" ")[1]), json.loads(told)["code"] if told else None


def by_page(url, reason):
    """The status and the body that the page's own call is answered with."""
    body = {"token": reason.token, "facts": list(reason.facts), "moment": int(time.time())}
    found = asked_at(url, "POST", f"/verify/{reason.name}", json.dumps(body), {PAGE_SECRET: secrets_in(url)[0]})
    return found[0], found[2]


def by_words(one, reason):
    """How the command line ends, the line that it prints, and what it says of the caveats."""
    facts = [word for fact in reason.facts for word in ("--fact", fact)]
    words = ["verify", "--keys", str(one.keys), "--key", reason.name, "--revoked", str(one.revoked), "--explain", *facts, "-"]
    return subprocess.run(
        [daemon.PROGRAM, *words], input=reason.token, capture_output=True, text=True, check=False, timeout=daemon.PATIENCE,
    )


def told_by_daemon(one):
    """What its sockets and its addresses answer; and which reason the line of its log tells, by that line alone."""
    for reason in REASONS:
        reply, line = one.line_of(lambda: by_frame(one.path, reason))
        due = (reason.what, reason.what, reason.whose, None)
        yield f"a frame of {reason.what}", (named(of_frame(reply)), named(of_log(line)), *of_whom(line)), due
    for reason in REASONS:
        answer, line = one.line_of(lambda: by_http(one.http, reason))
        due = (due_of_http(reason), reason.what, reason.http_whose(), id_of(reason))
        yield f"HTTP of {reason.what}", (answer, named(of_log(line)), *of_whom(line)), due
    for reason in CALLED:
        answer, line = one.line_of(lambda: by_call(one.calls, reason))
        due = (404, None) if reason.what == NO_NAME else (400, reason.code)
        due = (due, reason.what, None, id_of(reason))
        yield f"a call of {reason.what}", (answer, named(of_log(line)), *of_whom(line)), due
    text = "\n".join(one.requests())
    yield "no further line", len(one.requests()), 2 * len(REASONS) + len(CALLED)
    yield "no token in the log", [it.what for it in REASONS if len(it.token) > 4 and it.token in text], []


def told_by_page(one):
    """What the page is told, which shows it in words; its keys are those of the daemon."""
    with serving([daemon.PROGRAM, "page", "--revoked", str(one.revoked)], True) as (url, _):
        for reason in REASONS:
            yield f"the page of {reason.what}", named(of_page(*by_page(url, reason))), reason.what


def told_by_words(one):
    """What the command line prints, and says of the caveats of a token."""
    for reason in REASONS:
        run = by_words(one, reason)
        yield f"the words of {reason.what}", (run.returncode, named(of_words(run.stdout))), (1, reason.what)
        due = reason.lacks, 2 if reason.lacks else 0
        yield f"what lacks: {reason.what}", (run.stderr[: len(reason.lacks)], run.stderr.count("\n")), due


def told_by_each():
    """What each face of the program tells, one after the other."""
    with tempfile.TemporaryDirectory() as folder:
        one = Refusing(folder).start()
        try:
            yield from told_by_daemon(one)
        finally:
            one.close()
        yield from told_by_page(one)
        yield from told_by_words(one)


def faults():
    """What is told otherwise than it must be, how many checks there were, and what was left out."""
    wrong, count = judged(of_each(told_by_each, reasons_beside.told_by_gateways, reasons_beside.told_by_guards))
    return wrong, count, reasons_beside.missing()


if __name__ == "__main__":
    wrong, count, skipped = faults()
    print("\n".join([*wrong, *skipped]) or f"{count} right")
    sys.exit(bool(wrong))
