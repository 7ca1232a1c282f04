"""The lines of the daemon's log: each line of the table in docs/OPERATING.md is provoked here, or named as one that
isn't."""
import contextlib
import json
import os
import pathlib
import re
import resource
import subprocess
import time

from check.daemon_rows import HELLO, MINT, NO_REQUEST, SLOW_TOKEN, TOKEN, placed
from common import KEYS, TOP, daemon, logged
from common.daemon import REST, awaited, connected, frame, put_keys, received, reply_to
from common.rows import in_folders, judged
from common.tokens import text_of, v2

import request

PAGE = TOP / "docs" / "OPERATING.md"
# How many seconds a line may take, on a machine that is busy with other work.
PATIENCE = 60
# Lines that no test provokes: what leads to them is memory or a thread that is refused in the midst of a run.
NOT_PROVOKED = {"connection_dropped"}
# How many requests are sent one after the other, each of which has its line.
EACH = 1_000
# How many are sent at once while nobody reads the lines: more than wait, and than the pipe to who reads them holds.
FLOOD = 5_000
# The fewest bytes that `--memory` takes, or has where it is left out.
MEMORY_MIN = 1 << 26
# How many connections end at once inside a frame; of each kind so many lines a second are printed.
TORN, LINES_MAX = 300, 10
# The most bytes of a line, and how many of them the value of a lone field has at least, where it is cut.
LINE_MAX, FIELD_LEAST = 1_024, 900
# What is said of a word behind `--log` that is none.
UNKNOWN = "what is logged besides is requests, mints or identifiers, or several of these with commas between them"
# The kinds that were seen, over all tests here.
SEEN = set()


class Log:
    """What a daemon's standard error has, a file."""

    def __init__(self, folder, name="log"):
        self.path = pathlib.Path(folder) / name
        self.file = open(self.path, "w")

    def text(self):
        return self.path.read_text()

    def lines(self):
        text = self.text()
        lines = logged.read_all(re.sub(r"(?m)^<\d>", "", text[: text.rfind("\n") + 1]))
        SEEN.update(line.what for line in lines)
        return lines

    def first(self, what):
        """The first line that tells this, once there is one."""
        return awaited(lambda: next((line for line in self.lines() if line.what == what), None))


def listening(log, *words, **how):
    return daemon.listening("--workers", "2", *words, stderr=log.file, **how)


def told(line, *keys):
    """The level of a line, and what it says under these keys."""
    return line and (line.level, *[line.fields.get(key) for key in keys])


def connections(folder):
    """Connections that end in a fault, at the limit, or after their time."""
    log = Log(folder)
    with listening(log, "--connections", "2", "--idle", "1") as (path, run):
        start = log.first("start")
        yield "start", told(start, "socket", "names", "workers"), ("info", path, "2", "2")
        yield "start: its memory", int(told(start, "memory")[1]) >= MEMORY_MIN, True
        yield "start: its version", f"macaroond {start.fields['version']}\n", daemon.version()
        with connected(path) as one, connected(path) as other:
            time.sleep(REST)
            one.sendall(frame(b""))
            received(one, len(NO_REQUEST))
            with connected(path) as third:
                yield "one gives way to a third", other.recv(1), b""
                due = ("warning", "connections", "2")
                yield "limit_reached", told(log.first("limit_reached"), "limit", "connections"), due
                one.sendall(bytes(3))
                one.close()
                fault = log.first("connection_fault")
                due = ("warning", "1", "1", "the stream ended inside a frame")
                yield "connection_fault", told(fault, "connection", "requests", "fault"), due
                yield "an idle one is closed", third.recv(1), b""
        idle = log.first("connection_idle")
        yield "connection_idle", told(idle, "connection", "requests", "fault"), ("info", "3", "0", None)
        yield "connection_idle: after its second", 900 <= int(idle.fields["millis"]) < 60_000, True
        run.terminate()
        yield "drain", told(log.first("drain"), "connections"), ("info", "0")
        yield "end", told(log.first("end"), "connections"), ("info", "0")
        yield "status", run.wait(PATIENCE), 0


def many_torn(folder):
    """A thousand faults are ten lines a second, and how many more there were."""
    log = Log(folder)
    with listening(log) as (path, _):
        for _ in range(TORN):
            with connected(path) as stream:
                stream.sendall(bytes(3))
        awaited(lambda: counted_of("connection_fault", log.lines()) >= TORN)
    lines = log.lines()
    yield "each is told or counted", counted_of("connection_fault", lines), TORN
    yield "left_out", told(log.first("left_out"), "kind"), ("warning", "connection_fault")
    seconds = [text[:19] for text in log.text().splitlines() if " connection_fault " in text]
    # Seconds of the clock are not those of the quota, so that two of these can lie in one of those.
    yield "at most ten a second", max(map(seconds.count, seconds)) <= 2 * LINES_MAX, True


def few_descriptors(folder):
    """A limit of descriptors that is low at the start, and one that is lowered later."""
    log = Log(folder)
    limited = lambda: resource.setrlimit(resource.RLIMIT_NOFILE, (128, 4096))
    with listening(log, "--loops", "1", preexec_fn=limited) as (path, run):
        yield "limit_low", told(log.first("limit_low"), "limit", "connections"), ("warning", "descriptors", "68")
        held = len(os.listdir(f"/proc/{run.pid}/fd"))
        resource.prlimit(run.pid, resource.RLIMIT_NOFILE, (held, 4096))
        with connected(path) as stream:
            yield "accept_fault", told(log.first("accept_fault")), ("error",)
            resource.prlimit(run.pid, resource.RLIMIT_NOFILE, (128, 4096))
            stream.settimeout(PATIENCE)
            stream.sendall(frame(b""))
            yield "and then it is served", received(stream, len(NO_REQUEST)), NO_REQUEST


def key_files(folder):
    """A key file whose path has a line feed, a quotation mark and an equals sign, which is read anew and refused."""
    path = pathlib.Path(folder) / 'a "key\n2026-01-01T00:00:00.000Z info file=x'
    path.write_text(KEYS.read_text())
    path.chmod(0o600)
    log = Log(folder)
    with listening(log, keys=str(path)):
        with open(path, "a") as file:
            file.write("# changed\n")
        yield "keys_read", told(log.first("keys_read"), "file", "names"), ("info", str(path), "2")
        path.write_text("key bank\n")
        due = ("error", str(path), "line 1: the line is not of the form `key NAME HEX`")
        yield "keys_refused", told(log.first("keys_refused"), "file", "fault"), due


def lists(folder):
    """A list of tokens that were taken back, which is read anew and refused."""
    path = pathlib.Path(folder, "revoked")
    put_keys(path, "# none\n")
    log = Log(folder)
    with listening(log, "--revoked", str(path)):
        put_keys(path, "revoked bank 616c696365\n")
        yield "revoked_read", told(log.first("revoked_read"), "file", "count"), ("info", str(path), "1")
        put_keys(path, "revoked bank\n")
        yield "revoked_refused", told(log.first("revoked_refused"), "file")[:2], ("error", str(path))


def long_path(folder):
    """A key file whose path has more bytes than a line may have, with bytes that are escaped."""
    path = pathlib.Path(folder).joinpath(*["=" * 200] * 8, "keys")
    path.parent.mkdir(parents=True)
    path.write_text(KEYS.read_text())
    path.chmod(0o600)
    log = Log(folder)
    with listening(log, keys=str(path)):
        with open(path, "a") as file:
            file.write("# changed\n")
        text = awaited(lambda: next((line for line in log.text().splitlines() if " keys_read " in line), None))
    yield "no longer than a line", len(text) < LINE_MAX, True
    shown = str(path).replace("=", r"\x3d")
    front = text.split(' file="')[1]
    yield "cut with a mark", front.endswith('" ...'), True
    front = front.removesuffix('" ...')
    yield "a front of the path", shown.startswith(front), True
    yield "as much as fits", len(front) > FIELD_LEAST, True
    yield "no escape in part", front.replace(r"\x3d", "").count("\\"), 0


def journal(folder):
    """Where standard error is the stream to systemd's journal, each line has its priority in front, and none where it
    was sent elsewhere."""
    for what, moved, due in (("priorities", 0, ("<6>", "<4>")), ("none of another stream", 1, ("20", "20"))):
        log = Log(folder)
        found = os.fstat(log.file.fileno())
        stream = f"{found.st_dev}:{found.st_ino + moved}"
        with listening(log, env={**os.environ, "JOURNAL_STREAM": stream}) as (path, _):
            with connected(path) as stream:
                stream.sendall(bytes(3))
            log.first("connection_fault")
        fronts = {line.split()[2]: line[: len(due[0])] for line in log.text().splitlines()}
        yield what, (fronts["start"], fronts["connection_fault"]), due


def naming(name):
    """A verify of a token under what may be no name, which the builder of requests refuses."""
    told = request.verify("x", TOKEN.decode(), 0)
    return told[:1] + bytes([len(name)]) + name + told[3:]


# The secret of `bank` in the key file, and caveats of which the last isn't satisfied.
SECRET = bytes.fromhex(KEYS.read_text().split("key bank ")[1].split()[0])
HELD = [b"time < 9999-01-01T00:00"] * 100 + [b"x"]
# Requests, the reply to each, and what its line says: what it asks for, which name, what it was told, and why.
REQUESTS = (
    (MINT, b"\x01" + TOKEN, ("mint", "bank", "token", None)),
    (request.verify("bank", TOKEN.decode(), 0), b"\x00", ("verify", "bank", "granted", None)),
    (request.verify("shop", TOKEN.decode()), bytes([23]), ("verify", "shop", "refused", "code=23")),
    (request.verify("nobody", TOKEN.decode(), 0), bytes([18]), ("verify", "nobody", "refused", "code=18")),
    # Tokens that stand where a name is to stand: that of README, and one of few letters, in V2 binary.
    (naming(TOKEN), bytes([18]), ("verify", None, "refused", "code=18")),
    (naming(b"AgIBYQAABiAA" + b"A" * 42), bytes([18]), ("verify", None, "refused", "code=18")),
    (b"", bytes([16]), ("nothing", None, "refused", "code=16")),
    (request.verify("bank", text_of(v2(SECRET, b"x", HELD)), 0), bytes([24, 0, 100]), ("verify", "bank", "unsatisfied", "caveat=100")),
    # A dear one, which a worker answers while its connection waits.
    (request.verify("bank", SLOW_TOKEN, 0), bytes([20]), ("verify", "bank", "refused", "code=20")),
    (MINT, b"\x01" + TOKEN, ("mint", "bank", "token", None)),
)


def said_of(lines, connection):
    """What lines say of the requests of a connection."""
    of = [it.fields for it in lines if it.what == "request" and it.fields.get("connection") == connection]
    return [(*map(fields.get, ("asks", "name", "verdict")), reason_in(fields)) for fields in of]


def reason_in(fields):
    """Why a request wasn't done, as its line says: one field at most."""
    return " ".join(f"{key}={fields[key]}" for key in ("code", "caveat", "status") if key in fields) or None


def await_said(log, connection, count):
    """The same, once there are so many."""
    awaited(lambda: len(said_of(log.lines(), connection)) >= count)
    return said_of(log.lines(), connection)


def left_out(log):
    """How many lines of requests were left out."""
    return sum(int(line.fields["count"]) for line in log.lines() if line.fields.get("kind") == "request")


def requests(folder):
    """Where that is asked for, each request has its line: on a stream of either version, in pieces, plain and wide."""
    log = Log(folder)
    frames = b"".join(frame(asked) for asked, _, _ in REQUESTS)
    due = [told for _, _, told in REQUESTS]
    with listening(log, "--log", "requests") as (path, _):
        with connected(path) as stream:
            for at in range(0, len(frames), 700):
                stream.sendall(frames[at : at + 700])
            replies = b"".join(frame(reply) for _, reply, _ in REQUESTS)
            yield "replies", received(stream, len(replies)), replies
            yield "a line for each request", await_said(log, "1", len(due)), due
        with connected(path) as stream:
            stream.sendall(HELLO + frames)
            replies = placed(*(reply for _, reply, _ in REQUESTS))
            yield "replies with their places", received(stream, len(replies)), replies
            yield "the same of version two", await_said(log, "2", len(due)), due
        with connected(path) as stream:
            for _ in range(EACH):
                stream.sendall(frame(b""))
                received(stream, len(NO_REQUEST))
            awaited(lambda: len(said_of(log.lines(), "3")) + left_out(log) >= EACH)
            yield "each has its line, or is counted", len(said_of(log.lines(), "3")) + left_out(log), EACH
            yield "a bound for other kinds isn't theirs", len(said_of(log.lines(), "3")) > LINES_MAX, True
    yield "no token", TOKEN.decode() in log.text(), False


def unread(_folder):
    """Where nobody reads the lines, those of requests leave room for others."""
    yield from flooded("requests", "request", frame(b""), NO_REQUEST)


def unread_mints(_folder):
    """The same of tokens that are minted."""
    yield from flooded("mints", "mint", frame(MINT), frame(b"\x01" + TOKEN))


def flooded(words, kind, asked, due):
    """A flood of requests, each of which has a line of this kind, or is counted."""
    reading, writing = os.pipe()
    os.set_blocking(reading, False)
    with daemon.listening("--workers", "2", "--loops", "1", "--log", words, stderr=writing) as (path, _):
        os.close(writing)
        with connected(path) as stream:
            stream.sendall(asked * FLOOD)
            received(stream, len(due) * FLOOD)
        with connected(path) as stream:
            stream.sendall(bytes(3))
        with connected(path) as stream:
            stream.sendall(asked)
            yield "no reply waits for a line", received(stream, len(due)), due
        lines = read_until(reading, lambda lines: counted_of(kind, lines) > FLOOD)
    os.close(reading)
    yield "each is told or counted, though nobody read", counted_of(kind, lines), FLOOD + 1
    faults = [line.fields["fault"] for line in lines if line.what == "connection_fault"]
    yield "a fault has room behind them", faults, ["the stream ended inside a frame"]


def read_until(reading, is_all):
    """The lines that come out of a pipe, until that is all."""
    text, until = b"", time.monotonic() + PATIENCE
    while not is_all(lines := logged.read_whole(text)) and time.monotonic() < until:
        with contextlib.suppress(BlockingIOError):
            text += os.read(reading, 65_536)
        time.sleep(0.02)
    return lines


def counted_of(kind, lines):
    """How many lines of this kind were printed or left out."""
    left_out = [int(line.fields["count"]) for line in lines if line.fields.get("kind") == kind]
    return sum(left_out) + sum(line.what == kind for line in lines)


def requests_over_http(folder):
    """The same of requests over HTTP, which have no number."""
    log, web = Log(folder), f"{folder}/web"
    words = ["--log", "requests", "--http-calls", f"unix:{web}", "--http-calls-allow", "mint,inspect", "--http-facts", "forwarded"]
    bearing = b"Authorization: Macaroon " + TOKEN + b"\r\n"
    posts = lambda path, body: b"POST %b HTTP/1.1\r\nHost: x\r\nContent-Length: %d\r\n\r\n%b" % (path, len(body), body)
    asked = (
        (b"GET /verify/bank HTTP/1.1\r\nHost: x\r\n" + bearing + b"\r\n", ("verify", "bank", "granted", None)),
        (b"GET /verify/shop HTTP/1.1\r\nHost: x\r\n" + bearing + b"\r\n", ("verify", "shop", "refused", "code=23")),
        (
            b"GET /verify/bank HTTP/1.1\r\nHost: x\r\nX-Forwarded-Uri: //x\r\n" + bearing + b"\r\n",
            ("verify", "bank", "unsatisfied", "status=403"),
        ),
        (b"GET /verify/bank HTTP/1.1\r\nHost: x\r\n\r\n", ("verify", "bank", "refused", "status=401")),
        (posts(b"/mint/bank", b'{"identifier":"x"}'), ("mint", "bank", "token", None)),
        (posts(b"/mint/bank", b"[]"), ("mint", "bank", "refused", "status=400")),
        (posts(b"/mint/none", b"{}"), ("mint", "none", "refused", "code=18")),
        (posts(b"/inspect", b'{"token":"AAAA"}'), ("inspect", None, "refused", "code=20")),
        (posts(b"/inspect", b'{"token":"' + TOKEN + b'"}'), ("inspect", None, "told", None)),
        (posts(b"/attenuate", b"{}"), ("verify", None, "refused", "status=404")),
        (b"GET /healthz HTTP/1.1\r\nHost: x\r\nConnection: close\r\n\r\n", None),
    )
    due = [told for _, told in asked if told]
    with listening(log, *words), connected(web) as stream:
        stream.sendall(b"".join(request for request, _ in asked))
        while stream.recv(65_536):
            pass
        yield "a line for each request", await_said(log, None, len(due)), due


# Identifiers with the value that a line has for each: bytes that are not plain, and none at all.
MINTED = {b"alice:5f3c": "alice:5f3c", b"a b=\"\n\xff": 'a b="\n\xff', b"": "", b"name=x": "name=x"}


def minted_of(lines):
    """What lines say of tokens that were minted: the connection, the name and the identifier."""
    return [tuple(map(it.fields.get, ("connection", "name", "identifier"))) for it in lines if it.what == "mint"]


def mints(folder):
    """Where that is asked for, each token that is minted has its line, and no other request; at every face."""
    log, web = Log(folder), f"{folder}/web"
    words = ["--log", "mints", "--http-calls", f"unix:{web}", "--http-calls-allow", "mint"]
    caveats = ["c" * 4000, "d" * 1000]
    with listening(log, *words) as (path, _):
        with connected(path) as stream:
            for identifier in MINTED:
                reply = reply_to(stream, request.mint("v2-binary", "bank", "here", f"hex:{identifier.hex()}"))
                yield f"{identifier}: a token", reply[:1], b"\x01"
            for refused in (request.mint("v2-binary", "none", "", "x"), request.mint("v2-binary", "bank", "", "i" * 5000), b""):
                yield "no token", reply_to(stream, refused)[0] >= 16, True
            reply_to(stream, request.verify("bank", SLOW_TOKEN, 0))
            wide = reply_to(stream, request.mint("v2-json", "bank", "", "wide", *caveats))
            yield "a wide one", wide[:1], b"\x01"
            reply_to(stream, request.mint("v2-binary", "bank", "", "i" * 4000))
            reply_to(stream, request.mint("v2-binary", "bank", "", "last"))
        due = [*MINTED.values(), "wide", None, "last"]
        awaited(lambda: len(minted_of(log.lines())) >= len(due))
        told = minted_of(log.lines())
        long = told[-2][2] or ""
        yield "a line for each token", [it[2] if it[2] != long else None for it in told], due
        yield "the longest is cut", (long == "i" * len(long), 800 < len(long) < 1000), (True, True)
        yield "with the connection and the name", {it[:2] for it in told}, {("1", "bank")}
        yield "and no other line", said_of(log.lines(), "1"), []
        with connected(web) as stream:
            drawn = []
            for body in (b'{"identifier":"over http"}', b"{}", b"[]"):
                head = b"POST /mint/bank HTTP/1.1\r\nHost: x\r\nContent-Length: %d\r\n\r\n" % len(body)
                stream.sendall(head + body)
                drawn.append(json.loads(stream.recv(65_536).partition(b"\r\n\r\n")[2]).get("identifier"))
        awaited(lambda: len(minted_of(log.lines())) >= len(due) + 2)
        yield "of HTTP too", minted_of(log.lines())[len(due) :], [(None, "bank", "over http"), (None, "bank", drawn[1])]
    both = Log(folder, "both")
    with listening(both, "--log", "mints,requests") as (path, _), connected(path) as stream:
        reply_to(stream, request.mint("v2-binary", "bank", "", "alice"))
        awaited(lambda: len(said_of(both.lines(), "1")) >= 1)
        yield "both kinds", (minted_of(both.lines()), said_of(both.lines(), "1")), ([("1", "bank", "alice")], [("mint", "bank", "token", None)])


# Identifiers of tokens, and what the line of a verify has of each: a long one is cut.
HOLDERS = {**MINTED, b"i" * 64: "i" * 64, b"i" * 65: "i" * 64, b"\x00" * 4000: "\x00" * 64}


def identifiers_of(lines, connection):
    """What lines of requests of a connection tell as identifiers."""
    of = [it.fields for it in lines if it.what == "request" and it.fields.get("connection") == connection]
    return [fields.get("identifier") for fields in of]


def identifiers(folder):
    """Where that is asked for, the line of a verify tells whose token it was, if its signature is right."""
    log, taken_back = Log(folder), pathlib.Path(folder, "revoked")
    put_keys(taken_back, "revoked bank 676f6e65\n")
    bare = lambda holder, *caveats: text_of(v2(SECRET, holder, caveats))
    asked = [(request.verify("bank", bare(holder), 0), shown) for holder, shown in HOLDERS.items()]
    asked += [
        (request.verify("bank", bare(b"alice", b"x"), 0), "alice"),
        (request.verify("bank", bare(b"gone", b"x"), "now"), "gone"),
        (request.verify("bank", text_of(v2(b"another secret", b"alice")), 0), None),
        (request.verify("shop", bare(b"alice"), 0), None),
        (request.verify("none", bare(b"alice"), 0), None),
        (request.verify("bank", "!!!!", 0), None),
        (request.verify("bank", SLOW_TOKEN, 0), None),
        (request.mint("v2-binary", "bank", "", "alice"), None),
        (request.attenuate("v2-binary", bare(b"alice")), None),
        (b"", None),
        (request.verify("bank", bare(b"last"), 0), "last"),
    ]
    due = [shown for _, shown in asked]
    with listening(log, "--log", "identifiers", "--revoked", str(taken_back)) as (path, _):
        for number, hello in (("1", b""), ("2", HELLO)):
            with connected(path) as stream:
                stream.sendall(hello + b"".join(frame(payload) for payload, _ in asked))
                awaited(lambda: len(identifiers_of(log.lines(), number)) >= len(due))
            yield f"identifiers on {number}", identifiers_of(log.lines(), number), due
        text = log.text()
        yield "what is cut has a mark", sum(line.endswith('" ...') for line in text.splitlines()), 4
        yield "no token", [payload for payload, shown in asked if shown and text_of(v2(SECRET, shown.encode())) in text], []
    other = Log(folder, "other")
    with listening(other, "--log", "requests,mints") as (path, _), connected(path) as stream:
        reply_to(stream, asked[0][0])
        yield "unasked, none", (await_said(other, "1", 1), identifiers_of(other.lines(), "1")), ([("verify", "bank", "granted", None)], [None])


# Values of `X-Request-Id`, and what the line has of each.
UUID, NGINX = "7c0e9d3a-51f6-4b0c-9f5e-2a64d1b8e730", "2f0c4a1be0b94a7f8c1d6c3f5e7a9b02"
IDS = {
    (UUID,): UUID,
    (NGINX,): NGINX,
    ("a.b_c-9",): "a.b_c-9",
    ("a" * 40,): "a" * 40,
    ("a" * 41,): None,
    ("a" * 43,): None,
    (TOKEN.decode(),): None,
    ("7F000001:8296_7F00001E",): None,
    ("a b",): None,
    ("a=b",): None,
    ("",): None,
    (UUID, UUID): None,
    (): None,
}


def ids_over_http(folder):
    """The line of a request over HTTP has the id that came with it, and never that of another."""
    log, http, web = Log(folder), f"{folder}/http", f"{folder}/web"
    words = ["--log", "requests", "--http", f"unix:{http}", "--http-calls", f"unix:{web}"]
    with listening(log, *words):
        for path, target, body in ((http, "GET /verify/bank", b""), (web, "POST /inspect", b"{}")):
            with connected(path) as stream:
                for values in IDS:
                    fields = "".join(f"X-Request-Id: {value}\r\n" for value in values)
                    head = f"{target} HTTP/1.1\r\nHost: x\r\n{fields}Content-Length: {len(body)}\r\n\r\n"
                    stream.sendall(head.encode() + body)
                    stream.recv(65_536)
        due = [*IDS.values()] * 2
        await_said(log, None, len(due))
        yield "ids", [it.fields.get("id") for it in log.lines() if it.what == "request"], due


def no_requests(folder):
    """Without that, none has; another word is refused."""
    log = Log(folder)
    with listening(log) as (path, run):
        with connected(path) as stream:
            stream.sendall(frame(b""))
            received(stream, len(NO_REQUEST))
        run.terminate()
        log.first("end")
    yield "no line", said_of(log.lines(), "1"), []
    for words in ("all", "", "requests,", "requests,all", "Mints"):
        run = daemon.refused(f"{folder}/socket", "--log", words)
        yield f"another word: {words}", (run.returncode, run.stderr), (2, f"error: {UNKNOWN}\n")


def replaced(folder):
    """A daemon whose place another one takes says so."""
    log = Log(folder)
    with listening(log) as (path, run):
        with daemon.running(path, "--replace", stderr=subprocess.DEVNULL):
            yield "replaced", told(log.first("replaced"), "socket"), ("info", path)
            yield "status", run.wait(PATIENCE), 0


def refused_step(folder):
    """A service manager that can't be told is logged, and the daemon serves."""
    log = Log(folder)
    with listening(log, env={**os.environ, "NOTIFY_SOCKET": f"{folder}/nobody"}) as (path, _):
        due = ("error", "the service manager isn't told: No such file or directory (os error 2)")
        yield "a manager that isn't there", told(log.first("system_fault"), "fault"), due
        with connected(path) as stream:
            stream.sendall(frame(b""))
            yield "a reply", received(stream, len(NO_REQUEST)), NO_REQUEST


def page():
    """The lines that the page lists are those that were seen, and those that are named as not provoked."""
    listed = set(re.findall(r"^\| `(?:info|warning|error) ([a-z_]+)", PAGE.read_text(), re.M))
    yield "the page lists each line", sorted(listed), sorted(SEEN | NOT_PROVOKED)


def faults():
    parts = [connections, many_torn, few_descriptors, replaced, refused_step, key_files, lists, long_path, journal]
    seen = list(in_folders(*parts, requests, unread, requests_over_http, mints, unread_mints, identifiers, ids_over_http, no_requests))
    return judged([*seen, *page()])
