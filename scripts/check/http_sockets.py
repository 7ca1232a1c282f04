"""The sockets over HTTP of `macaroond listen`: what is answered there, who is dropped, and how they end."""
import contextlib
import json
import pathlib
import re
import signal
import socket
import stat
import tempfile
import time

from check.http_rows import README, v2
from common.daemon import PATIENCE, REST, Daemon, awaited, connected, free_port, refused
from common.rows import judged, of_each

import request

# The secret of the token of README's text, and of the others that are made here.
SECRET = "this is our super secret key; only we should know it"
# How many seconds a peer may bring no whole request, in the runs that try that.
PATIENT = 2
# How many clients wait at each socket as a daemon is told to end.
WAITING = 20
# What a request head is ended by.
END = b"\r\n\r\n"


class Served(Daemon):
    """A daemon that listens over HTTP too, at a Unix socket and at a port of this machine."""

    def __init__(self, folder, *words, names=("bank",)):
        self.http, self.port = f"{folder}/http", free_port()
        super().__init__(folder, key_file(names), "--http", f"unix:{self.http},127.0.0.1:{self.port}", *words)

    def write_keys(self, *names):
        self.put_keys(key_file(names))

    def unix(self):
        return connected(self.http)

    def tcp(self):
        return socket.create_connection(("127.0.0.1", self.port), PATIENCE)

    def told_to_end(self):
        """How long it took to its end, and with which status it ended."""
        begin = time.monotonic()
        self.run.send_signal(signal.SIGTERM)
        status = self.run.wait(PATIENCE)
        return time.monotonic() - begin, status


def key_file(names):
    return "".join(f"{request.key(name, SECRET)}\n" for name in names)


@contextlib.contextmanager
def listening(*words, **how):
    with tempfile.TemporaryDirectory() as folder:
        daemon = Served(folder, *words, **how)
        try:
            yield daemon.start()
        finally:
            daemon.close()


def asking(target, *fields, version="1.1", method="GET"):
    lines = [f"{method} {target} HTTP/{version}", "Host: macaroond", *fields]
    return "\r\n".join(lines).encode() + END


def bearing(token, *fields, target="/verify/bank", **how):
    return asking(target, f"Authorization: Macaroon {token}", *fields, **how)


def response(stream, rest=b""):
    """The next response: its status, its fields, its body, and what came behind it."""
    while END not in rest:
        piece = stream.recv(65_536)
        if not piece:
            return None, {}, rest, b""
        rest += piece
    head, rest = rest.split(END, 1)
    lines = head.decode().split("\r\n")
    fields = dict(line.split(": ", 1) for line in lines[1:])
    length = int(fields.get("content-length", 0))
    while len(rest) < length:
        rest += stream.recv(65_536)
    return int(lines[0].split()[1]), fields, rest[:length], rest[length:]


def asked(stream, text):
    """The status of what a request is answered."""
    stream.sendall(text)
    return response(stream)[0]


def end_of(stream):
    """How many seconds pass until the other end closes."""
    begin = time.monotonic()
    try:
        while stream.recv(65_536):
            pass
    except ConnectionError:
        pass
    return time.monotonic() - begin


def statuses():
    """Each status that docs/HTTP.md tells, over both kinds of socket, one behind the other."""
    good, narrowed = README, v2(b"alice", [b"account = 17"])
    cases = [
        ("granted", bearing(good), 200),
        ("no token", asking("/verify/bank"), 401),
        ("no text of a token", bearing("?"), 401),
        ("another secret", bearing(v2(b"alice", secret=b"other")), 401),
        ("another scheme", asking("/verify/bank", "Authorization: Basic eDp5"), 401),
        ("a caveat without its fact", bearing(narrowed), 403),
        ("a caveat with its fact", bearing(narrowed, "Macaroon-Fact: account = 17"), 200),
        ("another name", bearing(good, target="/verify/none"), 401),
        ("another name and no token", asking("/verify/none"), 401),
        ("another path", asking("/"), 404),
        ("too many facts", bearing(good, *["Macaroon-Fact: a"] * 50), 200),
        ("health", asking("/healthz"), 200),
        ("numbers", asking("/metrics"), 200),
        ("any method", bearing(good, method="POST"), 200),
    ]
    with listening("--http-facts", "header") as daemon:
        for where, connect in (("Unix", daemon.unix), ("TCP", daemon.tcp)):
            with connect() as stream:
                for name, text, status in cases:
                    yield f"{name} over {where}", asked(stream, text), status
            with connect() as stream:
                stream.sendall(b"".join(text for _, text, _ in cases))
                found, rest = [], b""
                for _ in cases:
                    status, _, _, rest = response(stream, rest)
                    found.append(status)
                yield f"a pipeline over {where}", found, [status for _, _, status in cases]
            with connect() as stream:
                stream.sendall(bearing(good, version="1.0"))
                yield f"HTTP/1.0 over {where}", response(stream)[0], 200
                yield f"its end over {where}", end_of(stream) < 1, True
            with connect() as stream:
                stream.sendall(b"no request at all" + END + b"x" * 20_000)
                yield f"no request over {where}", response(stream)[0], 400
                yield f"and its end over {where}", end_of(stream) < PATIENCE, True
        yield "the mode of the socket", stat.S_IMODE(pathlib.Path(daemon.http).stat().st_mode), 0o600


def rules():
    """What options say of the face."""
    narrowed = bearing(v2(b"alice", [b"account = 17"]), "Macaroon-Fact: account = 17")
    with listening() as daemon, daemon.tcp() as stream:
        yield "no source of facts", asked(stream, narrowed), 403
    with listening("--http-granted", "204", "--http-facts", "query,forwarded", "--http-mode", "666") as daemon:
        with daemon.tcp() as stream:
            yield "granted by 204", asked(stream, bearing(README)), 204
            yield "a source that isn't named", asked(stream, narrowed), 403
            query = bearing(v2(b"alice", [b"account = 17"]), target="/verify/bank?fact=account+%3d+17")
            yield "a fact of the query", asked(stream, query), 204
        yield "a mode", stat.S_IMODE(pathlib.Path(daemon.http).stat().st_mode), 0o666


def calling(target, body, host="127.0.0.1", *fields):
    lines = [f"POST {target} HTTP/1.1", f"Host: {host}", f"Content-Length: {len(body)}", *fields]
    return "\r\n".join(lines).encode() + END + body


MINT = b'{"identifier":"alice"}'
SENDS_JSON = "Content-Type: application/json"


def names():
    """A name that isn't allowed is told as one that has no key, whoever asks and with whatever token."""
    shop = v2(b"alice")
    words = ("--names", "bank", "--http-names", "shop")
    with listening(*words, names=("bank", "shop")) as daemon:
        for where, connect in (("Unix", daemon.unix), ("TCP", daemon.tcp)):
            with connect() as stream:
                for text in ("", f"Authorization: Macaroon {shop}", "Authorization: Bearer ?"):
                    told = []
                    for name in ("bank", "none"):
                        stream.sendall(asking(f"/verify/{name}", *([text] if text else [])))
                        told.append(response(stream))
                    yield f"{text[:24]!r} over {where}", told[0], told[1]
                    yield f"{text[:24]!r} over {where}: its status", told[0][0], 401
                yield f"a name that is allowed over {where}", asked(stream, bearing(shop, target="/verify/shop")), 200


def gateways_never_mint():
    """Calls are answered at their own addresses alone, under the names of these, and a gateway's mints never."""
    with tempfile.TemporaryDirectory() as place:
        calls, port = f"{place}/calls", free_port()
        words = ["--http-calls", f"unix:{calls},127.0.0.1:{port}", "--http-calls-allow", "mint,inspect"]
        words += ["--http-calls-names", "shop", "--http-calls-mode", "660"]
        with listening(*words, names=("bank", "shop")) as daemon:
            for where, connect in (("Unix", daemon.unix), ("TCP", daemon.tcp)):
                with connect() as stream:
                    for target in ("/mint/bank", "/mint/shop", "/mint/none", "/attenuate", "/inspect", "/check"):
                        yield f"{target} of a gateway over {where}", asked(stream, calling(target, MINT)), 404
                    yield f"a verify over {where}", asked(stream, bearing(README)), 200
            yield "the mode of the calls' socket", stat.S_IMODE(pathlib.Path(calls).stat().st_mode), 0o660
            with connected(calls) as stream:
                for target, due in (("/mint/shop", 200), ("/mint/bank", 404), ("/mint/none", 404), ("/check", 404)):
                    yield f"{target} at the calls' socket", asked(stream, calling(target, MINT)), due
                yield "a verify under a name of gateways", asked(stream, bearing(README)), 401
                yield from drawn_identifiers(stream)
            yield from browsers(port)
            daemon.run.send_signal(signal.SIGTERM)
            daemon.run.wait(PATIENCE)
            error = daemon.errors.read_text()
            warned = f"warning: 127.0.0.1:{port}: every user of this machine may have tokens minted here"
            yield f"a port that mints is warned of: {error[:200]}", warned in error, True


def drawn_identifiers(stream):
    """A mint that says no identifier gets 32 digits, each time others, and is told them."""
    seen = []
    for _ in range(100):
        stream.sendall(calling("/mint/shop", b"{}"))
        told = json.loads(response(stream)[2])
        seen.append(told["identifier"])
        if v2(told["identifier"].encode()) != told["token"]:
            yield "a token with the identifier that is told", told, None
    yield "32 digits", [it for it in seen if not re.fullmatch("[0-9a-f]{32}", it)], []
    yield "each time others", len({*seen}), len(seen)


def browsers(port):
    """A page of another origin, by a name that was pointed here too, has nothing minted at a port."""
    cases = [
        ("a program", "127.0.0.1", [SENDS_JSON], 200),
        ("a program that names the port", f"localhost:{port}", [SENDS_JSON], 200),
        ("no type", "127.0.0.1", [], 415),
        ("a form", "127.0.0.1", ["Content-Type: text/plain"], 415),
        ("a form of another page", "127.0.0.1", ["Content-Type: text/plain", "Origin: http://evil.example"], 403),
        ("a page in a sandbox", f"localhost:{port}", [SENDS_JSON, "Origin: null"], 403),
        ("a page on this machine", f"127.0.0.1:{port}", [SENDS_JSON, f"Origin: http://127.0.0.1:{port}"], 403),
        ("a name that was pointed here", f"evil.example:{port}", [SENDS_JSON], 403),
        ("the same, as a browser asks", f"evil.example:{port}", [SENDS_JSON, f"Origin: http://evil.example:{port}"], 403),
    ]
    with socket.create_connection(("127.0.0.1", port), PATIENCE) as stream:
        for name, host, fields, due in cases:
            stream.sendall(calling("/mint/shop", MINT, host, *fields))
            status, told, body, _ = response(stream)
            yield f"{name} at a port", (status, b"token" in body), (due, due == 200)
            yield f"{name} at a port: no leave for other origins", "access-control-allow-origin" in told, False


def strict_paths():
    """What is refused of paths where they are read strictly, and a fragment in any case."""
    under = v2(b"alice", [b"path under /a"])
    for words, due in (([], 200), (["--http-strict-paths"], 403)):
        with listening("--http-facts", "forwarded", *words) as daemon, daemon.unix() as stream:
            for path in ("/a/..;/x", "/a/..%00/x", "/a/.%09./x", "/a/%u002e/x", "/a/%c0%ae/x", "/a/%e0%80%ae/x"):
                yield f"{path} {words}", asked(stream, bearing(under, f"X-Forwarded-Uri: {path}")), due
            yield f"a usual path {words}", asked(stream, bearing(under, "X-Forwarded-Uri: /a/%c3%a9")), 200
            yield f"a fragment {words}", asked(stream, bearing(under, "X-Forwarded-Uri: /a/b#c")), 400


def changing_keys():
    """A connection that lasts is answered under the keys of the moment."""
    with listening() as daemon, daemon.unix() as stream:
        yield "before", asked(stream, bearing(README)), 200
        daemon.write_keys("shop")
        awaited(lambda: asked(stream, bearing(README)) != 200, pause=0.1)
        yield "the name is gone", asked(stream, bearing(README)), 401
        yield "another is there", asked(stream, bearing(README, target="/verify/shop")), 200


def slow_peers():
    """Who brings no whole request in time is dropped, and others aren't kept waiting."""
    with listening("--http-patience", str(PATIENT), "--http-facts", "header") as daemon:
        for where, connect in (("Unix", daemon.unix), ("TCP", daemon.tcp)):
            with connect() as silent, connect() as half, connect() as dripping:
                half.sendall(b"GET /healthz HTTP/1.1\r\nHost: a\r\n")
                begin = time.monotonic()
                with contextlib.suppress(ConnectionError):
                    while time.monotonic() - begin < 5 * PATIENT:
                        dripping.sendall(b"G")
                        time.sleep(PATIENT / 20)
                took = time.monotonic() - begin
                yield f"a dripping peer over {where}: {took:.1f} s", PATIENT - 0.5 < took < 3 * PATIENT, True
                yield f"a silent one over {where}", end_of(silent) < 1, True
                yield f"half a head over {where}", end_of(half) < 1, True
            with connect() as body:
                body.sendall(asking("/verify/bank", "Content-Length: 10", method="POST") + b"12345")
                yield f"half a body over {where}", end_of(body) < 3 * PATIENT, True
            with connect() as lasting:
                found = []
                for _ in range(4):
                    found.append(asked(lasting, bearing(README)))
                    time.sleep(PATIENT / 2)
                yield f"one that asks on over {where}", found, [200] * 4
            with connect() as deaf:
                deaf.settimeout(5 * PATIENT)
                begin = time.monotonic()
                with contextlib.suppress(ConnectionError, TimeoutError):
                    while time.monotonic() - begin < 5 * PATIENT:
                        deaf.sendall(asking("/healthz") * 1_000)
                took = time.monotonic() - begin
                yield f"one that never reads over {where}: {took:.1f} s", took < 4 * PATIENT, True


def asked_slowly(stream, pieces):
    """The status of what a request in these pieces is answered, a millisecond between them; none where it is closed."""
    try:
        for piece in pieces:
            stream.sendall(piece)
            time.sleep(0.001)
        return response(stream)[0]
    except ConnectionError:
        return None


def uneven_pieces():
    """A head in many small pieces and then in large ones is answered, however the pieces are cut."""
    with listening() as daemon:
        for where, connect in (("Unix", daemon.unix), ("TCP", daemon.tcp)):
            for last in (3_700, 4_000, 4_400):
                pieces = [b"GET /healthz HTTP/1.1\r\nHost: a\r\nB: ", *[b"b" * 60] * 70, b"b" * last, b"b" * 500, b"b" * 8_192]
                with connect() as stream:
                    yield f"a head in uneven pieces over {where}, {last}", asked_slowly(stream, [*pieces, b"\r\n\r\n"]), 200


def full_house():
    """To one connection too many the one gives way that was sent nothing for longest, if for long enough."""
    with listening("--http-connections", "3") as daemon:
        with contextlib.ExitStack() as stack:
            guests, begin = [], time.monotonic()
            for connect in (daemon.unix, daemon.tcp, daemon.unix):
                guests.append(stack.enter_context(connect()))
                yield "one of three", asked(guests[-1], asking("/healthz")), 200
            if time.monotonic() - begin < REST / 3:
                yield "one that comes too soon", status_at(daemon), None
            for number, connect in enumerate((daemon.unix, daemon.tcp)):
                time.sleep(REST)
                guests.append(stack.enter_context(connect()))
                yield "one more", asked(guests[-1], asking("/healthz")), 200
                yield "the one that gave way", guests[number].recv(1), b""
            yield "the others go on", [asked(guest, asking("/healthz")) for guest in guests[2:]], [200] * 3
            for guest in guests:
                guest.close()
            yield "a place again", awaited(lambda: status_at(daemon) == 200), True


def status_at(daemon):
    """The status of a request on a connection of its own, if there is a place for that."""
    with daemon.unix() as stream, contextlib.suppress(ConnectionError):
        return asked(stream, asking("/healthz"))


def ends():
    """Idle connections are closed; one that has begun a request is answered, and told of the end."""
    with listening() as daemon, daemon.unix() as idle, daemon.tcp() as other:
        yield "before the end", [asked(stream, asking("/healthz")) for stream in (idle, other)], [200] * 2
        took, status = daemon.told_to_end()
        yield "idle connections", [stream.recv(1) for stream in (idle, other)], [b"", b""]
        yield f"how it ends: {daemon.errors.read_text()}", status, 0
        yield f"at once: {took:.1f} s", took < 5, True
    with listening() as daemon, daemon.tcp() as begun:
        text = asking("/healthz")
        begun.sendall(text[:20])
        time.sleep(0.3)
        daemon.run.send_signal(signal.SIGTERM)
        time.sleep(0.5)
        yield "it waits for who has begun", daemon.run.poll(), None
        begun.sendall(text[20:])
        status, fields, body, _ = response(begun)
        yield "its answer", (status, fields.get("connection"), body), (503, "close", b"it was told to end\n")
        yield "its end", begun.recv(1), b""
        yield "how that ends", daemon.run.wait(PATIENCE), 0
    with listening("--drain", "1") as daemon, daemon.tcp() as begun:
        begun.sendall(asking("/healthz")[:20])
        time.sleep(0.3)
        took, status = daemon.told_to_end()
        yield f"who never goes on is cut off: {took:.1f} s", 0.5 < took < 5, True
        end = daemon.lines()[-1]
        yield "how that ends", (status, end.what, end.fields), (0, "end", {"connections": "1"})
    with listening("--drain", "60") as daemon, daemon.tcp() as begun:
        begun.sendall(asking("/healthz")[:20])
        time.sleep(0.3)
        daemon.run.send_signal(signal.SIGTERM)
        time.sleep(0.5)
        took, status = daemon.told_to_end()
        yield f"a second signal: {took:.1f} s", (status, took < 5), (0, True)


def waiting():
    """Who waits at a socket where no guest is there as the daemon is told to end is answered."""
    with listening() as daemon, contextlib.ExitStack() as stack:
        daemon.run.send_signal(signal.SIGSTOP)
        late = [stack.enter_context(connect()) for connect in (daemon.unix, daemon.tcp) for _ in range(WAITING)]
        for stream in late:
            stream.sendall(asking("/healthz"))
        daemon.run.send_signal(signal.SIGTERM)
        daemon.run.send_signal(signal.SIGCONT)
        yield "each of them", {response(stream)[0] for stream in late} <= {200, 503}, True
        yield "how it ends", daemon.run.wait(PATIENCE), 0


def refusals():
    """Command lines that name no address, or one that others may reach."""
    foreign = "other machines may reach this address; name it by --http-anywhere if they may"
    unread = "this is no address; give unix:PATH, 127.0.0.1:PORT or [::1]:PORT"
    here = "other machines may reach this address; calls are answered to this machine alone"
    moved = (
        "--http-allow is no longer taken; name addresses for calls by --http-calls, "
        "and which calls are answered there by --http-calls-allow"
    )
    cases = [
        (["--http", "0.0.0.0:1234"], f"error: 0.0.0.0:1234: {foreign}\n", 2),
        (["--http", "127.0.0.1:1,192.0.2.1:2"], f"error: 192.0.2.1:2: {foreign}\n", 2),
        (["--http", "[::]:1234"], f"error: [::]:1234: {foreign}\n", 2),
        (["--http", "localhost:80"], f"error: localhost:80: {unread}\n", 2),
        (["--http", "unix:"], f"error: unix:: {unread}\n", 2),
        (["--http", ""], f"error: : {unread}\n", 2),
        (["--http-anywhere", "127.0.0.1"], f"error: 127.0.0.1: {unread}\n", 2),
        (["--http", "127.0.0.1:1", "--http-granted", "201"], "error: the status that grants is 200 or 204\n", 2),
        (["--http-facts", "header,body"], "error: a source of facts is header, query or forwarded\n", 2),
        (["--http-calls-allow", "mint,verify"], "error: a call is mint, attenuate, inspect or check\n", 2),
        (["--http-allow", "mint"], f"error: {moved}\n", 2),
        (["--http-calls", "127.0.0.1:1,0.0.0.0:2", "--http-calls-allow", "mint"], f"error: 0.0.0.0:2: {here}\n", 2),
        (["--http-calls", "192.0.2.1:1"], f"error: 192.0.2.1:1: {here}\n", 2),
        (["--http-calls", "localhost:1"], f"error: localhost:1: {unread}\n", 2),
        (["--http-calls-mode", "777"], "error: the mode of a socket is 600, 660 or 666\n", 2),
        (["--http-mode", "777"], "error: the mode of a socket is 600, 660 or 666\n", 2),
    ]
    with listening() as daemon:
        for words, text, status in cases:
            found = refused(f"{daemon.folder}/2", *words, keys=daemon.keys)
            yield " ".join(words), (found.returncode, found.stderr), (status, text)
        for address in (f"127.0.0.1:{daemon.port}", f"unix:{daemon.http}"):
            found = refused(f"{daemon.folder}/2", "--http", address, keys=daemon.keys)
            yield f"{address} is taken", found.returncode, 3
            yield f"and told: {found.stderr}", found.stderr.startswith(f"error: {address}: "), True
    anywhere = free_port()
    with listening("--http-anywhere", f"0.0.0.0:{anywhere}") as daemon:
        with socket.create_connection(("127.0.0.1", anywhere), PATIENCE) as stream:
            yield "an address for all", asked(stream, asking("/healthz")), 200
        yield "how it ends", daemon.told_to_end()[1], 0


PARTS = (statuses, rules, names, gateways_never_mint, strict_paths, changing_keys, slow_peers, uneven_pieces, full_house, ends, waiting, refusals)


def faults():
    return judged(of_each(*PARTS))
