"""Runs of `macaroond serve` and `macaroond listen` over a socket: what comes back, and how they end."""
import base64
import contextlib
import json
import os
import pathlib
import select
import socket
import stat
import subprocess
import tempfile
import threading
import time

from common import logged
from common.daemon import PATIENCE, connected, frame, received, refused, running, serve_command, serving, version
from common.rows import in_folders, judged

import request

MINT = request.mint("v1-text", "bank", "http://mybank/", "we used our secret key")
TOKEN = (
    b"MDAxY2xvY2F0aW9uIGh0dHA6Ly9teWJhbmsvCjAwMjZpZGVudGlmaWVyIHdlIHVzZWQgb3VyIHNlY3JldCBrZXkK"
    b"MDAyZnNpZ25hdHVyZSDj2eApCFJsTAA5rhURQRXZf91ovyujebNCqvD2F9BVLwo"
)
# The longest request with a token in JSON that a loop answers. A longer one goes wide.
JSON_MAX = 4_096
NO_REQUEST = bytes([0, 0, 0, 1, 16])
MALFORMED = bytes([0, 0, 0, 1, 20])
# JSON that takes milliseconds to read, and is no token.
SLOW_TOKEN = '{"a":[' + 10_900 * "{}," + "{}]}"
# How often a quick request is sent behind a slow one until it is answered first.
TRIES = 1000
# How many requests are sent before the first reply is read.
LATE = 20_000

HELLO = b"\x02"
# Why a path isn't taken, and what is to be done.
END_FIRST = "end that process first, or give another path"
EXISTS = "there is something already; remove that, or give another path"
NO_SOCKET = "there is something that is no socket; remove that, or give another path"


def in_json(text):
    """A token without caveats in JSON, of its base64 text of format one: in a long request it goes wide."""
    packets, fields = base64.urlsafe_b64decode(text + b"=" * (-len(text) % 4)), {}
    while packets:
        length = int(packets[:4], 16)
        key, _, value = packets[4 : length - 1].partition(b" ")
        fields[key], packets = value, packets[length:]
    signature = base64.urlsafe_b64encode(fields[b"signature"]).rstrip(b"=").decode()
    told = {"v": 2, "l": fields[b"location"].decode(), "i": fields[b"identifier"].decode(), "s64": signature}
    return json.dumps(told).encode()


def placed(*replies):
    """The frames of replies in version two."""
    return b"".join(frame(place.to_bytes(8, "big") + reply) for place, reply in enumerate(replies))


def answer(stream, data):
    """What comes back, to its end, for a stream of these bytes."""
    stream.sendall(data)
    stream.shutdown(socket.SHUT_WR)
    received = b""
    while piece := stream.recv(65_536):
        received += piece
    return received


def served(path, workers):
    """Three clients, of which the second comes while the first is there and the third breaks off."""
    words = {"workers": workers, "accept": 3}
    with serving(path, **words) as run:
        with connected(path) as first, connected(path) as second, connected(path) as third:
            answers = [answer(second, bytes(12)), answer(third, bytes(3))]
            answers.insert(0, answer(first, frame(MINT) + frame(b"")))
        output, error = run.communicate(timeout=PATIENCE)
    due = [frame(b"\x01" + TOKEN) + NO_REQUEST, NO_REQUEST * 3, b""]
    yield f"{workers} workers answer", answers, due
    yield f"{workers} workers end", (run.returncode, run.first + output, error), (0, "listening\nserved 3 faults 1\n", "")
    again = subprocess.run(serve_command(path, **words), capture_output=True, text=True, timeout=PATIENCE)
    yield "a path that is there", (again.returncode, again.stdout, again.stderr), (3, "", f"error: {path}: {EXISTS}\n")


def both_ways(path):
    """Requests that are read while replies are written."""
    mint, token = frame(MINT), frame(b"\x01" + TOKEN)
    with serving(path, accept=2) as run:
        with connected(path) as stream:
            stream.sendall(mint + mint[:30])
            yield "a reply while the next request is on its way", received(stream, len(token)), token
            stream.sendall(mint[30:])
            yield "and the next one", received(stream, len(token)), token
            yield "and the last", answer(stream, frame(b"")), NO_REQUEST
        with connected(path) as stream:
            sender = threading.Thread(target=stream.sendall, args=(mint * LATE,), daemon=True)
            sender.start()
            time.sleep(0.2)
            yield "replies to one who reads late", received(stream, LATE * len(token)) == LATE * token, True
            sender.join()
        output, _ = run.communicate(timeout=PATIENCE)
        yield "the end of those", output, "served 2 faults 0\n"


def overtaking(path):
    """A quick request behind one that takes long: in the same connection its reply waits, in another it doesn't."""
    slow, quick = frame(request.verify("bank", SLOW_TOKEN, 0)), frame(b"")
    with serving(path, accept=2) as run:
        with connected(path) as stream, connected(path) as other:
            stream.sendall(20 * (slow + 8 * quick))
            due = 20 * (MALFORMED + 8 * NO_REQUEST)
            yield "replies keep the order of requests", received(stream, len(due)), due
            for _ in range(TRIES):
                stream.sendall(slow)
                other.sendall(quick)
                first = select.select([stream, other], [], [])[0]
                replies = received(stream, len(MALFORMED)), received(other, len(NO_REQUEST))
                if replies != (MALFORMED, NO_REQUEST) or first == [other]:
                    break
            yield "a quick request overtakes one that takes long", (first == [other], *replies), (True, MALFORMED, NO_REQUEST)
        output, _ = run.communicate(timeout=PATIENCE)
        yield "the end of those", output, "served 2 faults 0\n"


def versions(path):
    """Connections of version two beside one of version one, and a hello that comes by itself."""
    requests = frame(MINT) + frame(b"") + bytes.fromhex("00010001")
    due = placed(b"\x01" + TOKEN, b"\x10", b"\x11")
    with serving(path, accept=5) as run:
        with connected(path) as stream:
            yield "places", answer(stream, HELLO + requests), due
        with connected(path) as stream:
            for byte in HELLO + requests[:20]:
                stream.sendall(bytes([byte]))
                time.sleep(0.001)
            yield "places, where the hello comes alone", answer(stream, requests[20:]), due
        with connected(path) as stream:
            yield "none beside", answer(stream, frame(b"")), NO_REQUEST
        with connected(path) as stream:
            yield "a hello and no more", answer(stream, HELLO), b""
        with connected(path) as stream:
            yield "a hello and a part of a length", answer(stream, HELLO + bytes(1)), b""
        output, _ = run.communicate(timeout=PATIENCE)
        yield "the end of those", output, "served 5 faults 1\n"


def listening_line(path, workers):
    """What `listen` prints once clients can connect."""
    return f"listening at {path}: 2 names, {workers}; {version()}"


def listening(folder):
    path = folder + "/listening"
    with running(path, "--workers", "2", "--mode", "660") as run:
        yield "what listen prints", run.first, listening_line(path, "2 workers")
        yield "the mode", stat.filemode(os.stat(path).st_mode), "srw-rw----"
        beside = [name + ending for name in ("listening", "listening.status") for ending in ("", ".lock")]
        yield "its status socket and two locks beside the socket", sorted(os.listdir(folder)), sorted(beside)
        with connected(path) as stream:
            yield "an answer", answer(stream, frame(MINT)), frame(b"\x01" + TOKEN)
        taken = refused(path)
        due = (3, "", f"error: {path}: process {run.pid} has it; {END_FIRST}\n")
        yield "a path that is listened on", (taken.returncode, taken.stdout, taken.stderr), due
    with running(path, "--workers", "2", "--idle", "1") as run:
        yield "a path that was left is taken over", run.first, listening_line(path, "2 workers")
        yield "the owner's mode", stat.filemode(os.stat(path).st_mode), "srw-------"
        begin = time.monotonic()
        with connected(path) as stream:
            stream.sendall(bytes(3))
            yield "silence is ended", stream.recv(1), b""
        yield "after its second", 0.9 < time.monotonic() - begin, True
        run.stderr.readline()
        told = logged.read(run.stderr.readline().rstrip("\n"))
        yield "and told", (told.what, told.fields["connection"]), ("connection_idle", "1")
        with contextlib.ExitStack() as crowd:
            streams = [crowd.enter_context(connected(path)) for _ in range(130)]
            streams[-1].sendall(frame(b""))
            yield "a client behind 64 silent ones", streams[-1].recv(5), NO_REQUEST
    file = folder + "/file"
    pathlib.Path(file).write_text("")
    taken = refused(file)
    due = (3, "", f"error: {file}: {NO_SOCKET}\n")
    yield "a path that is no socket", (taken.returncode, taken.stdout, taken.stderr), due


def faults():
    """What went otherwise than it must, and how many things were looked at."""
    with tempfile.TemporaryDirectory() as folder:
        seen = [one for workers in (1, 2, 16) for one in served(f"{folder}/{workers}", workers)]
        seen += [*both_ways(folder + "/both_ways"), *overtaking(folder + "/overtaking"), *versions(folder + "/versions")]
    return judged([*seen, *in_folders(listening)])
