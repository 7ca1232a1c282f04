"""Runs of `macaroond listen` that has to stay up: what it does where nobody reads what it prints, and
how it ends connections."""
import contextlib
import os
import random
import resource
import subprocess
import threading
import time

from check.daemon_rows import MALFORMED, MINT, NO_REQUEST, TOKEN
from common import daemon, logged
from common.daemon import REST, come_to, connected, frame, received
from common.rows import judged, of_each
from faults.dear import dearest_request

import request

# How many seconds a client waits at most: a daemon that hangs is told from a machine that is busy.
LONGEST_WAIT = 30
# How many connections end inside a frame.
TORN = 1400
# What is told of each of them.
TORN_FAULT = "the stream ended inside a frame"
# The length of a frame past the limit, which a socket's buffer holds whole, and the reply to it.
OVERSIZE, TOO_LONG = 200_000, frame(b"\x11")
# The bytes of a stack that a daemon is started under, and how deep the JSON of a request is nested then.
LITTLE_STACK, DEPTH = 98_304, 120
# How many such requests one client sends at once.
MANY_DEEP = 400
# A verify whose signature isn't the chain's is refused so; how many of them are sent at once.
BAD_SIGNATURE, OWED = frame(b"\x17"), 400
# What a client sends without waiting, with the reply to each, and how many of them.
KINDS = [
    (frame(b""), NO_REQUEST),
    (frame(MINT), frame(b"\x01" + TOKEN)),
    (frame(request.verify("bank", TOKEN.decode(), 0)), frame(b"\x00")),
    (frame(request.verify("shop", TOKEN.decode(), 0)), BAD_SIGNATURE),
]
PIPELINE = 40_000
# How many clients send bursts of requests, how many requests each, and for how many seconds.
BURSTERS, BURST, BURSTING = 24, 40, 4
# What they send, and how many bytes the reply to it has.
MINTING, MINTED = frame(MINT), len(frame(b"\x01" + TOKEN))


def listening(error, *words, **how):
    """The path of a daemon that listens, and its process. It prints its faults to `error`."""
    return daemon.listening("--workers", "2", *words, stderr=error, **how)


def full_pipe():
    """A pipe that takes nothing more: its two ends, and how many bytes it holds."""
    reading, writing = os.pipe()
    os.set_blocking(writing, False)
    held = 0
    for piece in (bytes(4096), bytes(1)):
        with contextlib.suppress(BlockingIOError):
            while True:
                held += os.write(writing, piece)
    os.set_blocking(writing, True)
    return reading, writing, held


def lines_of(reading, held):
    """The lines behind what the pipe held, until all connections are told of, or `LONGEST_WAIT` has passed."""
    os.set_blocking(reading, False)
    text, until = b"", time.monotonic() + LONGEST_WAIT
    while time.monotonic() < until:
        with contextlib.suppress(BlockingIOError):
            text += os.read(reading, 65_536)
            continue
        if told(logged.read_whole(text[held:])) >= TORN:
            break
        time.sleep(0.05)
    return logged.read_whole(text[held:])


def told(lines):
    """How many connections these lines tell of, those that were left out among them."""
    return sum(tells_of(line) for line in lines)


def tells_of(line):
    """How many connections a line tells of that ended inside a frame."""
    if line.what == "connection_fault":
        return int(line.fields["fault"] == TORN_FAULT)
    is_count = line.what == "left_out" and line.fields["kind"] == "connection_fault"
    return int(line.fields["count"]) if is_count else 0


def answered(path):
    """What comes back for one request, within `LONGEST_WAIT`; nothing where the connection is closed before."""
    try:
        with connected(path) as stream:
            stream.settimeout(LONGEST_WAIT)
            stream.sendall(frame(b""))
            return received(stream, len(NO_REQUEST))
    except (TimeoutError, ConnectionError):
        return b""


def unread_errors():
    """Standard error is a full pipe that nobody reads while connections end in faults."""
    reading, writing, held = full_pipe()
    with listening(writing) as (path, _):
        os.close(writing)
        for _ in range(TORN):
            with connected(path) as stream:
                stream.sendall(bytes(3))
        yield "a client behind faults that nobody reads of", answered(path), NO_REQUEST
        lines = lines_of(reading, held)
        yield "each fault is told or counted", told(lines), TORN
        # A connection may end before the line of the start is told.
        others = [line for line in lines if line.what != "start" and not tells_of(line)]
        yield "and nothing else is told", others, []
    os.close(reading)


def oversize_frames():
    """A frame past the limit, whose payload the daemon answers without having read it all."""
    with listening(subprocess.DEVNULL) as (path, _):
        with connected(path) as stream:
            stream.sendall(OVERSIZE.to_bytes(4, "big") + bytes(OVERSIZE))
            yield "the reply to an oversize frame", received(stream, len(TOO_LONG)), TOO_LONG
            yield "and then an end", end_of(stream), "an end"
        yield "the next client", answered(path), NO_REQUEST


def deep_requests():
    """The deepest request, under a limit that is less of a stack than it takes to read."""
    limited = lambda: resource.setrlimit(resource.RLIMIT_STACK, (LITTLE_STACK, LITTLE_STACK))
    nested = {"lists": "[" * DEPTH + "]" * DEPTH, "members": '{"a":' * DEPTH + "1" + "}" * DEPTH}
    with listening(subprocess.DEVNULL, preexec_fn=limited) as (path, run):
        for kind, deep in nested.items():
            with connected(path) as stream:
                stream.sendall(frame(request.verify("bank", '{"v":' + deep + "}", 0)))
                yield f"{kind} nested {DEPTH} deep, on little stack", received(stream, len(MALFORMED)), MALFORMED
            with connected(path) as stream:
                stream.sendall(frame(request.verify("bank", '{"v":' + deep + "}", 0)) * MANY_DEEP)
                replies = received(stream, len(MALFORMED) * MANY_DEEP)
                yield f"many {kind} nested so, at once", replies == MALFORMED * MANY_DEEP, True
        yield "the next client", answered(path), NO_REQUEST
        yield "the daemon stays up", run.poll(), None


def begun_frames():
    """A request that comes a byte at a time, under a bound of a second without progress."""
    with listening(subprocess.DEVNULL, "--idle", "1") as (path, _):
        with connected(path) as stream:
            begin, is_open = time.monotonic(), True
            stream.setblocking(False)
            for byte in frame(bytes(60)):
                with contextlib.suppress(BlockingIOError):
                    try:
                        stream.send(bytes([byte]))
                        is_open = stream.recv(1) != b""
                    except (BrokenPipeError, ConnectionResetError):
                        is_open = False
                if not is_open:
                    break
                time.sleep(0.2)
            yield "a request that comes a byte at a time is ended", is_open, False
            yield "after a second, and within three", 0.9 < time.monotonic() - begin < 4, True
        yield "the next client", answered(path), NO_REQUEST


def owed_replies():
    """Requests that take longer to answer than a connection may make no progress."""
    dear = dearest_request()
    with listening(subprocess.DEVNULL, "--idle", "1") as (path, _):
        with connected(path) as stream:
            stream.settimeout(LONGEST_WAIT)
            sender = threading.Thread(target=stream.sendall, args=(dear * OWED,))
            sender.start()
            replies = received(stream, len(BAD_SIGNATURE) * OWED)
            sender.join()
            yield "the replies to what takes long", replies == BAD_SIGNATURE * OWED, True


def long_pipelines():
    """A client that sends without waiting more than one loop keeps up with, while the other loops rest."""
    asked = random.Random(PIPELINE).choices(KINDS, k=PIPELINE)
    with listening(subprocess.DEVNULL, "--loops", "4") as (path, _):
        with connected(path) as stream:
            stream.settimeout(LONGEST_WAIT)
            requests = b"".join(sent for sent, _ in asked)
            sender = threading.Thread(target=stream.sendall, args=(requests,))
            sender.start()
            due = b"".join(reply for _, reply in asked)
            replies = received(stream, len(due))
            sender.join()
            yield "the replies to a long pipeline", replies == due, True


def bursts(path, until, ended):
    """Sends a burst of requests, takes the replies, rests, and does so again. Adds to `ended` how it was ended."""
    try:
        with connected(path) as stream:
            stream.settimeout(LONGEST_WAIT)
            while time.monotonic() < until:
                stream.sendall(MINTING * BURST)
                if len(received(stream, MINTED * BURST)) < MINTED * BURST:
                    ended.append("an end")
                    return
                # All rest at a time, for 20 ms of every 40.
                time.sleep(0.04 - time.monotonic() % 0.04)
    except OSError as fault:
        ended.append(str(fault))


def busy_clients():
    """Clients that are busy and rest by turns, so that loops hand them to one another again and again, under a bound
    of a second without progress."""
    ended = []
    with listening(subprocess.DEVNULL, "--idle", "1", "--loops", "4") as (path, _):
        until = time.monotonic() + BURSTING
        clients = [threading.Thread(target=bursts, args=(path, until, ended)) for _ in range(BURSTERS)]
        for one in clients:
            one.start()
        for one in clients:
            one.join()
    yield "how clients that make progress were ended", ended, []


def past_the_limit():
    """More connections than there may be: one gives way to the last, and one that ends makes room."""
    with listening(subprocess.DEVNULL, "--connections", "2") as (path, _):
        with connected(path) as one, connected(path) as other:
            for stream in (one, other):
                stream.sendall(frame(b""))
                yield "a client within the limit", received(stream, len(NO_REQUEST)), NO_REQUEST
            time.sleep(REST)
            with connected(path) as third:
                yield "one gives way", end_of(one), "an end"
                third.sendall(frame(b""))
                yield "a client past it", received(third, len(NO_REQUEST)), NO_REQUEST
        yield "a client once they have gone", come_to(lambda: answered(path), NO_REQUEST, LONGEST_WAIT), NO_REQUEST


def end_of(stream):
    try:
        return "an end" if stream.recv(1) == b"" else "more"
    except ConnectionResetError:
        return "a reset"


def faults():
    """What went otherwise than it must, and how many checks there were."""
    parts = [unread_errors, oversize_frames, deep_requests, begun_frames, owed_replies]
    return judged(of_each(*parts, long_pipelines, busy_clients, past_the_limit))
