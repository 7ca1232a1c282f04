#!/usr/bin/env python3
"""What one client may cost `macaroond listen`, whatever it does, and what all may cost together.

    bounded.py

One that never reads its replies sends requests that are refused, as many as the daemon takes, with
`--log requests` and without: the daemon holds no more than HELD_MAX MiB for it, and has a line for
each request once its replies are read. One over HTTP sends a head a byte at a time, as long as it may
be, in a call for each: a byte costs BYTE_MAX microseconds of the processor at most. Another one also waits until each
byte is read, so that a read gives one: the same holds in the middle of its parts, and of the last three. A machine may
take longer for a loop that only waits for some milliseconds, looks at the clock and reads byte by byte (bare.c, run
beside it): then a byte costs what it costs there at most, and BARE_TIMES as much where each is read alone. All are told.

A crowd of CROWD clients sends frames that aren't whole, or never reads, and one of HTTP_CROWD does so over
HTTP: with `--memory MEMORY` the daemon holds no more than that and BESIDE_MAX MiB, ends some of them, counts
those, and answers one that behaves. Once the crowd has gone it has none of their connections, and BESIDE_MAX
MiB more than before at most. With a number the crowd of frames has so many clients (10,000 take 20,100
descriptors):

    bounded.py [CROWD]

As many clients over HTTP as there may be send the dearest tokens in JSON without end: the same bounds hold.

Asks for a C compiler `cc`, and for bin/macaroond or the program that MACAROOND names.
"""
import contextlib
import fcntl
import pathlib
import statistics
import struct
import subprocess
import sys
import tempfile
import termios
import time

sys.path.insert(0, str(pathlib.Path(__file__).resolve().parents[1]))
from common import daemon, programs
from common.daemon import awaited, come_to, connected, frame, numbers, received
from common.processes import allow_descriptors, mebibytes, timed_calmly
from faults.dear import dearest_token, over_http, sends_dear

import request

# How much a client sends that reads no reply, and how many MiB the daemon may hold for it.
SENT_MAX, HELD_MAX = 64 << 20, 48
# A verify without a token under a name of 255 bytes, which is refused.
REFUSED = frame(b"\x03\xff" + b"n" * 255)
# How many bytes a head has that come alone, in how many parts they are timed, how many of those are the last ones, how
# many microseconds of the processor each byte may cost; or how many times what one costs in a bare loop.
HEAD, PARTS, LAST, BYTE_MAX, BARE_TIMES = 49_152, 8, 3, 3.0, 2.0
# The source of that loop, and how many bytes it is timed with, before each part.
BARE, BARE_BYTES = pathlib.Path(__file__).with_name("bare.c"), 1_000
# What all clients may have together, how many MiB the daemon may hold beside that, and how many clients of a
# crowd come that hold some 80 or 170 KiB each; and over HTTP.
MEMORY, BESIDE_MAX, CROWD, HTTP_CROWD = 64 << 20, 40, 1_200, 600
# How many clients over HTTP send the dearest tokens, and for how many seconds.
DEAR_CROWD, DEAR_SECONDS = 256, 3
# How many seconds the daemon may take to let go of what a crowd held.
SETTLING = 10
# A frame of which a byte is lacking, and mints whose replies are more than a socket takes.
TORN = frame(bytes(65_000))[:-1]
MINTS = frame(request.mint("v1-text", "bank", "", "")) * 2_500
# A request over HTTP with the longest head and nearly all of the longest body; and requests whose responses
# are more than a socket takes.
TORN_HTTP = b"POST /verify/bank HTTP/1.1\r\nHost: a\r\nContent-Length: 65536\r\nX: ".ljust(49_000, b"a") + b"\r\n\r\n"
TORN_HTTP += bytes(65_000)
PAGES = b"GET /metrics HTTP/1.1\r\nHost: a\r\n\r\n" * 2_000
# How many seconds the daemon takes nothing in before that counts as all.
SILENCE = 10
# How many requests are sent at once whose lines are counted, and how long that may take.
EACH, PATIENCE = 20_000, 60


def pressed(path, limit):
    """How many bytes the daemon takes, up to the limit, of a client that reads no reply."""
    piece, sent = REFUSED * 2_000, 0
    with connected(path, patience=SILENCE) as stream:
        rest = memoryview(piece)
        with contextlib.suppress(TimeoutError):
            while sent < limit:
                count = stream.send(rest)
                sent, rest = sent + count, rest[count:] or memoryview(piece)
        yield sent


def unread(words):
    """What is held for a client that never reads."""
    with daemon.listening(*words) as (path, run):
        with connected(path) as stream:
            stream.sendall(frame(b""))
            received(stream, 5)
        before = mebibytes(run.pid)
        for sent in pressed(path, SENT_MAX):
            held = mebibytes(run.pid, "VmHWM") - before
            print(f"bounded: {held:.0f} MiB held for {sent >> 20} MiB of requests, replies not read {' '.join(words)}")
            if held > HELD_MAX:
                yield f"{held:.0f} MiB were held for one client that never reads {' '.join(words)}"


def comes(crowd, path, bytes_sent):
    """A client of a crowd, which sends this as far as it is taken, and reads nothing."""
    stream = crowd.enter_context(connected(path, patience=PATIENCE))
    stream.setblocking(False)
    with contextlib.suppress(OSError):
        stream.sendall(bytes_sent)


def left_of(pid, before):
    """How many MiB the daemon has more than before, once that is little or `SETTLING` seconds have passed."""
    awaited(lambda: mebibytes(pid) - before <= BESIDE_MAX, SETTLING)
    return mebibytes(pid) - before


def past_bounds(who, held, left):
    """What is wrong with the MiB that were held for these clients, and with those that were left behind them."""
    if held > (MEMORY >> 20) + BESIDE_MAX:
        yield f"{held:.0f} MiB were held for {who}"
    if left > BESIDE_MAX:
        yield f"{left:.0f} MiB were left {SETTLING} seconds behind {who}"


def crowded(what, bytes_sent, count, words, where=None):
    """What is held for a crowd that sends this and reads nothing, at the socket or where else, and left behind it."""
    who = " ".join([f"{count} clients with {what}", *words])
    with daemon.listening("--memory", str(MEMORY), "--remember", "0", *words) as (path, run):
        with connected(path, patience=PATIENCE) as beside:
            with contextlib.ExitStack() as crowd:
                beside.sendall(frame(b""))
                answered = [received(beside, 5)]
                before = mebibytes(run.pid)
                awaited(pathlib.Path(where or path).exists)
                for number in range(count):
                    comes(crowd, where or path, bytes_sent)
                    if number % 100 == 0:
                        beside.sendall(frame(b""))
                        answered.append(received(beside, 5))
                heavy = lambda: int(numbers(path)["connections_ended_for_memory_total"])
                awaited(lambda: heavy() > 0, PATIENCE)
                beside.sendall(frame(b""))
                answered.append(received(beside, 5))
                held, ended = mebibytes(run.pid, "VmHWM") - before, heavy()
            there = come_to(lambda: numbers(path)["connections"], "1", SETTLING)
            left = left_of(run.pid, before)
    print(f"bounded: {held:.0f} MiB held for {who}, {ended} of them ended, {left:.0f} left behind them")
    yield from past_bounds(who, held, left)
    if there != "1":
        yield f"{there} connections were there behind {who}, beside which there was one"
    if not 0 < ended < count:
        yield f"{ended} of {who} were ended"
    if not all(len(reply) == 5 for reply in answered):
        yield f"one that asked beside {who} wasn't answered"


def dear_over_http():
    """What is held for as many clients over HTTP as there may be, with the dearest tokens, and what is left of them."""
    who = f"{DEAR_CROWD} clients over HTTP with the dearest tokens"
    with tempfile.TemporaryDirectory() as folder:
        http = f"{folder}/http"
        with daemon.listening("--memory", str(MEMORY), "--remember", "0", "--http", f"unix:{http}") as (path, run):
            awaited(pathlib.Path(http).exists)
            before = mebibytes(run.pid)
            sends_dear(http, over_http(dearest_token()), DEAR_CROWD, time.monotonic() + DEAR_SECONDS)
            held, left = mebibytes(run.pid, "VmHWM") - before, left_of(run.pid, before)
            told = numbers(path).items()
            answered = sum(int(value) for name, value in told if name.startswith("requests verify refused"))
    print(f"bounded: {held:.0f} MiB held for {who}, {answered} requests answered, {left:.0f} left behind them")
    yield from past_bounds(who, held, left)
    if answered < DEAR_CROWD:
        yield f"{answered} requests of {who} were answered"


def all_together(count):
    """What is held for crowds with partial frames, and for those that never read, with notes and without."""
    allow_descriptors(count + 100)
    yield from crowded("partial frames", TORN, count, ())
    yield from crowded("replies not read", MINTS, count, ())
    yield from crowded("replies not read", MINTS, count, ("--log", "requests"))
    with tempfile.TemporaryDirectory() as folder:
        http = f"{folder}/http"
        words = ("--http", f"unix:{http}", "--http-connections", "1024", "--http-patience", "60")
        yield from crowded("partial requests", TORN_HTTP, HTTP_CROWD, words, http)
        yield from crowded("responses not read", PAGES, HTTP_CROWD, words, http)


def told_once_read():
    """Each request has its line, or is told to be left out, though many came before a reply was read."""
    with tempfile.TemporaryDirectory() as folder:
        log = pathlib.Path(folder) / "log"
        with open(log, "w") as errors, daemon.listening("--log", "requests", stderr=errors) as (path, _):
            with connected(path, patience=PATIENCE) as stream:
                writer = subprocess.Popen([sys.executable, "-c", WRITER, str(stream.fileno()), str(EACH)],
                                          pass_fds=[stream.fileno()])
                time.sleep(1)
                got = received(stream, 5 * EACH)
                writer.wait()
            told = awaited(lambda: lines_of(log) >= EACH and lines_of(log), PATIENCE)
    if len(got) != 5 * EACH:
        yield f"{len(got)} bytes of replies came, and {5 * EACH} were due"
    if told != EACH:
        yield f"{told} requests have a line or were left out, and {EACH} were sent"


# Sends empty requests on a stream, as fast as they are taken.
WRITER = """
import socket, sys
with socket.socket(fileno=int(sys.argv[1])) as stream:
    stream.settimeout(60)
    stream.sendall(bytes(4) * int(sys.argv[2]))
    stream.detach()
"""


def lines_of(log):
    """How many requests the log tells, and tells to be left out, by its whole lines."""
    count, text = 0, log.read_text()
    for line in text[: text.rfind("\n") + 1].splitlines():
        words = line.split()
        if words[2] == "request":
            count += 1
        elif words[2] == "left_out" and "kind=request" in words:
            count += int(words[-1].removeprefix("count="))
    return count


def processor_micros(pid):
    """The processor time of all threads of a process."""
    tasks = pathlib.Path(f"/proc/{pid}/task").iterdir()
    return sum(int((task / "schedstat").read_text().split()[0]) for task in tasks) / 1000


def taken(stream):
    """Waits until all that was sent is read."""
    awaited(lambda: struct.unpack("i", fcntl.ioctl(stream, termios.TIOCOUTQ, bytes(4)))[0] == 0, 5, pause=0)


@contextlib.contextmanager
def bare_loop(folder):
    """A stream to a bare loop that runs in a folder, and its process."""
    program, path = f"{folder}/bare", f"{folder}/bare.socket"
    subprocess.run(["cc", "-O2", "-o", program, BARE], check=True)
    with subprocess.Popen([program, path]) as run:
        awaited(pathlib.Path(path).exists)
        with connected(path, patience=PATIENCE) as stream:
            yield stream, run


def drips(pid, stream, part, awaits=True):
    """Microseconds of the processor for each of these bytes, sent alone, and read so where that is awaited."""
    before = processor_micros(pid)
    for byte in part:
        stream.send(bytes([byte]))
        if awaits:
            taken(stream)
    taken(stream)
    time.sleep(0.05)
    return (processor_micros(pid) - before) / len(part)


def long_head():
    """A request over HTTP whose head is as long as it may be."""
    return b"GET /healthz HTTP/1.1\r\nHost: a\r\nX: ".ljust(HEAD - 4, b"a") + b"\r\n\r\n"


def is_answered(stream):
    """Whether a request was answered with a status of 200."""
    return stream.recv(1_000).split(b" ")[1] == b"200"


def dripped():
    """Heads whose bytes are sent alone, and which are answered at their ends."""
    with tempfile.TemporaryDirectory() as folder:
        http = f"{folder}/http"
        words = ("--http", f"unix:{http}", "--http-patience", "60")
        with bare_loop(folder) as (bare, least), daemon.listening(*words) as (_, run):
            awaited(pathlib.Path(http).exists)
            with connected(http, patience=PATIENCE) as stream:
                sent = drips(run.pid, stream, long_head(), awaits=False)
                were_answered = [is_answered(stream)]
            with connected(http, patience=PATIENCE) as stream:
                parts = [long_head()[part * HEAD // PARTS : (part + 1) * HEAD // PARTS] for part in range(PARTS)]
                each = [(drips(least.pid, bare, bytes(BARE_BYTES)), drips(run.pid, stream, part)) for part in parts]
                were_answered.append(is_answered(stream))
    of_bare, costs = statistics.median(one[0] for one in each), [one[1] for one in each]
    told = " ".join(f"{cost:.1f}" for cost in costs)
    print(f"bounded: a byte of a head that is sent alone costs {sent:.1f} us; where it is read alone, {told} us", end=" ")
    print(f"part by part, and in a bare loop {of_bare:.1f}")
    if sent > max(BYTE_MAX, of_bare):
        yield f"a byte of a head that is sent alone costs {sent:.1f} us of the processor"
    late = max(statistics.median(costs), statistics.median(costs[-LAST:]))
    if late > max(BYTE_MAX, BARE_TIMES * of_bare):
        yield f"a byte of a head that is read alone costs {late:.1f} us of the processor, in a bare loop {of_bare:.1f}"
    if not all(were_answered):
        yield "a head that came so wasn't answered with 200"


def faults(count=CROWD):
    """What costs more than it may, beside what it prints."""
    found = [*unread(()), *unread(("--log", "requests")), *all_together(count), *dear_over_http()]
    found += [*told_once_read(), *timed_calmly("bounded: a byte of a head", lambda: [*dripped()], bool)]
    return [f"bounded: {fault}" for fault in found]


def main():
    programs.stop_unless_built("macaroond")
    if found := faults(*map(int, sys.argv[1:])):
        raise SystemExit("\n".join(found))


if __name__ == "__main__":
    main()
