#!/usr/bin/env python3
"""Hostile clients against `macaroond listen`, and beside them one that compares every reply.

    hostile.py [MINUTES]

The hostile ones vanish in the middle of a frame, send garbage, send lengths that lie, never read,
connect and say nothing, send 64 KiB frames without end, and connect a thousand times one after the
other. The one beside them, which was there before, must lose nothing and wait no longer than a
second for a reply. What is late may be the machine's doing: a round with such a wait is made anew, some
times, and the run fails where each of them had one.

They come in rounds. After each, the daemon's descriptors and threads are as many as before the first,
and within SETTLING seconds it is as large as after the first, but for GROWTH_MAX: each of its loops
and of the C library's arenas keeps some of what it once held.

Then 8 and 60 clients send the dearest requests without end, tokens in JSON of 32 KiB, and another's
small verify is timed beside them: its median, its 99th percentile and its longest wait are told. The
same is done over HTTP. And 600 send them at the second socket, beside one who sends them at the first
(dear.py, which says when these are timed anew).

Then 64 and 640 clients send requests of 5 KiB whose replies have 30, and read them slowly, some 36 KB in
ten seconds; once what they sent first is answered, a verify of 8 KiB is timed beside them.

Then 3,000 clients, one after the other, send a small request with a dear one behind it, and close at once.
One that stays waits with such a request behind them, before one worker.

Then 63 clients that never read send requests whose replies are the largest beside them, as many as
the daemon takes, and the daemon, now with all arenas, stays below PEAK_MAX. Asks for bin/macaroond,
or the program that MACAROOND names.
"""
import contextlib
import functools
import multiprocessing
import os
import pathlib
import random
import select
import socket
import subprocess
import sys
import tempfile
import time

sys.path.insert(0, str(pathlib.Path(__file__).resolve().parents[1]))
from common import daemon, programs
from common.daemon import awaited, come_to, frame, received
from common.processes import allow_descriptors, mebibytes, status, timed_calmly
from faults.dear import beside_dear, beside_side, dearest_request, late_of, seconds_of, told_of

import client
import request

FRAME_MAX = 65_536
LONGEST_WAIT = 1.0
ROUNDS = 4
# How many MiB the daemon may have once its clients have left, by how many it may be larger after a later
# round than after the first, and within how many seconds.
SIZE_MAX, GROWTH_MAX, SETTLING = 40, 12, 10
# How many clients never read, and the most MiB of the daemon that answers them.
SILENT, PEAK_MAX = 63, 450
# How many clients read slowly, how many bytes each of them a second, and what each of them sends at most. For how
# many seconds another is timed beside them, in how many waits in a row what they sent first is known to be answered,
# within how many seconds that has to be, and how many seconds of its waits the 99th percentile may be.
SLOW_CROWDS, SLOW_BYTES, SLOW_REQUESTS = (64, 640), 3_600, 40
SLOW_SECONDS, QUICK_WAITS, SLOW_SETTLING, SLOW_WAIT_MAX = 3, 50, 30, 0.1
# How many clients go at once behind a dear request, how many caveats that has so that it comes in one read, and how many
# seconds one may wait behind them.
DESERTERS, DESERTED_CAVEATS, DESERTED_WAIT_MAX = 3_000, 60, 0.5
# A caveat that JSON writes with six letters for a byte, and how many of them fill a token.
CONTROL, CONTROLS = "hex:" + "01" * 1000, 5


# A client that waits for five seconds at most.
connected = functools.partial(daemon.connected, patience=5)


def vanishes(path, rng):
    with connected(path) as stream:
        stream.sendall((1000).to_bytes(4, "big") + bytes(rng.randrange(1000)))


def sends_garbage(path, rng):
    with connected(path) as stream:
        stream.sendall(rng.randbytes(rng.randrange(1, 20_000)))
        stream.shutdown(socket.SHUT_WR)
        while stream.recv(FRAME_MAX):
            pass


def lies(path, rng):
    with connected(path) as stream:
        stream.sendall(rng.choice([0, 1, FRAME_MAX + 1, 2**32 - 1]).to_bytes(4, "big") + b"x" * 64)
        stream.recv(FRAME_MAX)


def never_reads(path, rng):
    with connected(path) as stream:
        while True:
            stream.sendall(bytes(4 * 4096))


def says_nothing(path, rng):
    with connected(path) as stream:
        stream.recv(1)


def sends_large_frames(path, rng):
    with connected(path) as stream:
        for _ in range(200):
            stream.sendall(FRAME_MAX.to_bytes(4, "big") + bytes(FRAME_MAX))
            stream.recv(FRAME_MAX)


def comes_often(path, rng):
    for _ in range(1000):
        with connected(path) as stream:
            stream.sendall(bytes(4))
            stream.recv(5)


HOSTILE = [vanishes, sends_garbage, lies, never_reads, says_nothing, sends_large_frames, comes_often]


def pesters(path, kind, is_over, seed):
    rng = random.Random(seed)
    while not is_over.is_set():
        try:
            kind(path, rng)
        except OSError:
            pass


def behaves(asked, until):
    """Compares each reply, and gives how many came and the longest wait."""
    mint = request.mint("v1-text", "bank", "http://mybank/", "we used our secret key")
    count, longest, due = 0, 0.0, None
    while time.monotonic() < until:
        begin = time.monotonic()
        reply = asked.ask(mint)
        longest = max(longest, time.monotonic() - begin)
        due = due or reply
        if reply != due or client.line(reply).split()[0] != "token":
            raise SystemExit("a reply was not what is due")
        count += 1
    return count, longest


def state(pid):
    """How many descriptors and threads the daemon has."""
    return len(os.listdir(f"/proc/{pid}/fd")), int(status(pid)["Threads"])


def settled(pid, before):
    """The state once the last connections have ended, waited for up to ten seconds."""
    return come_to(lambda: state(pid), before, patience=10, pause=0.1)


def settled_size(pid, most=SIZE_MAX):
    """How many MiB the daemon has once they are no more than `most`, waited for up to `SETTLING` seconds."""
    awaited(lambda: mebibytes(pid, "VmRSS") <= most, SETTLING, pause=0.1)
    return mebibytes(pid, "VmRSS")


def crowded(path, seconds):
    """A round: how many replies came as due beside the hostile clients, and the longest wait."""
    is_over = multiprocessing.Event()
    crowd = [
        multiprocessing.Process(target=pesters, args=(path, kind, is_over, f"{kind.__name__} {number}"), daemon=True)
        for kind in HOSTILE
        for number in range(3)
    ]
    try:
        with client.Client(path) as asked:
            # Connected before the crowd comes: who comes later waits behind those that are to be accepted.
            asked.ask(b"")
            for one in crowd:
                one.start()
                # A machine under load may take longer to start them all than a connection may be idle.
                asked.ask(b"")
            count, longest = behaves(asked, time.monotonic() + seconds)
    finally:
        is_over.set()
        for one in crowd:
            if one.pid is not None:
                one.join(timeout=30)
    return count, longest


def soak(path, pid, seconds):
    """The rounds. What is wrong with them, if anything."""
    with client.Client(path) as first:
        first.ask(b"")
    time.sleep(0.2)
    before = state(pid)
    count, longest, states, sizes = 0, 0.0, [], []
    is_late = lambda found: found[1] > LONGEST_WAIT
    for _ in range(ROUNDS):
        replies, wait = timed_calmly("hostile: a reply", lambda: crowded(path, seconds / ROUNDS), is_late)
        count, longest = count + replies, max(longest, wait)
        states.append(settled(pid, before))
        sizes.append(settled_size(pid, sizes[0] + GROWTH_MAX if sizes else SIZE_MAX))
    print(f"hostile: {count} replies as due beside hostile clients, the longest wait {longest * 1000:.0f} ms;", end=" ")
    print(f"descriptors and threads {before} and {states[-1]}; MiB after each round", *(f"{size:.1f}" for size in sizes))
    if longest > LONGEST_WAIT:
        yield "a reply came late"
    if any(one != before for one in states):
        yield f"descriptors and threads were {before}, and then {states}"
    if max(sizes) > min(sizes[0] + GROWTH_MAX, SIZE_MAX):
        yield "the daemon grew"


def largest_reply(path):
    """A request of 5 KiB whose reply is a token of nearly 32 KiB."""
    with client.Client(path) as asked:
        token = asked.ask(request.mint("v2-binary", "bank", "", "a"))[1:]
        narrowing = request.attenuate("v2-json", "hex:" + token.hex(), *[CONTROL] * CONTROLS)
        reply = asked.ask(narrowing)
    if reply[0] != 1 or len(reply) < 30_000:
        raise SystemExit("hostile: the largest reply is not what it was thought to be")
    return frame(narrowing)


def fill(path, pid):
    """Clients that send and never read. What is wrong with the daemon then, if anything."""
    asked_for = largest_reply(path)
    with contextlib.ExitStack() as stack:
        crowd = [stack.enter_context(connected(path)) for _ in range(SILENT)]
        rest = {one: memoryview(asked_for * 400) for one in crowd}
        until = time.monotonic() + 20
        for one in crowd:
            one.setblocking(False)
        while (writable := select.select([], crowd, [], 1)[1]) and time.monotonic() < until:
            for one in writable:
                rest[one] = rest[one][one.send(rest[one]) :]
        with client.Client(path) as asked:
            asked.ask(b"")
    peak, size = mebibytes(pid, "VmHWM"), settled_size(pid)
    print(f"hostile: {peak:.0f} MiB at most beside {SILENT} clients that never read, {size:.0f} MiB after them")
    if peak > PEAK_MAX:
        yield f"the daemon took {peak:.0f} MiB"
    if size > SIZE_MAX:
        yield f"the daemon had {size:.0f} MiB still after {SETTLING} seconds"


def reads_slowly(path, text, count, is_over):
    """So many connections on which this goes out as far as it is taken, and what is answered is read slowly."""
    allow_descriptors(count + 100)
    rest = {connected(path): memoryview(text * SLOW_REQUESTS) for _ in range(count)}
    for one in rest:
        one.setblocking(False)
    while not is_over.is_set():
        for one in rest:
            with contextlib.suppress(BlockingIOError):
                one.recv(SLOW_BYTES // 4)
            with contextlib.suppress(BlockingIOError):
                rest[one] = rest[one][one.send(rest[one]) :] if rest[one] else rest[one]
        time.sleep(0.25)


def wait_for(asked, text):
    """How many seconds a verify waits that is granted."""
    begin = time.monotonic()
    if asked.ask(text) != b"\x00":
        raise SystemExit("hostile: a large verify was not granted")
    return time.monotonic() - begin


def await_quick(asked, text):
    """Waits until so many replies in a row come in time."""
    quick, until = 0, time.monotonic() + SLOW_SETTLING
    while quick < QUICK_WAITS and time.monotonic() < until:
        quick = quick + 1 if wait_for(asked, text) < SLOW_WAIT_MAX else 0


def large_waits(path):
    """The seconds that verifies of 8 KiB wait, sorted, once they are quick."""
    with client.Client(path, timeout=SLOW_SETTLING) as asked:
        token = asked.ask(request.mint("v2-binary", "bank", "", "a"))[1:]
        large = request.verify("bank", "hex:" + token.hex(), 0, *["a" * 250] * 32)
        await_quick(asked, large)
        until, waits = time.monotonic() + SLOW_SECONDS, []
        while time.monotonic() < until:
            waits.append(wait_for(asked, large))
            time.sleep(0.002)
    return sorted(waits)


def waits_beside_slow(path, text, count):
    """The same beside so many clients that read slowly what this is answered."""
    is_over = multiprocessing.Event()
    crowd = multiprocessing.Process(target=reads_slowly, args=(path, text, count, is_over), daemon=True)
    crowd.start()
    try:
        return large_waits(path)
    finally:
        is_over.set()
        crowd.join(timeout=30)


def beside_slow(path):
    """What is wrong with the waits of a client with verifies of 8 KiB beside others that read slowly, if anything."""
    text = largest_reply(path)
    is_late = lambda waits: late_of(waits) > SLOW_WAIT_MAX
    for count in SLOW_CROWDS:
        waits = timed_calmly("hostile: a verify of 8 KiB", lambda: waits_beside_slow(path, text, count), is_late)
        print(f"hostile: a verify of 8 KiB beside {count} clients that read slowly, {told_of(waits)}")
        if late_of(waits) > SLOW_WAIT_MAX:
            yield f"beside {count} clients that read slowly a verify of 8 KiB waited {late_of(waits):.3f} s (p99)"


def behind_deserters(path):
    """What is wrong with the wait of a dear request behind those of clients that have gone, if anything: nobody waits for
    their answers."""
    dear = dearest_request(DESERTED_CAVEATS)
    for _ in range(DESERTERS):
        with contextlib.suppress(OSError), connected(path) as stream:
            stream.sendall(frame(request.verify("bank", "", 0)) + dear)
    with connected(path) as stream:
        stream.sendall(dear)
        wait, reply = seconds_of(lambda: received(stream, len(frame(b"\x00"))))
    print(f"hostile: a dear request behind those of {DESERTERS} clients that have gone waited {wait:.3f} s")
    if len(reply) < len(frame(b"\x00")) or wait > DESERTED_WAIT_MAX:
        yield f"behind {DESERTERS} clients that have gone a dear request waited {wait:.3f} s"


def listening(*words):
    """A daemon that listens: its socket's path and its process."""
    return daemon.listening("--workers", "4", *words, stderr=subprocess.DEVNULL)


def faults(seconds):
    """What is wrong with the daemon after so many seconds of hostile use, beside what it prints."""
    with listening("--idle", "2") as (path, run):
        found = [*soak(path, run.pid, seconds)]
    with tempfile.TemporaryDirectory() as folder, listening("--http", f"unix:{folder}/http") as (path, _):
        found += beside_dear(path, f"{folder}/http")
    with tempfile.TemporaryDirectory() as folder, listening("--verify-socket", f"{folder}/side") as (path, _):
        found += beside_side(path, f"{folder}/side")
    with listening() as (path, _):
        found += beside_slow(path)
    with daemon.listening("--workers", "1", "--loops", "1", stderr=subprocess.DEVNULL) as (path, _):
        found += behind_deserters(path)
    with listening() as (path, run):
        found += fill(path, run.pid)
    return [f"hostile: {fault}" for fault in found]


def main():
    programs.stop_unless_built("macaroond")
    found = faults(60 * float(sys.argv[1]) if len(sys.argv) > 1 else 8)
    if found:
        raise SystemExit("\n".join(found))


if __name__ == "__main__":
    main()
