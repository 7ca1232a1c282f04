"""The daemon, while calls of the system are broken off, cut short and held up in a fixed sequence (flaky.c).

Its replies are what they are else, over frames and over HTTP; it reads its key file anew, refuses a second daemon its
path, gives it to one that replaces it, and ends at a signal within its time.
"""
import collections
import contextlib
import pathlib
import signal
import subprocess
import tempfile
import threading
import time

from check.daemon_rows import MINT, NO_REQUEST, TOKEN
from check.http_rows import README
from check.http_sockets import asked, bearing
from common import KEYS
from common.daemon import Daemon, awaited, connected, frame, received, refused, serving
from faults.refusing import PATIENCE, Row, Watch

# Where the sequences begin.
SEEDS = (1, 2, 3)
# How many clients ask at a time, over frames and over HTTP, and how many requests a burst has.
CLIENTS, BURST = 3, 40
# How many seconds connections have to end, and how many the end may take beyond that on a busy machine.
DRAIN, BEYOND = 5, 10
ASKED = (frame(MINT) + frame(b"")) * BURST
DUE = (frame(b"\x01" + TOKEN) + NO_REQUEST) * BURST
SIGNALS_FAULT = "signals can't be read: "
# Which calls are counted when they are broken off, as flaky.c numbers them.
CALLS = ("read", "write", "open", "lock", "accept", "wait")


class Flaky(Watch):
    """What a daemon meets whose sequence begins so: how many calls were broken off, cut short, held up."""

    def __init__(self, seed, library):
        super().__init__("", FLAKY=str(seed))
        self.environment["LD_PRELOAD"] = str(library)

    broken_off = property(lambda self: self.get(0))
    cut_short = property(lambda self: self.get(1))
    held_up = property(lambda self: self.get(2))
    of_signals = property(lambda self: self.get(3))
    of_calls = property(lambda self: {name: self.get(4 + number) for number, name in enumerate(CALLS)})


class Talking(threading.Thread):
    """Does the same until it is told to end: how often, and the first time that something else came."""

    def __init__(self, once):
        super().__init__(daemon=True)
        self.once, self.times, self.fault, self.is_over = once, 0, None, False
        self.start()

    def run(self):
        try:
            while not self.is_over:
                if (came := self.once()) is not None:
                    self.fault = came
                    return
                self.times += 1
        except OSError as fault:
            self.fault = repr(fault)


def piped(stream):
    """A burst of requests that nobody waits between: what came, unless it is what is due."""
    stream.sendall(ASKED)
    came = received(stream, len(DUE))
    return None if came == DUE else f"replies {came[:80]} .."


def verified(stream):
    status = asked(stream, bearing(README))
    return None if status == 200 else f"status {status}"


class Meeting(Daemon):
    """A daemon that meets a sequence, with a key file of its own."""

    def __init__(self, folder, flaky, *words):
        self.http = f"{folder}/h"
        there = pathlib.Path(folder, "keys").exists()
        words = ["--http", f"unix:{self.http}", "--workers", "2", "--drain", str(DRAIN), *words]
        super().__init__(folder, None if there else KEYS.read_bytes(), *words, env=flaky.environment)
        self.errors = pathlib.Path(folder, f"log{time.monotonic_ns()}")
        self.start()

    def lines(self):
        return [line for line in super().lines() if line.what not in ("start", "left_out")]

    def http_stream(self):
        return connected(self.http, PATIENCE)

    def ends(self, number=signal.SIGTERM):
        """Its status, once it was told to end; None where it runs on."""
        if number:
            self.run.send_signal(number)
        with contextlib.suppress(subprocess.TimeoutExpired):
            return self.run.wait(DRAIN + BEYOND)
        return None


def talked(daemon, seconds):
    """What clients of both kinds met in so many seconds, while the daemon reads its key file anew."""
    with contextlib.ExitStack() as stack:
        frames = [stack.enter_context(connected(daemon.path, PATIENCE)) for _ in range(CLIENTS)]
        over_http = [stack.enter_context(daemon.http_stream()) for _ in range(CLIENTS)]
        clients = [Talking(lambda it=stream: piped(it)) for stream in frames]
        clients += [Talking(lambda it=stream: verified(it)) for stream in over_http]
        until = time.monotonic() + seconds
        daemon.put_keys(KEYS.read_bytes() + b"# changed\n")
        daemon.run.send_signal(signal.SIGHUP)
        yield "the changed key file is read", awaited(lambda: daemon.told("keys_read")) > 0, True
        time.sleep(max(0, until - time.monotonic()))
        for one in clients:
            one.is_over = True
        for one in clients:
            one.join(PATIENCE)
        yield "what the clients met", [one.fault for one in clients], [None] * len(clients)
        yield "each was served", all(one.times for one in clients), True


def second_one(daemon):
    """A second daemon, which meets the same, is refused the path."""
    with contextlib.suppress(subprocess.TimeoutExpired):
        second = refused(daemon.path, *daemon.words[:-2], "--drain", "1", keys=daemon.keys, **daemon.how)
        return second.returncode, second.stderr
    return None


def kept_up(folder, flaky, seconds):
    """One daemon from its start to its end, and one that takes its place."""
    daemon = Meeting(folder, flaky)
    try:
        yield "its first line", daemon.run.first.startswith(f"listening at {daemon.path}: "), True
        if not daemon.run.first:
            return
        yield from talked(daemon, seconds)
        due = f"error: unix:{daemon.http}: process {daemon.run.pid} has it; end that process first, or give another path\n"
        yield "a second one", second_one(daemon), (3, due)
        other = Meeting(folder, flaky, "--replace")
        try:
            yield "one that takes its place", other.run.first.startswith(f"listening at {other.path}: "), True
            yield "the end of the one that is replaced", daemon.ends(None), 0
            told = [line.what for line in daemon.lines() if line.what != "keys_read"]
            yield "what it told", [what for what in told if what != "system_fault"], ["replaced", "drain", "end"]
            yield "signals that couldn't be read", system_faults(daemon), {SIGNALS_FAULT + "Invalid argument (os error 22)"}
            with connected(other.path, PATIENCE) as stream:
                yield "the next one's replies", piped(stream), None
            yield "its end at a signal", other.ends(), 0
        finally:
            other.close()
    finally:
        daemon.close()


def system_faults(daemon):
    """What the daemon told of steps that the system refused."""
    return {line.fields["fault"] for line in daemon.lines() if line.what == "system_fault"}


def counted(folder, flaky):
    """`serve` with its two clients."""
    path = f"{folder}/counted"
    with serving(path, accept=2, env=flaky.environment) as run:
        for _ in range(2):
            with connected(path, PATIENCE) as stream:
                yield "a client of `serve`", piped(stream), None
        yield "how `serve` ends", (run.stdout.read(), run.wait(PATIENCE)), ("served 2 faults 0\n", 0)


def row_of(seed, library, seconds):
    """The row of a sequence, and what was wrong."""
    with tempfile.TemporaryDirectory() as folder, Flaky(seed, library) as flaky:
        seen = [*kept_up(folder, flaky, seconds), *counted(folder, flaky)]
        came = {"broken off": flaky.broken_off, "cut short": flaky.cut_short, "held up": flaky.held_up}
        seen.append(("calls of each kind", all(came.values()), True))
        seen.append(("reads of signals", flaky.of_signals >= 6, True))
        seen.append(("calls never broken off", [name for name, times in flaky.of_calls.items() if not times], []))
    what = f"listen and serve, calls broken off, cut short and held up, sequence {seed}"
    found = [f"{what}: {name}: {got!r} where {due!r} is due" for name, got, due in seen if got != due]
    return Row(what, sum(came.values()), collections.Counter(came)), found


def rows(seeds=SEEDS, seconds=10):
    """A row for each sequence, while clients ask for so many seconds."""
    for seed in seeds:
        yield row_of(seed, Watch.flaky, seconds)
