#!/usr/bin/env python3
"""What connections cost `macaroond listen` that say nothing: its memory and its processor time.

    idle.py [CONNECTIONS ..] [-- WORD ..]

For each number (1,000 and 9,950 without one) so many connections are made, each asks once, and then
all are silent for five seconds. A line tells how many were answered, the daemon's memory, and how
many ticks of the processor (of 10 ms) it took in those seconds. Asks for bin/macaroond, or the
program that MACAROOND names, and gives it the last words too. It raises its limit of descriptors as
far as it may; each connection takes one on either side.
"""
import contextlib
import pathlib
import resource
import sys
import time

sys.path.insert(0, str(pathlib.Path(__file__).resolve().parents[1]))
from common.daemon import connected, listening
from common.processes import mebibytes, ticks

ASKED, DUE = bytes(4), bytes([0, 0, 0, 1, 16])
COUNTS, SILENT = [1000, 9950], 5


def joined(path):
    """A connection, once the system has room for one more that waits to be accepted."""
    while True:
        with contextlib.suppress(BlockingIOError):
            return connected(path)
        time.sleep(0.01)


def silence(path, pid, count):
    """The line for so many connections."""
    with contextlib.ExitStack() as until:
        streams = [until.enter_context(joined(path)) for _ in range(count)]
        for stream in streams:
            stream.sendall(ASKED)
        answered = sum(stream.recv(len(DUE)) == DUE for stream in streams)
        time.sleep(1)
        before = ticks(pid)
        time.sleep(SILENT)
        return f"{count} connections, {answered} answered: {mebibytes(pid):.1f} MiB, {ticks(pid) - before} ticks"


def main():
    split = sys.argv.index("--") if "--" in sys.argv else len(sys.argv)
    counts, words = [int(it) for it in sys.argv[1:split]] or COUNTS, sys.argv[split + 1 :]
    most = resource.getrlimit(resource.RLIMIT_NOFILE)[1]
    resource.setrlimit(resource.RLIMIT_NOFILE, (most, most))
    for count in counts:
        with listening(*words) as (path, run):
            print(silence(path, run.pid, count))


if __name__ == "__main__":
    main()
