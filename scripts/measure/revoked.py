#!/usr/bin/env python3
"""What a list of tokens that were taken back costs `macaroond listen`.

    revoked.py [LINES ..]

For each number of lines (10 and 1,000,000 without one) a list is made of identifiers as a mint draws them, none of which
is asked for. Four lines tell, beside a daemon without a list,

- how many seconds more the start takes that reads it, the least of three;
- its memory then, and at most until then;
- how many seconds pass until a list of one line more is up that is moved over it, and the memory behind that;
- how many nanoseconds of the processor a verify takes more, the median of seven rounds. The tokens have no caveat and are
  remembered, so that little else is done; each has an identifier of its own.

Asks for bin/macaroond, or the program that MACAROOND names.
"""
import multiprocessing
import pathlib
import statistics
import sys
import tempfile
import time

sys.path.insert(0, str(pathlib.Path(__file__).resolve().parents[1]))
from check.revoking import MILLION, TEN, drawn, write_list
from common.daemon import awaited, connected, frame, listening, numbers, received
from common.processes import mebibytes, processor_seconds
from common.tokens import text_of, v2
from measure.remembered import GRANTED, secret

import request

STARTS, ROUNDS, CLIENTS, CONNECTIONS = 3, 7, 4, 4
# How many tokens are asked for, how many of them at once, and how often in a round.
TOKENS, BATCH, REQUESTS = 2_000, 100, 2_000_000


def batches():
    """The frames of verifies of all tokens, so many together."""
    key = secret()
    frames = [frame(request.verify("bank", text_of(v2(key, drawn())), 0)) for _ in range(TOKENS)]
    return [b"".join(frames[at : at + BATCH]) for at in range(0, TOKENS, BATCH)]


def drive(job):
    """Asks these batches over some connections in turn, and gives the number of replies; each is compared."""
    path, asked, count = job
    streams = [connected(path) for _ in range(CONNECTIONS)]
    done = 0
    while done < count:
        for at, stream in enumerate(streams):
            stream.sendall(asked[(done // BATCH + at) % len(asked)])
        for stream in streams:
            if received(stream, len(GRANTED) * BATCH) != GRANTED * BATCH:
                raise SystemExit("a reply was not what is due")
        done += BATCH * CONNECTIONS
    return done


def cost(clients, path, pid, asked, count=REQUESTS):
    """How many nanoseconds of the processor a daemon takes for each of so many verifies."""
    before = processor_seconds(pid)
    done = sum(clients.map(drive, [(path, asked, count // CLIENTS)] * CLIENTS, 1))
    return (processor_seconds(pid) - before) / done * 1e9


def started(*words):
    """How many seconds pass until clients can connect, and the memory then and at most, in MiB."""
    begin = time.monotonic()
    with listening(*words) as (_, run):
        return time.monotonic() - begin, mebibytes(run.pid), mebibytes(run.pid, "VmHWM")


def least_of_starts(*words):
    return min(started(*words) for _ in range(STARTS))


def lines_up(path):
    """How many lines of its list are up, as the daemon tells."""
    return int(numbers(path)["revoked"])


def changed(revoked, count):
    """How many seconds pass until a list of one line more is up, and the memory behind that."""
    with listening("--revoked", revoked) as (path, run):
        awaited(lambda: lines_up(path) == count)
        write_list(f"{revoked}.new", count + 1)
        begin = time.monotonic()
        pathlib.Path(f"{revoked}.new").rename(revoked)
        awaited(lambda: lines_up(path) == count + 1)
        return time.monotonic() - begin, mebibytes(run.pid), mebibytes(run.pid, "VmHWM")


def looks(clients, revoked, asked):
    """What a verify costs without a list, and how much more beside it, round by round."""
    with listening() as (bare, one), listening("--revoked", revoked) as (listed, other):
        for path, run in ((bare, one), (listed, other)):
            cost(clients, path, run.pid, asked, 4 * CLIENTS * TOKENS)
        for _ in range(ROUNDS):
            without = cost(clients, bare, one.pid, asked)
            yield without, cost(clients, listed, other.pid, asked) - without


def measure(clients, asked, bare, folder, count):
    revoked = f"{folder}/{count}"
    write_list(revoked, count)
    seconds, memory, most = least_of_starts("--revoked", revoked)
    print(f"{count:,} lines: read in {seconds - bare[0]:.2f} s", flush=True)
    print(f"    {memory:.0f} MiB, {most:.0f} at most, where {bare[1]:.0f} and {bare[2]:.0f} are without a list", flush=True)
    seconds, memory, most = changed(revoked, count)
    print(f"    a changed one is up in {seconds:.2f} s: {memory:.0f} MiB, {most:.0f} at most", flush=True)
    without, more = map(statistics.median, zip(*looks(clients, revoked, asked)))
    print(f"    a look takes {more:.0f} ns, beside {without:.0f} of a verify", flush=True)


def main(words):
    bare, asked = least_of_starts(), batches()
    with multiprocessing.Pool(CLIENTS) as clients, tempfile.TemporaryDirectory() as folder:
        for count in map(int, words or (TEN, MILLION)):
            measure(clients, asked, bare, folder, count)


if __name__ == "__main__":
    main(sys.argv[1:])
