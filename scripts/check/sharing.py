#!/usr/bin/env python3
"""How connections share what there is: who gives way to a further one, and that neither socket shuts the other out."""
import contextlib
import pathlib
import sys
import time

sys.path.insert(0, str(pathlib.Path(__file__).resolve().parents[1]))
from check.daemon_rows import MINT, NO_REQUEST, TOKEN
from common import KEYS
from common.daemon import REST, Daemon, awaited, connected, frame, received, reply_to
from common.rows import in_folders, judged

# How many connections there may be, and how many a flood brings.
MOST, FLOOD = 8, 16
MINTED = b"\x01" + TOKEN


@contextlib.contextmanager
def meeting(folder, *words):
    """A daemon of two sockets, and the path of the second one."""
    verify = f"{folder}/verify"
    daemon = Daemon(folder, KEYS.read_bytes(), "--verify-socket", verify, "--connections", str(MOST), *words)
    with daemon.start().run as run:
        try:
            yield daemon, verify
        finally:
            run.kill()


def served(stream):
    """Whether a connection is answered, and hasn't ended."""
    try:
        stream.sendall(frame(b""))
        return received(stream, len(NO_REQUEST)) == NO_REQUEST
    except OSError:
        return False


def taken(stack, path):
    """A connection that comes once others have rested, and whether it was answered. It stays as long as this stack."""
    time.sleep(REST)
    stream = stack.enter_context(connected(path))
    return stream, served(stream)


def flooded(stack, path, count=FLOOD):
    """So many connections that come one after the other and rest: which of them were answered."""
    return [taken(stack, path) for _ in range(count)]


def live(streams):
    """How many of these are answered still."""
    return sum(served(stream) for stream, _ in streams)


def verifiers_first(folder):
    """A flood at the second socket has all places; minters that come then get theirs, up to half of all."""
    with contextlib.ExitStack() as stack, meeting(folder) as (daemon, verify):
        flood = flooded(stack, verify)
        yield "each was answered as it came", all(was for _, was in flood), True
        minters = [stack.enter_context(connected(daemon.path)) for _ in range(MOST // 2)]
        yield "minters mint", [reply_to(stream, MINT) for stream in minters], [MINTED] * len(minters)
        more = flooded(stack, verify)
        yield "a further flood is answered", all(was for _, was in more), True
        yield "minters mint still", [reply_to(stream, MINT) for stream in minters], [MINTED] * len(minters)
        yield "of the flood half is there", live(flood + more), MOST // 2


def minters_first(folder):
    """The other way round."""
    with contextlib.ExitStack() as stack, meeting(folder) as (daemon, verify):
        flood = flooded(stack, daemon.path)
        verifiers = [taken(stack, verify) for _ in range(MOST // 2)]
        flood += flooded(stack, daemon.path)
        yield "each was answered as it came", all(was for _, was in flood + verifiers), True
        yield "verifiers are there still", live(verifiers), MOST // 2
        yield "of the flood half is there", live(flood), MOST // 2


def bounded(folder):
    """The second socket has no more than it may, and one of its own gives way."""
    with contextlib.ExitStack() as stack, meeting(folder, "--verify-connections", "2") as (daemon, verify):
        minters = [stack.enter_context(connected(daemon.path)) for _ in range(MOST - 2)]
        yield "minters mint", [reply_to(stream, MINT) for stream in minters], [MINTED] * len(minters)
        flood = flooded(stack, verify)
        yield "each was answered as it came", all(was for _, was in flood), True
        yield "minters mint still", [reply_to(stream, MINT) for stream in minters], [MINTED] * len(minters)
        yield "of the flood two are there", live(flood), 2
        told = awaited(lambda: [line.fields for line in daemon.lines() if line.what == "limit_reached"])
        yield "it is told", told and told[0], {"limit": "verify-connections", "connections": "2"}


def longest_rest(folder):
    """The one that has rested longest gives way, and not one that asks now and then."""
    with contextlib.ExitStack() as stack, meeting(folder) as (daemon, _):
        streams = flooded(stack, daemon.path, MOST)
        first, second = streams[0][0], streams[1][0]
        yield "the first one asks again", served(first), True
        yield "a further one is answered", taken(stack, daemon.path)[1], True
        yield "the second one has gone", served(second), False
        yield "the first one is there", served(first), True
        yield "and all others", live(streams[2:]), MOST - 2


def just_answered(folder):
    """One that was answered just now gives way to none of its own socket: those that come are closed."""
    with contextlib.ExitStack() as stack, meeting(folder) as (daemon, _):
        streams = flooded(stack, daemon.path, MOST)
        for _ in range(3):
            yield "all are answered", live(streams), MOST
            yield "a further one isn't", served(stack.enter_context(connected(daemon.path))), False
        yield "and all are there still", live(streams), MOST


def faults():
    """What went otherwise than it must, and how many checks there were."""
    return judged(in_folders(verifiers_first, minters_first, bounded, longest_rest, just_answered))


if __name__ == "__main__":
    found, checks = faults()
    print(*found, f"{checks - len(found)} passed, {len(found)} failed", sep="\n")
    sys.exit(bool(found))
