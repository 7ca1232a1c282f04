"""What a daemon keeps in memory of a key that its key file has no more: `/proc/PID/mem` is searched.

Asked of the secret and of its digits, which no table has. The root key is searched for while it is
up alone: a thread that rests may have the table before. Only what the program may write is looked
at.
"""
import contextlib
import os
import time

from check.changing_keys import dear_verify, verify
from common.daemon import awaited, connected, received, with_keys
from common.rows import judged
from common.tokens import root_of

# A mapping of more bytes than that is none in which keys are.
LARGEST = 1 << 28
# How many connections ask something, so that each loop has one.
CONNECTIONS = 200
# The bytes of a refusal: its length, and its code.
REPLY_BYTES = 5
# What of a key no table has.
SECRET = ("its secret", "its digits")
OLD, NEW = bytes(range(101, 133)), bytes(range(65, 97))


def needles():
    return {"its secret": OLD, "its digits": OLD.hex().encode(), "its root key": root_of(OLD)}


def found(pid):
    """How often each of these stands in the memory of a process."""
    counts = dict.fromkeys(needles(), 0)
    with open(f"/proc/{pid}/maps") as maps, open(f"/proc/{pid}/mem", "rb", 0) as memory:
        for row in maps:
            start, end = (int(part, 16) for part in row.split()[0].split("-"))
            if " rw" not in row or "[v" in row or end - start > LARGEST:
                continue
            with contextlib.suppress(OSError, ValueError, OverflowError):
                memory.seek(start)
                piece = memory.read(end - start)
                for name, needle in needles().items():
                    counts[name] += piece.count(needle)
    return counts


def line_of(secret):
    return f"key bank {secret.hex()}\n"


def rows():
    with with_keys(line_of(OLD), "--loops", "1", "--workers", "1") as daemon:
        before = found(daemon.run.pid)
        yield "the root key is found while it is up, so the search works", before["its root key"] > 0, True
        daemon.put_keys(line_of(NEW))
        awaited(lambda: daemon.told("keys_read"))
        # Each loop and each worker lets go of the old table once it answers a verify.
        for _ in range(CONNECTIONS):
            with connected(daemon.path) as stream:
                stream.sendall(verify("bank", "old") + dear_verify("bank", "old"))
                received(stream, 2 * REPLY_BYTES)
        time.sleep(2)
        after = found(daemon.run.pid)
        yield "of a key that was dropped", {name: after[name] for name in SECRET}, dict.fromkeys(SECRET, 0)


def faults():
    """What is wrong, how many checks there were, and what was left out."""
    if os.geteuid():
        return [], 0, ["a process may be looked into by root alone"]
    return judged(rows())
