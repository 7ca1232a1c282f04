"""`macaroond listen` with tokens that it has seen before: each reply is the one that a new token gets.

Each token is made here, and asked for so often that a daemon that remembers has it. Then what is
asked differs: the facts, the moment, a byte of the token, the name, the keys of the name.
"""
import time

from check.changing_keys import BAD_SIGNATURE, GRANTED, NO_NAME, SECRETS, UP_WITHIN, lines
from common.daemon import connected, frame, received, reply_to, with_keys
from common.processes import mebibytes
from common.rows import judged
from common.tokens import v1

import request

# How often a token is asked for until it is remembered, at least, and then.
TIMES = 5
UNSATISFIED = 24
# How many tokens come in a flood, and how many MiB a daemon may grow by that remembers in one.
FLOOD, MEBIBYTES = 20_000, 12
AT = 1_700_000_000


def token(secret, *caveats, identifier=b"alice"):
    """A token of format one in binary."""
    return v1(SECRETS[secret], identifier, [caveat.encode() for caveat in caveats], b"here")


def asked(stream, name, content, *facts, moment=AT):
    """The reply to a verify: its first byte, and the others."""
    reply = reply_to(stream, request.verify(name, "hex:" + content.hex(), moment, *facts))
    return reply[0], reply[1:]


def many(stream, name, content, *facts, moment=AT):
    """What so many verifies are answered: one reply where all are alike."""
    return {asked(stream, name, content, *facts, moment=moment) for _ in range(TIMES)}


def caveats_are_looked_at(stream):
    """The same token with other facts, and at other moments."""
    good = token("old", "a = 1", "time < 2023-11-14T22:13:21Z", "b = 2")
    granted, first = {(GRANTED, b"")}, {(UNSATISFIED, b"\0\0")}
    yield "granted", many(stream, "bank", good, "a = 1", "b = 2"), granted
    yield "without a fact", many(stream, "bank", good, "b = 2"), first
    yield "without the other", many(stream, "bank", good, "a = 1"), {(UNSATISFIED, b"\0\2")}
    yield "too late", many(stream, "bank", good, "a = 1", "b = 2", moment=AT + 1), {(UNSATISFIED, b"\0\1")}
    yield "granted again", many(stream, "bank", good, "a = 1", "b = 2"), granted


def bytes_are_compared(stream):
    """Each byte of a token in turn is another one, and its front and more than it are no token."""
    good = token("old", "a = 1")
    yield "the token", many(stream, "bank", good, "a = 1"), {(GRANTED, b"")}
    wrong = [good[:at] + bytes([good[at] ^ 1]) + good[at + 1 :] for at in range(len(good))]
    location = good.index(b"here")
    unsigned = range(location, location + 4)
    replies = {asked(stream, "bank", one, "a = 1")[0] for at, one in enumerate(wrong) if at not in unsigned}
    yield "with a wrong byte", GRANTED in replies, False
    yield "with another location", {asked(stream, "bank", wrong[at], "a = 1")[0] for at in unsigned}, {GRANTED}
    signatures = {asked(stream, "bank", wrong[at], "a = 1")[0] for at in range(len(good) - 33, len(good) - 1)}
    yield "with a wrong byte of the signature", signatures, {BAD_SIGNATURE}
    yield "its front", asked(stream, "bank", good[:-1], "a = 1")[0] == GRANTED, False
    yield "more than it", asked(stream, "bank", good + b"\n", "a = 1")[0] == GRANTED, False
    yield "the token again", many(stream, "bank", good, "a = 1"), {(GRANTED, b"")}


def names_are_told_apart(stream):
    """A token that one name's key grants is asked for under another's, and under none."""
    good = token("old")
    yield "its name", many(stream, "bank", good), {(GRANTED, b"")}
    yield "another name", many(stream, "other", good), {(BAD_SIGNATURE, b"")}
    yield "no name", many(stream, "nobody", good), {(NO_NAME, b"")}
    yield "its name again", many(stream, "bank", good), {(GRANTED, b"")}


def keys_change(stream, replace):
    """A key goes and comes back while tokens are remembered that were found good under it."""
    old, new = token("old"), token("new")
    both = [many(stream, "bank", old), many(stream, "bank", new)]
    yield "under the old key", both, [{(GRANTED, b"")}, {(BAD_SIGNATURE, b"")}]
    for names, due in (("new", "old"), [0, 0]), (("new",), [BAD_SIGNATURE, 0]), (("old",), [0, BAD_SIGNATURE]):
        replace(lines(bank=names, other=["other"]))
        both = [many(stream, "bank", old), many(stream, "bank", new)]
        yield f"under {' and '.join(names)}", both, [{(code, b"")} for code in due]


def flood(stream, pid):
    """More tokens than there is room for, each three times: the memory stays as it is."""
    before = mebibytes(pid, "VmHWM")
    for first in range(0, FLOOD, 100):
        frames = [
            frame(request.verify("bank", "hex:" + token("old", identifier=b"%d" % number).hex(), AT))
            for number in range(first, first + 100)
        ]
        for _ in range(3):
            stream.sendall(b"".join(frames))
            if received(stream, 500) != (b"\0\0\0\1" + bytes([GRANTED])) * 100:
                yield "a reply in the flood", "another", "granted"
    grown = mebibytes(pid, "VmHWM") - before
    yield f"grown by {grown:.1f} MiB", grown <= MEBIBYTES, True


def of_daemon(*words):
    """What a daemon with these options was asked, and what it should have answered."""
    with with_keys(lines(bank=["old"], other=["other"]), *words) as daemon, connected(daemon.path) as stream:
        def replace(text):
            daemon.put_keys(text)
            time.sleep(UP_WITHIN)

        yield from caveats_are_looked_at(stream)
        yield from bytes_are_compared(stream)
        yield from names_are_told_apart(stream)
        yield from keys_change(stream, replace)
        yield from flood(stream, daemon.run.pid)


def faults():
    """What was wrong, and how many checks there were."""
    kinds = ([], ["--remember", "1048576"], ["--remember", "0"])
    return judged((f"{words}: {what}", got, due) for words in kinds for what, got, due in of_daemon(*words))
