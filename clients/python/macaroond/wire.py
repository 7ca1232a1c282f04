"""Requests and replies as bytes, in version two of the wire (docs/FORMATS.md, *Frames, requests and replies*)."""
from __future__ import annotations

import collections
import struct
from typing import Callable, Deque, Iterable, List, NamedTuple, Optional

from .errors import BadRequest, Disconnected
from .text import Text, bytes_of

# What a stream of version two begins with.
HELLO = b"\x02"
# The most bytes of a request's payload, of a token, and of a fact that can equal a caveat.
FRAME_MAX, TOKEN_MAX, CAVEAT_MAX = 65_536, 32_768, 4_096
# The fewest and the most bytes of a reply's payload: its place, a byte, and perhaps a token.
REPLY_MIN, REPLY_MAX = 9, 9 + TOKEN_MAX
# The numbers of a verify at a moment, and of one at the daemon's clock that asks whose a granted token is.
AT_A_MOMENT, OWNER_NOW = b"\x03", b"\x05"
# A reply's front: the length of its payload, and its place.
FRONT = struct.Struct(">IQ")


def sized(content: bytes, width: int, name: str) -> bytes:
    """The bytes behind their length, a number of `width` bytes."""
    if len(content) >> 8 * width:
        raise BadRequest(16, f"the {name} has {len(content)} bytes, more than a request can tell")
    return len(content).to_bytes(width, "big") + content


def listed(contents: List[bytes], name: str) -> bytes:
    """How many there are, and each behind its length."""
    if len(contents) > 255:
        raise BadRequest(16, f"{len(contents)} are more {name}s than a request can tell")
    return bytes((len(contents),)) + b"".join([sized(content, 2, name) for content in contents])


def framed(payload: bytes) -> bytes:
    """A request's payload behind its length."""
    if len(payload) > FRAME_MAX:
        raise BadRequest(17, f"the request has {len(payload)} bytes, and {FRAME_MAX} are the most")
    return len(payload).to_bytes(4, "big") + payload


def mint_request(key: Text, identifier: Text, location: Text, caveats: Iterable[Text], form: int) -> bytes:
    front = b"\x01" + bytes((form,)) + sized(bytes_of(key), 1, "key's name")
    fields = sized(bytes_of(location), 2, "location") + sized(bytes_of(identifier), 2, "identifier")
    return front + fields + listed([bytes_of(caveat) for caveat in caveats], "caveat")


def attenuate_request(token: Text, caveats: Iterable[Text], form: int) -> bytes:
    front = b"\x02" + bytes((form,)) + told_token(token)
    return front + listed([bytes_of(caveat) for caveat in caveats], "caveat")


def verify_request(key: Text, token: Text, facts: Iterable[Text], at: Optional[float]) -> bytes:
    """A fact that is longer than any caveat satisfies none, and so it is left out.

    Without a moment the daemon's clock is asked, and the reply tells whose a granted token is.
    """
    told = [fact for fact in map(bytes_of, facts) if len(fact) <= CAVEAT_MAX]
    kind, second = (OWNER_NOW, b"") if at is None else (AT_A_MOMENT, moment(at))
    return kind + sized(bytes_of(key), 1, "key's name") + told_token(token) + second + listed(told, "fact")


def told_token(token: Text) -> bytes:
    """A token that is too long is cut to one that is too long by a byte: the daemon answers both alike."""
    return sized(bytes_of(token)[: TOKEN_MAX + 1], 2, "token")


class Owner(NamedTuple):
    """Whose a granted token is, and the location that it has, which nobody signed."""

    identifier: bytes
    location: bytes


def owner(fields: bytes) -> Owner:
    """What the fields of a reply tell that says whose a token is."""
    end = 2 + int.from_bytes(fields[:2], "big")
    return Owner(fields[2:end], fields[end + 2 :])


def moment(at: float) -> bytes:
    """The moment of a verify."""
    second = int(at)
    if not 0 <= second < 2**64:
        raise BadRequest(16, f"{second} is no number of seconds since 1970")
    return second.to_bytes(8, "big")


class Batch:
    """Requests that went out together, and the replies that have come to them; `wake` is called at its end."""

    __slots__ = ("due", "replies", "fault", "wake")

    def __init__(self, due: int, wake: Callable[[], object]) -> None:
        self.due = due
        self.replies: List[bytes] = []
        self.fault: Optional[Disconnected] = None
        self.wake = wake

    def answers(self) -> List[bytes]:
        """The replies, once it has been woken."""
        if self.fault is not None:
            raise Disconnected(str(self.fault)) from self.fault
        return self.replies


class Ledger:
    """The requests that are out on a connection, in order: each reply goes to the first that has none."""

    def __init__(self) -> None:
        self.waiting: Deque[Batch] = collections.deque()
        self.received = b""
        self.place = 0

    def expect(self, batch: Batch) -> None:
        self.waiting.append(batch)

    def take(self, piece: bytes) -> None:
        """Takes in what came. A reply of another place than is due, or of no request, is a fault."""
        received = self.received + piece if self.received else piece
        at, end, place = 0, len(received), self.place
        while end - at >= FRONT.size:
            size, told = FRONT.unpack_from(received, at)
            if told != place or not REPLY_MIN <= size <= REPLY_MAX:
                raise Disconnected(f"a reply of place {told} and {size} bytes came where that of place {place} was due")
            stop = at + 4 + size
            if stop > end:
                break
            self.hand(received[at + FRONT.size : stop])
            at, place = stop, place + 1
        self.received, self.place = received[at:], place

    def hand(self, reply: bytes) -> None:
        """Hands a reply to the first batch that lacks one."""
        if not self.waiting:
            raise Disconnected("a reply came to no request")
        batch = self.waiting[0]
        batch.replies.append(reply)
        if len(batch.replies) == batch.due:
            self.waiting.popleft()
            batch.wake()

    def end(self, fault: Disconnected) -> None:
        """Tells all that wait that no reply will come."""
        while self.waiting:
            batch = self.waiting.popleft()
            batch.fault = fault
            batch.wake()
