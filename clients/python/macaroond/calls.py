"""What a call asks, and what its reply means: the same for threads and for tasks."""
from __future__ import annotations

import secrets
from typing import Any, Callable, Iterable, Iterator, List, NamedTuple, Optional, Tuple

from .doubts import warn_of
from .errors import Refused, refusal
from .forms import Form
from .text import Text
from .tokens import form_of, given
from .verdict import verdict
from .wire import attenuate_request, framed, mint_request, verify_request

TOKEN = 1
# How many random bytes the identifier of a token tells, where none is given.
DRAWN_BYTES = 16
# A token and the facts that are known of its use.
Asked = Tuple[Text, Iterable[Text]]
# How many requests, and about how many bytes, go out together where many are asked; and how many such batches at most are out.
BATCH_REQUESTS, BATCH_BYTES, BATCHES_OUT = 256, 65_536, 8


class Call(NamedTuple):
    """A request's frame, and what its reply means. One that `may_repeat` comes to the same if it is sent twice."""

    frame: bytes
    meaning: Callable[[bytes], Any]
    may_repeat: bool


def mint_call(key: Text, identifier: Optional[Text], location: Text, caveats: Iterable[Text], form: Form) -> Call:
    caveats = list(caveats)
    meant = secrets.token_hex(DRAWN_BYTES) if identifier is None else identifier
    payload = mint_request(key, meant, location, caveats, form)
    warn_of(caveats)
    return Call(framed(payload), lambda reply: token_of(reply, form), False)


def attenuate_call(token: Text, caveats: Iterable[Text], form: Optional[Form]) -> Call:
    written, caveats = form_of(token) if form is None else form, list(caveats)
    payload = attenuate_request(token, caveats, written)
    warn_of(caveats)
    return Call(framed(payload), lambda reply: token_of(reply, written), True)


def verify_call(key: Text, token: Text, facts: Iterable[Text], at: Optional[float]) -> Call:
    return Call(framed(verify_request(key, token, facts, at)), lambda reply: verdict(reply, token), True)


def raw_call(payload: bytes) -> Call:
    return Call(framed(payload), bytes, False)


def token_of(reply: bytes, form: Form) -> Any:
    """The token that a reply brings, or the error that it tells."""
    if reply[0] == TOKEN:
        return given(reply[1:], form)
    raise refusal(reply[0]) if len(reply) == 1 else Refused(reply[0])


class Run:
    """Calls that are gathered to go out together."""

    def __init__(self) -> None:
        self.calls: List[Call] = []
        self.size = 0

    def takes(self, call: Call) -> bool:
        """Takes a call in, and tells whether the run is full."""
        self.calls.append(call)
        self.size += len(call.frame)
        return len(self.calls) == BATCH_REQUESTS or self.size >= BATCH_BYTES

    def taken(self) -> List[Call]:
        """The calls that it has; from now on it gathers others."""
        calls, self.calls, self.size = self.calls, [], 0
        return calls


def batches(calls: Iterable[Call]) -> Iterator[List[Call]]:
    """The calls in runs that go out together."""
    run = Run()
    for call in calls:
        if run.takes(call):
            yield run.taken()
    if run.calls:
        yield run.taken()
