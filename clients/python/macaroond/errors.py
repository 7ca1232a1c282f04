"""What a call can come to that is neither a token nor a verdict."""
from __future__ import annotations

from typing import Dict, Optional, Type

REASONS = {
    16: "the payload is no request",
    17: "the request is too long",
    18: "the key file has no key of this name",
    19: "the token is neither a bare form nor base64 text",
    20: "the bytes are in no form of a token",
    21: "a caveat of the token is third-party",
    22: "a limit is passed",
    23: "the key does not give the signature of the token",
    24: "a caveat is not satisfied",
    26: "a first-party caveat of the token has a location",
    27: "the socket does not allow this request",
    28: "the clock tells no moment",
    29: "the token was taken back",
}


class MacaroondError(Exception):
    """The base of all errors of this package."""


class Disconnected(MacaroondError, ConnectionError):
    """There is no connection, or it ended before the reply came: whether the daemon answered isn't known."""


class TimedOut(MacaroondError, TimeoutError):
    """No reply came in time. The connection stays, and a late reply is dropped."""


class Refused(MacaroondError):
    """The daemon refused the request. `code` is the number of its reply."""

    def __init__(self, code: int, reason: Optional[str] = None) -> None:
        super().__init__(reason or REASONS.get(code, f"the daemon refused with the number {code}"))
        self.code = code


class BadRequest(Refused):
    """What was asked can't be told in a request: a field is too long, or there are too many."""


class UnknownKey(Refused):
    """The daemon has no key of this name."""


class BadToken(Refused):
    """The bytes are no token, or the token that was asked for would pass a limit."""


class NotAllowed(Refused):
    """The daemon's socket doesn't allow this request."""


class NotPlain(MacaroondError):
    """No facts are told of a path that servers may read as another one than it looks; a guard answers 403."""


class NoClock(Refused):
    """The daemon's clock tells no moment: a verify has to give one."""


CLASSES: Dict[int, Type[Refused]] = {
    16: BadRequest,
    17: BadRequest,
    18: UnknownKey,
    19: BadToken,
    20: BadToken,
    21: BadToken,
    22: BadToken,
    26: BadToken,
    27: NotAllowed,
    28: NoClock,
}


def refusal(code: int) -> Refused:
    """The error that a refusal of this number is raised as."""
    return CLASSES.get(code, Refused)(code)
