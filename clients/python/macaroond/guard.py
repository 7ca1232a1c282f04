"""What the middlewares have in common: the token of a request, what becomes of the request, and when the
daemon isn't asked.

What a client is told is what the daemon tells over HTTP, as far as a response of the service's own can
have it (docs/HTTP.md).
"""
from __future__ import annotations

import logging
import re
from http import HTTPStatus
from typing import Dict, Iterable, NamedTuple, Optional, Sequence
from urllib.parse import quote

from .breaker import Breaker
from .errors import BadRequest, Disconnected, MacaroondError, NotPlain, Refused, TimedOut
from .verdict import UNSATISFIED, Verdict

# Under this name an application finds the identifier of the token that was granted.
IDENTIFIER = "macaroond.identifier"
# How many seconds a guard waits for a verdict, where nothing else is said.
GUARD_TIMEOUT = 1.0
# Each refusal is logged here, where no other logger is given.
LOGGER = logging.getLogger("macaroond.guard")

# Why a request isn't let through where no number of a reply says it.
NO_TOKEN, PATH, FACTS, AWAY, LATE, FAILED = "no_token", "path", "facts", "away", "late", "failed"
GRANTED = "granted"


class Judgement(NamedTuple):
    """What became of a request, for a hook and for the log. It has nothing of the token, of a fact or of
    a caveat's text but whose a granted token is.

    `reason` is `granted`, the number of the daemon's refusal (docs/FORMATS.md) as a text, or a word:
    `no_token`, `path` (it isn't plain), `facts` (no request can tell them), `away` (there is no
    connection to the daemon), `late` (it gave no reply in time) or `failed` (any other error).
    """

    status: HTTPStatus
    reason: str
    # The place of the caveat that isn't satisfied, from 0.
    caveat: Optional[int] = None
    # The challenge is that of RFC 6750, section 3.
    challenge: Optional[str] = None
    identifier: Optional[str] = None

    def __bool__(self) -> bool:
        """Whether the request is let through."""
        return self.reason == GRANTED

    def __str__(self) -> str:
        """As it stands in the log: `status=403 reason=24 caveat=0`."""
        place = "" if self.caveat is None else f" caveat={self.caveat}"
        return f"status={self.status.value} reason={self.reason}{place}"

    def told(self) -> Optional[str]:
        """What `Macaroon-Reason` tells: why a request is forbidden, and nothing of any other refusal."""
        if self.status != HTTPStatus.FORBIDDEN:
            return None
        return self.reason if self.caveat is None else f"{self.reason} {self.caveat}"

    def body(self) -> bytes:
        return f"{self.status.phrase}\n".encode()

    def headers(self) -> Dict[str, str]:
        """The fields of the response to a request that isn't let through."""
        fields = {
            "Content-Type": "text/plain; charset=utf-8",
            "Content-Length": str(len(self.body())),
            "WWW-Authenticate": self.challenge,
            "Macaroon-Reason": self.told(),
        }
        return {name: value for name, value in fields.items() if value is not None}

    def log(self, logger: logging.Logger, request_id: Optional[str] = None) -> None:
        """Logs a refusal, with the request's id: as a warning where there was no verdict."""
        if not self:
            level = logging.WARNING if self.status == HTTPStatus.SERVICE_UNAVAILABLE else logging.INFO
            logger.log(level, "macaroon refused: %s%s", self, "" if request_id is None else f" id={request_id}")


WITHOUT_TOKEN = Judgement(HTTPStatus.UNAUTHORIZED, NO_TOKEN, challenge="Macaroon")
DAEMON_AWAY = Judgement(HTTPStatus.SERVICE_UNAVAILABLE, AWAY)
# The ids of requests that are logged, as the daemon has them: a signature has more letters, so none is a token.
REQUEST_ID = re.compile(rb"[A-Za-z0-9._-]{1,40}")
SCHEMES = {b"macaroon": "Macaroon", b"bearer": "Bearer"}
# What stands in a path as it is sent (RFC 3986, section 3.3), beside letters, digits and `-._~`.
SENT_PLAINLY = "/:@!$&'()*+,;="


class Credentials(NamedTuple):
    """The token of a request, and the scheme by which it came."""

    scheme: str
    token: bytes


def credentials(fields: Sequence[bytes]) -> Optional[Credentials]:
    """What the one Authorization field of a request brings; of two, others may have looked at the other one."""
    if len(fields) != 1:
        return None
    scheme, _, token = fields[0].strip().partition(b" ")
    name, token = SCHEMES.get(scheme.lower()), token.strip()
    return Credentials(name, token) if name and token else None


def request_id(fields: Sequence[bytes]) -> Optional[str]:
    """What the one X-Request-Id field of a request brings, where that may be logged."""
    return fields[0].decode() if len(fields) == 1 and REQUEST_ID.fullmatch(fields[0]) else None


def sent(path: bytes) -> bytes:
    """What clients send for a path, for servers that tell it decoded alone."""
    return quote(path, safe=SENT_PLAINLY).encode()


def judged(verdict: Verdict, scheme: str) -> Judgement:
    """A caveat that isn't satisfied forbids this request; another token would be no better than a bad one."""
    if verdict:
        return Judgement(HTTPStatus.OK, GRANTED, identifier=verdict.identifier or "")
    if verdict.code == UNSATISFIED:
        return Judgement(HTTPStatus.FORBIDDEN, str(verdict.code), verdict.caveat, f'{scheme} error="insufficient_scope"')
    return Judgement(HTTPStatus.UNAUTHORIZED, str(verdict.code), challenge=f'{scheme} error="invalid_token"')


def failed(error: MacaroondError) -> Judgement:
    """Where there is no verdict, nothing is let through."""
    if isinstance(error, NotPlain):
        return Judgement(HTTPStatus.FORBIDDEN, PATH)
    if isinstance(error, BadRequest):
        return Judgement(HTTPStatus.BAD_REQUEST, FACTS)
    if isinstance(error, Refused):
        return Judgement(HTTPStatus.SERVICE_UNAVAILABLE, str(error.code))
    if isinstance(error, Disconnected):
        return DAEMON_AWAY
    return Judgement(HTTPStatus.SERVICE_UNAVAILABLE, LATE if isinstance(error, TimedOut) else FAILED)


def note(breaker: Breaker, error: MacaroondError) -> None:
    """Notes what an error says of the daemon: that it gives no replies, or that it does; a request that
    can't be told was never sent."""
    if isinstance(error, (Disconnected, TimedOut)):
        breaker.failed()
    elif not isinstance(error, BadRequest):
        breaker.succeeded()


def is_safe(method: str) -> bool:
    """Whether a method asks for no change (RFC 9110, section 9.2.1); methods are told apart by case."""
    return method in ("GET", "HEAD", "OPTIONS", "TRACE")


def method_facts(method: str) -> Iterable[str]:
    """`method = GET`, and `method is safe` where it is."""
    yield f"method = {method}"
    if is_safe(method):
        yield "method is safe"
