"""A guard for a WSGI application (PEP 3333)."""
from __future__ import annotations

import logging
from typing import Any, Callable, Dict, Iterable, List, Optional

from .breaker import Breaker
from .client import Client
from .errors import MacaroondError
from .facts import path_facts
from .guard import (
    DAEMON_AWAY,
    GUARD_TIMEOUT,
    IDENTIFIER,
    LOGGER,
    SCHEMES,
    WITHOUT_TOKEN,
    Credentials,
    Judgement,
    credentials,
    failed,
    judged,
    method_facts,
    note,
    request_id,
    sent,
)
from .text import Text

Environ = Dict[str, Any]
Application = Callable[[Environ, Callable[..., Any]], Iterable[bytes]]


def no_facts(environ: Environ) -> Iterable[Text]:
    return ()


def request_facts(environ: Environ) -> List[Text]:
    """The method and the path of a request, for `facts`; `NotPlain` where the path isn't plain."""
    return [*method_facts(environ["REQUEST_METHOD"]), *path_facts(target(environ))]


def strict_request_facts(environ: Environ) -> List[Text]:
    """The same, where the path is read strictly."""
    return [*method_facts(environ["REQUEST_METHOD"]), *path_facts(target(environ), strict=True)]


def target(environ: Environ) -> bytes:
    """The request's target as it was sent, where the server tells it; else what is sent for such a path."""
    told = environ.get("REQUEST_URI") or environ.get("RAW_URI")
    if told:
        # What isn't Latin-1 is no text of PEP 3333; a backslash in its place is in no plain path.
        return str(told).encode("latin-1", "backslashreplace")
    path = environ.get("SCRIPT_NAME", "") + environ.get("PATH_INFO", "")
    return sent(path.encode("latin-1", "backslashreplace")) or b"/"


def authorizations(environ: Environ) -> List[bytes]:
    """The Authorization fields; servers put commas between them, which no token has that is base64 text."""
    told = environ.get("HTTP_AUTHORIZATION")
    if told is None:
        return []
    value = told.encode("latin-1", "replace")
    scheme, _, token = value.strip().partition(b" ")
    is_json = scheme.lower() in SCHEMES and token.strip().startswith(b"{")
    return [value] if is_json else value.split(b",")


class RequireMacaroon:
    """Lets those requests through to an application whose token is granted.

    The token stands in the one `Authorization` field, as `Macaroon TOKEN` or `Bearer TOKEN`.

    `facts` tells what is known of a request; the token's caveats are looked at against that and the
    daemon's clock. The application finds the token's identifier in `environ["macaroond.identifier"]`.
    A request without a token, with two or with a bad one is answered 401, one that a caveat forbids or
    whose `facts` raise `NotPlain` 403 with `Macaroon-Reason`, one whose facts no request can tell 400,
    and each one 503 while the daemon gives no verdict.

    A verdict is waited for `timeout` seconds at most, or as long as the client waits if that is less.
    While the daemon is known to be away, requests are refused at once. Each refusal is logged to
    `logger`, and `hook` is called with each request's environ and `Judgement`.
    """

    def __init__(
        self,
        application: Application,
        client: Client,
        key: Text,
        facts: Callable[[Environ], Iterable[Text]] = no_facts,
        *,
        timeout: float = GUARD_TIMEOUT,
        logger: logging.Logger = LOGGER,
        hook: Optional[Callable[[Environ, Judgement], None]] = None,
    ) -> None:
        self.application = application
        self.client = client
        self.key = key
        self.facts = facts
        self.timeout = timeout
        self.logger = logger
        self.hook = hook
        self.breaker = Breaker(timeout)

    def __call__(self, environ: Environ, start_response: Callable[..., Any]) -> Iterable[bytes]:
        found = self.judge(environ)
        found.log(self.logger, request_id([environ.get("HTTP_X_REQUEST_ID", "").encode("latin-1", "replace")]))
        if self.hook is not None:
            self.hook(environ, found)
        if found:
            return self.application({**environ, IDENTIFIER: found.identifier}, start_response)
        start_response(f"{found.status.value} {found.status.phrase}", list(found.headers().items()))
        return [found.body()]

    def judge(self, environ: Environ) -> Judgement:
        """What becomes of a request: it is let through, or why not."""
        brought = credentials(authorizations(environ))
        if brought is None:
            return WITHOUT_TOKEN
        try:
            facts = list(self.facts(environ))
            return self.asked(brought, facts) if self.breaker.allows() else DAEMON_AWAY
        except MacaroondError as error:
            return failed(error)

    def asked(self, brought: Credentials, facts: List[Text]) -> Judgement:
        """What the daemon says of the token, and whether it says anything."""
        try:
            verdict = self.client.verify(self.key, brought.token, facts, timeout=self.timeout)
        except MacaroondError as error:
            note(self.breaker, error)
            raise
        self.breaker.succeeded()
        return judged(verdict, brought.scheme)
