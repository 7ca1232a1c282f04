"""A guard for an ASGI application (its specification's version 3)."""
from __future__ import annotations

import logging
from typing import Any, Awaitable, Callable, Dict, Iterable, List, Optional

from .aio import AsyncClient
from .breaker import Breaker
from .errors import MacaroondError
from .facts import path_facts
from .guard import (
    DAEMON_AWAY,
    GUARD_TIMEOUT,
    IDENTIFIER,
    LOGGER,
    WITHOUT_TOKEN,
    Credentials,
    Judgement,
    credentials,
    failed,
    judged,
    method_facts,
    note,
    request_id,
    sent,
)
from .text import Text

Scope = Dict[str, Any]
Application = Callable[[Scope, Callable[..., Awaitable[Any]], Callable[..., Awaitable[Any]]], Awaitable[None]]


def no_facts(scope: Scope) -> Iterable[Text]:
    return ()


def request_facts(scope: Scope) -> List[Text]:
    """The method and the path of a request, for `facts`; `NotPlain` where the path isn't plain.

    A WebSocket's method is GET.
    """
    return [*method_facts(scope.get("method", "GET")), *path_facts(target(scope))]


def strict_request_facts(scope: Scope) -> List[Text]:
    """The same, where the path is read strictly."""
    return [*method_facts(scope.get("method", "GET")), *path_facts(target(scope), strict=True)]


def target(scope: Scope) -> bytes:
    """The request's target as it was sent, where the server tells it; else what is sent for such a path."""
    return scope.get("raw_path") or sent(scope["path"].encode("utf-8", "surrogateescape"))


def values(scope: Scope, field: bytes) -> List[bytes]:
    """The values of the fields of this name."""
    return [value for name, value in scope["headers"] if name.lower() == field]


class RequireMacaroon:
    """Lets those requests and WebSockets through to an application whose token is granted.

    It answers, waits, logs and tells its hook as `macaroond.wsgi.RequireMacaroon` does; the hook gets the
    scope, and is no coroutine. The application finds the token's identifier in
    `scope["macaroond.identifier"]`. A WebSocket that isn't let through is closed before it opens.
    """

    def __init__(
        self,
        application: Application,
        client: AsyncClient,
        key: Text,
        facts: Callable[[Scope], Iterable[Text]] = no_facts,
        *,
        timeout: float = GUARD_TIMEOUT,
        logger: logging.Logger = LOGGER,
        hook: Optional[Callable[[Scope, Judgement], None]] = None,
    ) -> None:
        self.application = application
        self.client = client
        self.key = key
        self.facts = facts
        self.timeout = timeout
        self.logger = logger
        self.hook = hook
        self.breaker = Breaker(timeout)

    async def __call__(self, scope: Scope, receive: Callable[..., Any], send: Callable[..., Any]) -> None:
        if scope["type"] == "lifespan":
            return await self.application(scope, receive, send)
        found = await self.judge(scope)
        found.log(self.logger, request_id(values(scope, b"x-request-id")))
        if self.hook is not None:
            self.hook(scope, found)
        if found:
            await self.application({**scope, IDENTIFIER: found.identifier}, receive, send)
        elif scope["type"] == "http":
            headers = [(name.lower().encode(), value.encode()) for name, value in found.headers().items()]
            await send({"type": "http.response.start", "status": found.status.value, "headers": headers})
            await send({"type": "http.response.body", "body": found.body()})
        else:
            await send({"type": "websocket.close", "code": 1008})

    async def judge(self, scope: Scope) -> Judgement:
        """What becomes of a request: it is let through, or why not."""
        brought = credentials(values(scope, b"authorization"))
        if brought is None:
            return WITHOUT_TOKEN
        try:
            facts = list(self.facts(scope))
            return await self.asked(brought, facts) if self.breaker.allows() else DAEMON_AWAY
        except MacaroondError as error:
            return failed(error)

    async def asked(self, brought: Credentials, facts: List[Text]) -> Judgement:
        """What the daemon says of the token, and whether it says anything."""
        try:
            verdict = await self.client.verify(self.key, brought.token, facts, timeout=self.timeout)
        except MacaroondError as error:
            note(self.breaker, error)
            raise
        self.breaker.succeeded()
        return judged(verdict, brought.scheme)
