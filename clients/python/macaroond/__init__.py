"""A client of `macaroond`, the daemon that mints, attenuates and verifies macaroons.

`Client` is for threads and `AsyncClient` for tasks of asyncio; both have the same calls. `inspect` and
`attenuate` need no daemon. `macaroond.wsgi` and `macaroond.asgi` guard an application.
"""
from .aio import AsyncClient
from .client import Client
from .doubts import CaveatWarning, doubts
from .errors import BadRequest, BadToken, Disconnected, MacaroondError, NoClock, NotAllowed, NotPlain, Refused, TimedOut, UnknownKey
from .facts import path_facts
from .forms import Form
from .tokens import Token, attenuate, inspect
from .verdict import Verdict

__all__ = [
    "AsyncClient",
    "BadRequest",
    "BadToken",
    "CaveatWarning",
    "Client",
    "Disconnected",
    "Form",
    "MacaroondError",
    "NoClock",
    "NotAllowed",
    "NotPlain",
    "Refused",
    "TimedOut",
    "Token",
    "UnknownKey",
    "Verdict",
    "attenuate",
    "doubts",
    "inspect",
    "path_facts",
]
