"""A token as its readers give it and its writers take it."""
from __future__ import annotations

from typing import NamedTuple, Optional, Tuple

SIGNATURE_SIZE = 32


class NoToken(Exception):
    """The bytes spell no token of the form."""


class Caveat(NamedTuple):
    """A caveat; one with a vid is third-party."""

    identifier: bytes
    vid: Optional[bytes] = None
    location: bytes = b""


class Parts(NamedTuple):
    """What a token holds. An empty location is no location."""

    location: bytes
    identifier: bytes
    caveats: Tuple[Caveat, ...]
    signature: bytes


def demand(holds: object) -> None:
    """Ends the reading of what is no token."""
    if not holds:
        raise NoToken


def utf8(content: bytes) -> bytes:
    """The bytes, where they are UTF-8."""
    try:
        content.decode()
    except UnicodeDecodeError:
        raise NoToken from None
    return content
