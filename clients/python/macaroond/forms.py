"""The forms of a token."""
from __future__ import annotations

import enum


class Form(enum.IntEnum):
    """A form in which a token is written; the numbers are those of the wire."""

    V1_TEXT = 1
    """Base64 of version 1 packets."""
    V2_BINARY = 2
    """Version 2 binary: the one form that is bytes, and no text."""
    V2_JSON = 3
    """Version 2 JSON."""
    V2_TEXT = 4
    """Base64 of version 2 binary."""
