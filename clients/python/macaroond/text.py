"""Texts and bytes: a token's fields are bytes, which are mostly UTF-8."""
from __future__ import annotations

from typing import Union

from .errors import BadRequest

Text = Union[str, bytes]


def bytes_of(text: Text) -> bytes:
    """The bytes of a text: UTF-8, but for bytes that `text_of` couldn't tell, which come back as they were."""
    if isinstance(text, bytes):
        return text
    try:
        return text.encode("utf-8", "surrogateescape")
    except UnicodeEncodeError as fault:
        raise BadRequest(16, "a text has half of a surrogate pair") from fault


def text_of(content: bytes) -> str:
    """The text of these bytes; one that isn't UTF-8 stands as a lone surrogate (PEP 383)."""
    return content.decode("utf-8", "surrogateescape")


def shown(content: bytes) -> str:
    """The bytes as a log or a terminal may be shown them, as the command line writes them: printable ASCII
    as it is, and any other byte and the backslash as `\\x` and two digits."""
    return "".join(chr(byte) if 32 <= byte <= 126 and byte != 92 else f"\\x{byte:02x}" for byte in content)
