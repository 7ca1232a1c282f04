"""Base64 text by RFC 4648, sections 4 and 5: one alphabet throughout, all of the padding or none."""
from __future__ import annotations

import base64
import re
from typing import Optional

TEXT = re.compile(rb"(?:[A-Za-z0-9+/]*|[A-Za-z0-9_-]*)={0,2}", re.ASCII)
URL_SAFE = bytes.maketrans(b"-_", b"+/")


def decoded(text: bytes) -> Optional[bytes]:
    """The bytes that a base64 text stands for, or None where it is none."""
    letters = text.rstrip(b"=")
    padding = len(text) - len(letters)
    if not TEXT.fullmatch(text) or len(letters) % 4 == 1 or padding not in (0, -len(letters) % 4):
        return None
    standard = letters.translate(URL_SAFE)
    content = base64.b64decode(standard + b"=" * (-len(letters) % 4))
    # Bits behind the last byte that aren't zero are lost by the decoder, and so they show here.
    return content if base64.b64encode(content).rstrip(b"=") == standard else None


def encoded(content: bytes) -> bytes:
    """The URL-safe alphabet, unpadded."""
    return base64.urlsafe_b64encode(content).rstrip(b"=")
