"""Version 2 JSON: one object of RFC 8259, read as the daemon reads it.

That is what Python's `json` takes, but for four things that it takes and the daemon doesn't: NaN and
Infinity, numbers that no float holds, half of a surrogate pair, and nesting deeper than 127.
"""
from __future__ import annotations

import json
import math
import re
from typing import Any, Dict, NamedTuple, Optional

from .base64text import decoded, encoded
from .parts import SIGNATURE_SIZE, Caveat, NoToken, Parts, demand, utf8

NESTING_MAX = 127
LEXEMES = re.compile(r'"(?:[^"\\]|\\.)*"|[][{}]')
Object = Dict[str, Any]


class Number(NamedTuple):
    """A number as it is spelled."""

    spelled: str


def read(content: bytes) -> Parts:
    """The token that this object spells."""
    token = members(content)
    demand("v" not in token or token["v"] == Number("2"))
    caveats = token.get("c", [])
    demand(isinstance(caveats, list))
    location, identifier = text_member(token, "l") or b"", one_of(token, "i")
    signature = one_of(token, "s")
    demand(len(signature) == SIGNATURE_SIZE)
    return Parts(location, identifier, tuple(map(read_caveat, caveats)), signature)


def read_caveat(caveat: Any) -> Caveat:
    demand(isinstance(caveat, dict))
    return Caveat(one_of(caveat, "i"), in_a_spelling(caveat, "v"), text_member(caveat, "l") or b"")


def members(content: bytes) -> Object:
    """The members of the object that is the whole input."""
    text = utf8(content).decode()
    try:
        found = json.loads(text, parse_int=number, parse_float=number, parse_constant=no_number)
    except (ValueError, RecursionError):
        raise NoToken from None
    demand(isinstance(found, dict))
    look_at_lexemes(text)
    return dict(found)


def number(spelled: str) -> Number:
    demand(not math.isinf(float(spelled)))
    return Number(spelled)


def no_number(name: str) -> None:
    raise NoToken


def look_at_lexemes(text: str) -> None:
    """Whether the daemon too takes the brackets and the strings of a text that `json` takes."""
    depth = 0
    for lexeme in LEXEMES.findall(text):
        if lexeme[0] == '"':
            demand("\\u" not in lexeme or is_whole(json.loads(lexeme)))
        else:
            depth += 1 if lexeme in "[{" else -1
            demand(depth <= NESTING_MAX)


def is_whole(text: str) -> bool:
    """Whether no half of a surrogate pair stands alone."""
    return not any("\ud800" <= letter <= "\udfff" for letter in text)


def text_member(found: Object, name: str) -> Optional[bytes]:
    """The bytes of a text, where there is one of this name."""
    if name not in found:
        return None
    demand(isinstance(found[name], str))
    return bytes(found[name].encode())


def in_a_spelling(found: Object, name: str) -> Optional[bytes]:
    """A field's bytes, where it is there: as text, or in base64 under the name with 64 behind it."""
    plain, coded = text_member(found, name), text_member(found, name + "64")
    demand(plain is None or coded is None)
    if coded is None:
        return plain
    content = decoded(coded)
    demand(content is not None)
    return content


def one_of(found: Object, name: str) -> bytes:
    """The bytes of a field that has to be there."""
    content = in_a_spelling(found, name)
    demand(content is not None)
    return content or b""


def write(parts: Parts) -> bytes:
    """The object of a token without third-party caveats, its members in the order of their names."""
    token: Object = {"c": [identified(caveat.identifier) for caveat in parts.caveats]}
    token.update(identified(parts.identifier))
    if parts.location:
        token["l"] = parts.location.decode()
    token["s64"] = encoded(parts.signature).decode()
    token["v"] = 2
    return json.dumps(token, ensure_ascii=False, separators=(",", ":")).encode()


def identified(identifier: bytes) -> Object:
    try:
        return {"i": identifier.decode()}
    except UnicodeDecodeError:
        return {"i64": encoded(identifier).decode()}
