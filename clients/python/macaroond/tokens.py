"""What needs no key: what a token says, and narrowing it."""
from __future__ import annotations

import hashlib
import hmac
from typing import NamedTuple, Optional, Tuple, Union

from . import binary, jsontext, packets
from .base64text import decoded, encoded
from .doubts import warn_of
from .errors import BadToken
from .forms import Form
from .parts import Caveat, NoToken, Parts
from .text import Text, bytes_of, text_of
from .wire import CAVEAT_MAX, TOKEN_MAX

LOCATION_MAX, IDENTIFIER_MAX, CAVEATS_MAX = 1_024, 4_096, 128
TRANSPORT, MALFORMED, THIRD_PARTY, LIMIT, CAVEAT_LOCATION = 19, 20, 21, 22, 26
# The reader of each bare form by its first byte, and the form in which a token that came so is written.
READERS = {
    b"0": (packets.read, Form.V1_TEXT),
    b"\x02": (binary.read, Form.V2_BINARY),
    b"{": (jsontext.read, Form.V2_JSON),
}


class Token(NamedTuple):
    """What a token says. Nobody has vouched for it: its signature is only looked at where the key is.

    The location is unsigned, even of a token that is granted: whoever holds the token can change it.
    """

    form: Form
    location: str
    identifier: str
    caveats: Tuple[str, ...]
    signature: bytes


def inspect(token: Text) -> Token:
    """What a token says, or `BadToken`. `form` is the one in which `attenuate` writes it."""
    parts, form = read(bytes_of(token))
    caveats = tuple(text_of(caveat.identifier) for caveat in parts.caveats)
    return Token(form, text_of(parts.location), text_of(parts.identifier), caveats, parts.signature)


def attenuate(token: Text, *caveats: Text, form: Optional[Form] = None) -> Union[str, bytes]:
    """The token with these caveats behind its own, in its own form where none is given; or `BadToken`."""
    parts, own = read(bytes_of(token))
    signature, added = parts.signature, []
    for caveat in map(bytes_of, caveats):
        signature = hmac.new(signature, caveat, hashlib.sha256).digest()
        added.append(Caveat(caveat))
    narrowed = parts._replace(caveats=(*parts.caveats, *added), signature=signature)
    if not is_within_limits(narrowed):
        raise BadToken(LIMIT)
    form = own if form is None else form
    content = write(narrowed, form)
    warn_of(caveats, [caveat.identifier for caveat in parts.caveats], level=3)
    return given(content, form)


def given(content: bytes, form: int) -> Union[str, bytes]:
    """A written token as calls give it: bytes of V2 binary, else text."""
    return content if form == Form.V2_BINARY else content.decode()


def form_of(token: Text) -> Form:
    """The form in which a token that came like this is written, by its first bytes alone."""
    content = bytes_of(token)
    if content[:1] in READERS:
        return READERS[content[:1]][1]
    front = (decoded(content[:4].ljust(4, b"A")) or b"")[:1]
    return text_form(READERS[front][1]) if front in READERS else Form.V2_TEXT


def text_form(form: Form) -> Form:
    """The form in which a token is written that came as base64 of this one."""
    return Form.V2_TEXT if form == Form.V2_BINARY else form


def read(content: bytes) -> Tuple[Parts, Form]:
    """A token's parts and its form, or the first fault in the order of docs/FORMATS.md."""
    if len(content) > TOKEN_MAX:
        raise BadToken(LIMIT)
    is_bare = content[:1] in READERS
    bare = content if is_bare else decoded(content)
    if not bare:
        raise BadToken(TRANSPORT)
    if bare[:1] not in READERS:
        raise BadToken(MALFORMED)
    reader, form = READERS[bare[:1]]
    try:
        parts = reader(bare)
    except NoToken:
        raise BadToken(MALFORMED) from None
    return first_party(parts), form if is_bare else text_form(form)


def first_party(parts: Parts) -> Parts:
    """The parts, where a verify could take them."""
    if any(caveat.vid is not None for caveat in parts.caveats):
        raise BadToken(THIRD_PARTY)
    if any(caveat.location for caveat in parts.caveats):
        raise BadToken(CAVEAT_LOCATION)
    if not is_within_limits(parts):
        raise BadToken(LIMIT)
    return parts


def is_within_limits(parts: Parts) -> bool:
    return (
        len(parts.location) <= LOCATION_MAX
        and len(parts.identifier) <= IDENTIFIER_MAX
        and len(parts.caveats) <= CAVEATS_MAX
        and all(len(caveat.identifier) <= CAVEAT_MAX for caveat in parts.caveats)
    )


def write(parts: Parts, form: int) -> bytes:
    """The token in a form, or `BadToken` where that would be too long."""
    if form == Form.V1_TEXT:
        content = encoded(packets.write(parts))
    elif form == Form.V2_JSON:
        content = jsontext.write(parts)
    else:
        bare = binary.write(parts)
        content = bare if form == Form.V2_BINARY else encoded(bare)
    if len(content) > TOKEN_MAX:
        raise BadToken(LIMIT)
    return content
