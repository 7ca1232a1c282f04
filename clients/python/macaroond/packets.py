"""Version 1 packets.

    packet = length key " " value LF      length: 4 digits of 0-9 a-f, these four included
    token  = location identifier *(cid [vid] [cl]) signature
"""
from __future__ import annotations

import re
from typing import List, Tuple

from .parts import SIGNATURE_SIZE, Caveat, Parts, demand, utf8

LENGTH = re.compile(rb"[0-9a-f]{4}")
Packet = Tuple[bytes, bytes]


def read(content: bytes) -> Parts:
    """The token that these packets spell."""
    packets = split(content)
    keys = [key for key, _ in packets]
    demand(keys[:2] == [b"location", b"identifier"] and keys[-1] == b"signature")
    location, identifier, signature = packets[0][1], packets[1][1], packets[-1][1]
    caveats = read_caveats(packets[2:-1])
    demand(len(signature) == SIGNATURE_SIZE)
    return Parts(utf8(location), identifier, caveats, signature)


def split(content: bytes) -> List[Packet]:
    """The packets' keys and values, to the end of the input."""
    packets: List[Packet] = []
    at = 0
    while at < len(content):
        digits = content[at : at + 4]
        demand(LENGTH.fullmatch(digits))
        end = at + int(digits, 16)
        demand(at + 4 < end <= len(content) and content[end - 1 : end] == b"\n")
        key, space, value = content[at + 4 : end - 1].partition(b" ")
        demand(space)
        packets.append((key, value))
        at = end
    return packets


def read_caveats(packets: List[Packet]) -> Tuple[Caveat, ...]:
    """The caveats between identifier and signature."""
    caveats: List[Caveat] = []
    at = 0
    while at < len(packets):
        key, identifier = packets[at]
        demand(key == b"cid")
        at += 1
        vid, location = None, b""
        if at < len(packets) and packets[at][0] == b"vid":
            vid, at = packets[at][1], at + 1
        if at < len(packets) and packets[at][0] == b"cl":
            location, at = utf8(packets[at][1]), at + 1
        caveats.append(Caveat(identifier, vid, location))
    return tuple(caveats)


def write(parts: Parts) -> bytes:
    """The packets of a token without third-party caveats."""
    front = [(b"location", parts.location), (b"identifier", parts.identifier)]
    caveats = [(b"cid", caveat.identifier) for caveat in parts.caveats]
    return b"".join(packet(key, value) for key, value in [*front, *caveats, (b"signature", parts.signature)])


def packet(key: bytes, value: bytes) -> bytes:
    return b"%04x%b %b\n" % (4 + len(key) + 1 + len(value) + 1, key, value)
