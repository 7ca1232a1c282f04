"""Version 2 binary.

    token      = version token-part *caveat end signature
    token-part = [location] identifier end
    caveat     = [location] identifier [vid] end
    field      = varint(type) varint(length) that many bytes
"""
from __future__ import annotations

from typing import List, Optional

from .parts import SIGNATURE_SIZE, Caveat, Parts, demand, utf8

VERSION, END = b"\x02", 0
LOCATION, IDENTIFIER, VID, SIGNATURE = 1, 2, 4, 6
# Ten groups of seven bits are enough for any number of 64 bits.
VARINT_BYTES_MAX = 10


class Reader:
    """Reads fields one after the other."""

    def __init__(self, content: bytes) -> None:
        self.content = content
        self.at = 0

    def byte(self) -> int:
        demand(self.at < len(self.content))
        self.at += 1
        return self.content[self.at - 1]

    def varint(self) -> int:
        """An unsigned LEB128 number without a zero group at its end."""
        number = 0
        for group in range(VARINT_BYTES_MAX):
            byte = self.byte()
            number |= (byte & 0x7F) << 7 * group
            if byte < 0x80:
                demand(byte or group == 0)
                return number
        demand(False)
        return number

    def field(self, kind: int) -> Optional[bytes]:
        """The bytes of a field of this type, where one is next."""
        begin = self.at
        if self.varint() != kind:
            self.at = begin
            return None
        size = self.varint()
        demand(size <= len(self.content) - self.at)
        self.at += size
        return self.content[self.at - size : self.at]

    def needed(self, kind: int) -> bytes:
        """The bytes of a field that has to be there."""
        found = self.field(kind)
        demand(found is not None)
        return found or b""

    def end(self) -> None:
        demand(self.byte() == END)


def read(content: bytes) -> Parts:
    """The token that these bytes spell; the caller has looked at the version."""
    reader = Reader(content)
    reader.at = len(VERSION)
    location = utf8(reader.field(LOCATION) or b"")
    identifier = reader.needed(IDENTIFIER)
    reader.end()
    caveats: List[Caveat] = []
    while reader.at < len(content) and content[reader.at] != END:
        caveats.append(read_caveat(reader))
    reader.end()
    signature = reader.needed(SIGNATURE)
    demand(len(signature) == SIGNATURE_SIZE and reader.at == len(content))
    return Parts(location, identifier, tuple(caveats), signature)


def read_caveat(reader: Reader) -> Caveat:
    location = utf8(reader.field(LOCATION) or b"")
    identifier = reader.needed(IDENTIFIER)
    vid = reader.field(VID)
    reader.end()
    return Caveat(identifier, vid, location)


def write(parts: Parts) -> bytes:
    """The bytes of a token without third-party caveats."""
    location = field(LOCATION, parts.location) if parts.location else b""
    end = bytes((END,))
    caveats = [field(IDENTIFIER, caveat.identifier) + end for caveat in parts.caveats]
    front = VERSION + location + field(IDENTIFIER, parts.identifier) + end
    return front + b"".join(caveats) + end + field(SIGNATURE, parts.signature)


def field(kind: int, content: bytes) -> bytes:
    return varint(kind) + varint(len(content)) + content


def varint(number: int) -> bytes:
    groups = bytearray()
    while number > 0x7F:
        groups.append(number & 0x7F | 0x80)
        number >>= 7
    groups.append(number)
    return bytes(groups)
