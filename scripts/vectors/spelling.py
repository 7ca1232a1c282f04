"""Tokens spelled by hand, field by field: right ones, and such as no library would write."""
import base64
import hashlib
import hmac
import json

LOCATION = b"http://mybank/"
IDENTIFIER = b"we used our secret key"
SECRET = b"this is our super secret key; only we should know it"
# A signature that is none of a key: what is read is never verified.
SIGNATURE = bytes.fromhex("e3d9e02908526c4c0039ae15114115d97fdd68bf2ba379b342aaf0f617d0552f")
GENERATOR = b"macaroons-key-generator".ljust(32, b"\0")
END = b"\0"


def digest(key, text):
    return hmac.new(key, text, hashlib.sha256).digest()


def signature_of(secret, identifier, caveats=()):
    """The signature that the chain gives, by Python's hmac."""
    signature = digest(digest(GENERATOR, secret), identifier)
    for caveat in caveats:
        signature = digest(signature, caveat)
    return signature


# V1 packets


def packet(key, value, size=None):
    """A packet, with a length of its own where one is given."""
    size = 4 + len(key) + 1 + len(value) + 1 if size is None else size
    return b"%04x%b %b\n" % (size, key, value)


def v1(location=LOCATION, identifier=IDENTIFIER, caveats=(), signature=SIGNATURE):
    front = packet(b"location", location) + packet(b"identifier", identifier)
    return front + b"".join(map(v1_caveat, caveats)) + packet(b"signature", signature)


def v1_caveat(caveat):
    """The packets of a caveat: its bytes, or those of its keys in this order."""
    fields = caveat if isinstance(caveat, (list, tuple)) else [(b"cid", caveat)]
    return b"".join(packet(key, value) for key, value in fields)


# V2 binary


def varint(number, groups=0):
    """An unsigned LEB128 number, of at least so many groups."""
    found = bytearray()
    while number > 0x7F or len(found) + 1 < groups:
        found.append(number & 0x7F | 0x80)
        number >>= 7
    found.append(number)
    return bytes(found)


def field(kind, content):
    return varint(kind) + varint(len(content)) + content


def section(identifier, location=None, vid=None):
    front = b"" if location is None else field(1, location)
    return front + field(2, identifier) + (b"" if vid is None else field(4, vid)) + END


def v2(location=LOCATION, identifier=IDENTIFIER, caveats=(), signature=SIGNATURE):
    """A token; a caveat is its bytes, or a section that was spelled already."""
    sections = [it[0] if isinstance(it, tuple) else section(it) for it in caveats]
    head = section(identifier, location or None)
    return b"\x02" + head + b"".join(sections) + END + field(6, signature)


# JSON and base64


def object_of(**members):
    """A token's object in JSON, with these members in the place of its own; None leaves one out."""
    own = {"v": 2, "l": LOCATION.decode(), "i": IDENTIFIER.decode(), "c": [], "s64": coded(SIGNATURE)}
    found = {name: value for name, value in {**own, **members}.items() if value is not None}
    return json.dumps(found, separators=(",", ":"), ensure_ascii=False).encode()


def text(content, alphabet="url", padded=False):
    encode = base64.urlsafe_b64encode if alphabet == "url" else base64.b64encode
    letters = encode(content)
    return letters if padded else letters.rstrip(b"=")


def coded(content):
    return text(content).decode()


# Bytes as the rows show them


def shown(content):
    """Bytes as a text: themselves where all are printable ASCII, else `hex:` and their digits."""
    is_plain = all(0x20 <= byte <= 0x7E for byte in content) and not content.startswith(b"hex:")
    return content.decode() if is_plain else "hex:" + content.hex()


def bytes_of(word):
    """The bytes that a text of a row stands for."""
    return bytes.fromhex(word[4:]) if word.startswith("hex:") else word.encode()
