"""Tokens that are made here: the chain of HMACs is not the program's. Texts are bytes."""
import base64
import hashlib
import hmac


def hashed(key, text):
    return hmac.new(key, text, hashlib.sha256).digest()


def root_of(secret):
    """The root key that is derived from the secret of a line of a key file."""
    return hashed(b"macaroons-key-generator", secret)


def signed(secret, identifier, caveats=()):
    """What a token is signed with, whose caveats are these."""
    signature = hashed(root_of(secret), identifier)
    for caveat in caveats:
        signature = hashed(signature, caveat)
    return signature


def text_of(token):
    """A token in binary as URL-safe base64."""
    return base64.urlsafe_b64encode(token).rstrip(b"=").decode()


def packet(key, value):
    return b"%04x%s %s\n" % (len(key) + len(value) + 6, key, value)


def v1(secret, identifier, caveats=(), location=b""):
    """A token of format one in binary."""
    out = packet(b"location", location) + packet(b"identifier", identifier)
    out += b"".join(packet(b"cid", caveat) for caveat in caveats)
    return out + packet(b"signature", signed(secret, identifier, caveats))


def field(kind, text):
    length, out = len(text), bytes([kind])
    while length > 127:
        out, length = out + bytes([length & 127 | 128]), length >> 7
    return out + bytes([length]) + text


def v2(secret, identifier, caveats=(), location=b""):
    """A token of format two in binary."""
    out = b"\x02" + (field(1, location) if location else b"") + field(2, identifier) + b"\0"
    out += b"".join(field(2, caveat) + b"\0" for caveat in caveats)
    return out + b"\0" + field(6, signed(secret, identifier, caveats))
