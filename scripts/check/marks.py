"""Marks: random words that stand for what is secret, and how they are found in a text, whole or in part, as they are
or in another spelling. And tokens and facts that have such words in them."""
import base64
import pathlib
import random
import string
import sys
import typing

sys.path.insert(0, str(pathlib.Path(__file__).resolve().parents[1]))
from common.tokens import field, signed, text_of, v1, v2

# Each identifier is told by `--log mints`, and is no secret.
HOLDER, GONE = b"alice", b"alice:1"
# How a daemon logs all it can.
LOGGED = ["--log", "requests,mints,identifiers"]
LETTERS, LENGTH = string.ascii_lowercase, 24
# A part of a spelling that is as long as this is the mark's: of letters, of digits in hexadecimal, of base64.
LETTERS_LEAST, DIGITS_LEAST, BASE64_LEAST = 12, 24, 16


def windows(text, length):
    """Each part of a text that has so many symbols."""
    return {text[at : at + length] for at in range(len(text) - length + 1)}


def base64_parts(content, alphabet):
    """What base64 has of these bytes wherever they stand among others, without the symbols that others share."""
    for before in range(3):
        behind = -(before + len(content)) % 3
        text = alphabet(bytes(before) + content + bytes(behind))
        yield text[(0, 2, 3)[before] : len(text) - (0, 2, 3)[behind]]


def escaped(content, form):
    """Each byte as an escape."""
    return "".join(form % byte for byte in content).encode()


def spellings(content):
    """The parts of each spelling of these bytes, by which they would be known."""
    digits = content.hex().encode()
    escapes = [escaped(content, form) for form in ("\\x%02x", "\\x%02X", "%%%02x", "%%%02X", "\\u%04x")]
    found = windows(content, LETTERS_LEAST).union(windows(digits, DIGITS_LEAST), windows(digits.upper(), DIGITS_LEAST))
    found = found.union(*(windows(text, 6 * LETTERS_LEAST) for text in escapes))
    for alphabet in (base64.b64encode, base64.urlsafe_b64encode):
        found = found.union(*(windows(part, BASE64_LEAST) for part in base64_parts(content, alphabet)))
    return found


class Marks:
    """What is secret in a run, by what it is."""

    def __init__(self):
        self.parts, self.random = {}, random.SystemRandom()

    def word(self, what):
        """Another word for what is secret."""
        drawn = "".join(self.random.choice(LETTERS) for _ in range(LENGTH))
        self.add(what, drawn.encode())
        return drawn

    def add(self, what, content):
        """Has these bytes be secret too, as a key or a signature that was computed."""
        self.parts.setdefault(what, set()).update(spellings(content))

    def found_in(self, content):
        """What of it stands in these bytes."""
        return [what for what, parts in self.parts.items() if any(part in content for part in parts)]


class Secrets(typing.NamedTuple):
    """What is brought over a face: tokens, each with a marked signature and caveat, and facts."""

    marks: Marks
    tokens: typing.Sequence[str]
    fact: str
    path: str


def token(marks, what, secret, caveat, identifier=HOLDER, write=v2):
    """The text of a token whose caveat is marked, and its signature."""
    marks.add(f"the signature of {what}", signed(secret, identifier, [caveat.encode()]))
    return text_of(write(secret, identifier, [caveat.encode()]))


def in_json(marks, secret, caveat):
    """A token in JSON as it is, and in base64."""
    signature = signed(secret, HOLDER, [caveat.encode()])
    marks.add("the signature of JSON", signature)
    bare = '{"v":2,"i":"alice","c":[{"i":"%s"}],"s64":"%s"}' % (caveat, text_of(signature))
    return [bare, text_of(bare.encode())]


def with_verifier(marks):
    """A token with a caveat for somebody else, which brings a key of his."""
    parts = [marks.word(f"{what} of a third party's caveat").encode() for what in ("the place", "the text", "the key")]
    caveat = b"".join(field(kind, part) for kind, part in zip((1, 2, 4), parts)) + b"\0"
    return text_of(b"\x02" + field(2, HOLDER) + b"\0" + caveat + b"\0" + field(6, bytes(32)))


def secrets(secret):
    """Tokens that are granted, refused for each reason, cut, or none, and what is known of their requests."""
    marks = Marks()
    fact, other = f"service = {marks.word('a fact')}", f"service = {marks.word('a caveat')}"
    # A word between bytes that each place escapes in a way of its own.
    odd = f'"{marks.word("a caveat in quotation marks")}" %\\= \u00e4'
    good = token(marks, "a good token", secret, fact)
    tokens = [
        good, token(marks, "V1", secret, fact, write=v1), *in_json(marks, secret, fact),
        token(marks, "an unsatisfied token", secret, other), token(marks, "an odd token", secret, odd),
        token(marks, "another key's token", b"another key", other), token(marks, "a token that was taken back", secret, fact, GONE),
        token(marks, "a token past its limit", secret, other * 200), with_verifier(marks),
        # What is none is longer than a name may be.
        good[:-9], good + "!", good.swapcase(), marks.word("no token") * 3,
    ]
    return Secrets(marks, tokens, fact, f"/guarded/{marks.word('a path')}")


def revoked_list():
    """The list of tokens that were taken back."""
    return f"revoked bank {GONE.hex()}\n"
