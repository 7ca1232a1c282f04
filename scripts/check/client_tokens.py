"""What the Python client says of tokens by itself, beside what the daemon answers.

Tokens of every form are taken as they are, and with bytes changed, left out, put in or moved; each
is attenuated by both, into every form.
"""
import base64
import random

import common  # noqa: F401  so that the Python client is found

import macaroond
from macaroond import BadToken, Client, Form
from macaroond.wire import attenuate_request

SIGNATURE = bytes(range(32))
CODED = base64.urlsafe_b64encode(SIGNATURE).decode().rstrip("=")
TEXTS = ["", "a", "é", '"\\\n\x01\x7f', "time < 2100-01-01T00:00", "x" * 200]
# Parts of JSON that readers tell apart.
MEMBERS = [
    '"v":2', '"v":2.0', '"v":1', '"i":"a"', '"i64":"YQ"', '"i64":"YR"', '"i64":"Y-_Q"', '"i64":"Y+_Q"', '"l":""', '"l":"b"', '"l":null',
    '"c":[]', '"c":[{"i":"a"}]', '"c":[{"i":"a","l":"b"}]', '"c":[{"i":"a","l":""}]', '"c":[{"i":"a","v":"b"}]', '"c":[{"i64":"_w"}]',
    '"c":{}', '"c":[1]', '"s":"' + "s" * 32 + '"', f'"s64":"{CODED}"', f'"s64":"{CODED}="', f'"s64":"{CODED}A"', '"x":1e400', '"x":-1E-400',
    '"x":' + "9" * 309, '"x":NaN', '"x":"\\ud800"', '"x":"\\ud83d\\ude00"', '"x":"\\u00e9\\/"', '"x":[[1,{"y":null}],true]', '"x":01', '"x":-0',
    '"x":' + "[" * 126 + "]" * 126, '"x":' + "[" * 127 + "]" * 127, '"x":1.5e+3', '"x":1.', '"x":.5', '"x":"\t"', '"\\u0069":"a"', '"x":"\x7f"',
]


def made(rng):
    """A token of random parts, in a random form."""
    texts = [rng.choice([*(text.encode() for text in TEXTS), b"\xff", rng.randbytes(rng.randrange(40))]) for _ in range(rng.randrange(1, 5))]
    location = rng.choice(TEXTS).encode()
    field = lambda kind, text: bytes((kind,)) + len(text).to_bytes(1, "big") + text if len(text) < 128 else b""
    front = b"\x02" + (field(1, location) if location else b"") + (field(2, texts[0]) or b"\x02\x00") + b"\0"
    binary = front + b"".join((field(2, text) or b"\x02\x00") + b"\0" for text in texts[1:]) + b"\0" + field(6, SIGNATURE)
    token = macaroond.attenuate(binary, form=rng.choice([*Form]))
    content = token if isinstance(token, bytes) else token.encode()
    if rng.random() < 0.3 and content[:1] not in (b"\x02", b"{"):
        return base64.urlsafe_b64decode(content + b"=" * (-len(content) % 4))
    return base64.b64encode(content) if rng.random() < 0.1 else content


def object_of(rng):
    """An object of members that were drawn, mostly with those that it needs."""
    needed = ['"i":"a"', f'"s64":"{CODED}"'] if rng.random() < 0.8 else []
    members = needed + rng.sample(MEMBERS, rng.randrange(4))
    rng.shuffle(members)
    content = "{%s}" % rng.choice([",", " , "]).join(members) + rng.choice(["", "", " ", "\n", "}", "\0"])
    return content.encode() if rng.random() < 0.8 else base64.urlsafe_b64encode(content.encode()).rstrip(rng.choice([b"=", b""]))


def changed(rng, content):
    """The bytes with a few changes."""
    content = bytearray(content)
    for _ in range(rng.randrange(3)):
        at = rng.randrange(len(content) + 1)
        kind = rng.randrange(4)
        if kind == 0:
            content[at:at] = bytes((rng.randrange(256),))
        elif kind == 1:
            del content[at : at + rng.randrange(1, 4)]
        elif at < len(content):
            content[at] = content[at] ^ (1 << rng.randrange(8)) if kind == 2 else rng.choice(b"\x00\x01\x02\x04\x06=+-_/{}\"0af\n ")
    return bytes(content)


def offline(token, caveats, form):
    """The reply's payload that the package says is due."""
    try:
        narrow = macaroond.attenuate(token, *caveats, form=form)
    except BadToken as error:
        return bytes((error.code,))
    return b"\x01" + (narrow if isinstance(narrow, bytes) else narrow.encode())


def said(token):
    """What the package says of a token, in a line: the fault's number, or the fields in hexadecimal."""
    try:
        read = macaroond.inspect(token)
    except BadToken as error:
        return str(error.code)
    fields = [read.location, read.identifier, *read.caveats]
    return " ".join([f"{read.form:d}", read.signature.hex(), *(f"-{field.encode('utf-8', 'surrogateescape').hex()}" for field in fields)])


def token_of(rng):
    return changed(rng, made(rng)) if rng.random() < 0.6 else object_of(rng)


def tokens(count):
    rng = random.Random(count)
    return [token_of(rng) for _ in range(count)]


def faults(path, count):
    """On which tokens package and daemon differ, and how many were looked at."""
    rng = random.Random(count)
    cases = [(token_of(rng), rng.sample(TEXTS, rng.randrange(3)), rng.choice([*Form])) for _ in range(count)]
    with Client(path, timeout=60) as client:
        replies = client.ask_many(attenuate_request(*case) for case in cases)
        pairs = [(case, offline(*case), reply) for case, reply in zip(cases, replies)]
    return [f"of {case} the package says {mine}, and the daemon {reply}" for case, mine, reply in pairs if mine != reply][:10], count
