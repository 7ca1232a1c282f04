"""Keys, derived keys and signatures: texts of each length around a block's ends."""
from vectors.rows import Row
from vectors.spelling import IDENTIFIER, SECRET, digest

# SHA-256 pads a text of 55 bytes more than whole blocks into the block that it ends in, one of 56 into another.
AROUND = sorted({*range(0, 4), *range(53, 67), *range(117, 131), *range(181, 195), *range(246, 259), 4_095, 4_096})
# RFC 4231's cases, but for the fifth, which cuts the digest.
RFC_4231 = [
    (b"\x0b" * 20, b"Hi There"),
    (b"Jefe", b"what do ya want for nothing?"),
    (b"\xaa" * 20, b"\xdd" * 50),
    (bytes(range(1, 26)), b"\xcd" * 50),
    (b"\xaa" * 131, b"Test Using Larger Than Block-Size Key - Hash Key First"),
    (b"\xaa" * 131, b"This is a test using a larger than block-size key and a larger than block-size data. The key needs to be hashed before being used by the HMAC algorithm."),
]


def rows():
    yield from hmacs()
    yield from root_keys()
    yield from signatures()


def filler(size, seed=b"vectors"):
    """Bytes of every kind, the same ones each time."""
    made = b""
    while len(made) < size:
        seed = digest(b"filler", seed)
        made += seed
    return made[:size]


def hmacs():
    for number, (key, text) in enumerate(RFC_4231, 1):
        yield Row("hmac", f"RFC 4231, case {number if number < 5 else number + 1}", "hmac", {"key": key, "text": text})
    for size in range(0, 131):
        if size < 4 or 28 <= size <= 36 or 60 <= size <= 68 or size > 125:
            yield Row("hmac", f"a key of {size} bytes", "block key", {"key": filler(size), "text": b"text"})
    for size in AROUND:
        yield Row("hmac", f"a text of {size} bytes under a key of 32", "hmac", {"key": filler(32, b"key"), "text": filler(size)})
    for byte in (0x00, 0x36, 0x5C, 0x6A, 0xFF):
        yield Row("hmac", f"a key of 64 bytes {byte:02x}", "hmac", {"key": bytes([byte]) * 64, "text": b"text"})


def root_keys():
    yield Row("root_key", "the secret of libmacaroons' README", "root key", {"secret": SECRET})
    for size in [1, 2, 3, *range(30, 35), *range(53, 67), 117, 118, 119, 120, 127, 128, 129, 1_000]:
        yield Row("root_key", f"a secret of {size} bytes", "root key", {"secret": filler(size, b"secret")})
    yield Row("root_key", "a secret of zero bytes", "root key", {"secret": b"\0" * 32})
    yield Row("root_key", "a secret that ends in zero bytes", "root key", {"secret": b"secret\0\0"})
    yield Row("root_key", "the same secret without them", "root key", {"secret": b"secret"})


def signatures():
    def row(about, rule, identifier=IDENTIFIER, caveats=(), secret=SECRET):
        return Row("signature", about, rule, {"secret": secret, "identifier": identifier, "caveats": list(caveats)})

    yield row("the token of libmacaroons' README", "start")
    yield row("the same with the caveat of its README", "chain", caveats=[b"test = caveat"])
    yield row("three caveats", "chain", caveats=[b"account = 3735928559", b"time < 2020-01-01T00:00", b"email = alice@example.org"])
    for size in AROUND:
        yield row(f"an identifier of {size} bytes", "start", filler(size, b"identifier"))
        yield row(f"a caveat of {size} bytes", "chain", caveats=[filler(size, b"caveat")])
        if size % 2:
            yield row(f"a caveat of {size} bytes behind another", "chain", caveats=[b"a = b", filler(size, b"second")])
    for count in (2, 3, 4, 5, 7, 8, 9, 15, 16, 17, 31, 32, 33, 64, 127, 128):
        yield row(f"{count} caveats", "chain", caveats=[b"caveat %d" % at for at in range(count)])
        yield row(f"{count} caveats that are all alike", "chain", caveats=[b"caveat"] * count)
    yield row("two caveats", "chain", caveats=[b"a", b"b"])
    yield row("the same two turned", "chain", caveats=[b"b", b"a"])
    yield row("the two joined in one", "chain", caveats=[b"ab"])
    yield row("an empty caveat behind them", "chain", caveats=[b"a", b"b", b""])
    yield row("a caveat that isn't UTF-8", "chain", caveats=[b"\xff\xfe"])
    yield row("a caveat of zero bytes", "chain", caveats=[b"\0" * 32])
    yield row("an identifier that isn't UTF-8", "start", b"\xff\xfe")
    for size in (1, 31, 32, 33, 63, 64, 65, 128):
        yield row(f"a secret of {size} bytes", "root key", secret=filler(size, b"secret"), caveats=[b"a = b"])
