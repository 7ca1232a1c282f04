"""V2 binary with wrong fields, in wrong orders, and numbers that are spelled too long."""
from vectors.rows import GO, PY, reading
from vectors.spelling import IDENTIFIER, LOCATION, SIGNATURE, field, section, v2, varint

TOKEN = v2()
HEAD, TAIL = section(IDENTIFIER, LOCATION), b"\0" + field(6, SIGNATURE)


def rows():
    yield from types()
    yield from signatures()
    yield from lengths()
    yield from field_order()
    yield from long_varints()
    yield from large_numbers()


def types():
    """Fields of other types."""
    for kind in (0, 3, 4, 5, 6, 7, 8, 127, 128, 255, 16_384):
        token = b"\x02" + varint(kind) + field(2, IDENTIFIER)[1:] + b"\0" + TAIL
        yield reading(f"V2 binary whose identifier is a field of type {kind}", "types", token)
    for kind in (0, 1, 2, 3, 4, 5, 7, 128):
        token = b"\x02" + HEAD + b"\0" + varint(kind) + b"\x20" + SIGNATURE
        yield reading(f"V2 binary whose signature is a field of type {kind}", "types", token)
    for kind in (3, 5, 6, 7, 128):
        more = field(kind, b"x") + b"\0"
        about = f"has a field of type {kind} behind its identifier"
        yield reading(f"V2 binary whose caveat {about}", "types", v2(caveats=[(field(2, b"a") + more,)]))
        yield reading(f"V2 binary whose head {about}", "types", b"\x02" + field(2, IDENTIFIER) + more + TAIL)


def signatures():
    """Signatures of other lengths, and what stands behind one."""
    for count in (0, 1, 16, 31, 33, 64):
        yield reading(f"V2 binary whose signature has {count} bytes", "v2 signature", v2(signature=b"s" * count), known=(PY,))
    rest = {
        "a zero byte": b"\0",
        "a line feed": b"\n",
        "a caveat": section(b"late"),
        "a second signature": field(6, SIGNATURE),
        "a second token": TOKEN,
    }
    for named, behind in rest.items():
        yield reading(f"V2 binary with {named} behind the signature", "v2 signature", TOKEN + behind, known=(GO, PY))


def lengths():
    """Lengths that aren't those of the bytes that follow."""
    wrong = {
        0: "none",
        21: "one less",
        23: "one more",
        127: "127",
        2**31 - 1: "2^31 - 1",
        2**31: "2^31",
        2**32: "2^32",
        2**63: "2^63",
        2**64 - 1: "2^64 - 1",
    }
    for size, named in wrong.items():
        token = b"\x02\x02" + varint(size) + IDENTIFIER + b"\0" + TAIL
        yield reading(f"V2 binary whose identifier says that it has {size} bytes ({named})", "length out", token)
    for size in (33, 64, 2**32, 2**64 - 1):
        token = b"\x02" + HEAD + b"\0\x06" + varint(size) + SIGNATURE
        yield reading(f"V2 binary whose signature says that it has {size} bytes", "length out", token)


def field_order():
    """V2 binary whose fields and ends stand in another order."""
    location, identifier, sig = field(1, LOCATION), field(2, IDENTIFIER), field(6, SIGNATURE)
    caveat, end = field(2, b"a = b"), b"\0"
    orders = {
        "nothing behind its version": ("v2 token", b""),
        "an end in the place of its identifier": ("token part", end + end + sig),
        "a location without an identifier": ("token part", location + end + end + sig),
        "the identifier before the location": ("types", identifier + location + end + end + sig),
        "two locations": ("types", location + location + identifier + end + end + sig),
        "two identifiers": ("types", identifier + identifier + end + end + sig),
        "a vid in its head": ("token part", identifier + field(4, b"v") + end + end + sig),
        "no end behind its head": ("token part", identifier + end + sig),
        "no end at all": ("token part", identifier + sig),
        "an end too many before the signature": ("v2 token", identifier + end + end + end + sig),
        "the signature in its head": ("token part", identifier + sig + end + end),
        "no signature": ("v2 token", identifier + end + end),
        "no end behind a caveat": ("v2 caveat", identifier + end + caveat + end + sig),
        "no end behind the caveats": ("v2 token", identifier + end + caveat + end + sig),
        "two identifiers in a caveat": ("types", identifier + end + caveat + caveat + end + end + sig),
        "a caveat of a location alone": ("v2 caveat", identifier + end + field(1, b"l") + end + end + sig),
        "a caveat of a vid alone": ("v2 caveat", identifier + end + field(4, b"v") + end + end + sig),
        "a caveat whose location follows its identifier": ("types", identifier + end + caveat + field(1, b"l") + end + end + sig),
        "a caveat whose vid precedes its identifier": ("types", identifier + end + field(4, b"v") + caveat + end + end + sig),
        "two vids in a caveat": ("types", identifier + end + caveat + field(4, b"v") + field(4, b"w") + end + end + sig),
        "two locations in a caveat": ("types", identifier + end + field(1, b"l") + field(1, b"m") + caveat + end + end + sig),
        "an end between caveats": ("v2 token", identifier + end + caveat + end + end + caveat + end + end + sig),
    }
    for named, (rule, rest) in orders.items():
        yield reading(f"V2 binary with {named}", rule, b"\x02" + rest)


def long_varints():
    """Numbers in more groups than they need."""
    for groups in (2, 3, 5, 9, 10, 11):
        known = (GO, PY) if groups < 10 else (PY,)
        long = {
            "the length of its identifier": b"\x02\x02" + varint(22, groups) + IDENTIFIER + b"\0" + TAIL,
            "the type of its identifier": b"\x02" + varint(2, groups) + b"\x16" + IDENTIFIER + b"\0" + TAIL,
            "the length of its signature": b"\x02" + HEAD + b"\0\x06" + varint(32, groups) + SIGNATURE,
            "the end of its caveats": b"\x02" + HEAD + varint(0, groups) + field(6, SIGNATURE),
            "the end of its head": b"\x02" + field(2, IDENTIFIER) + varint(0, groups) + TAIL,
        }
        for named, token in long.items():
            yield reading(f"V2 binary with {named} in {groups} bytes", "varint", token, known=known)


def large_numbers():
    """Numbers that a reader of 64 bits, or of fewer, may take for smaller ones; and lengths of two bytes."""
    more = {2**64: "2^64 more", 2**65: "2^65 more", 2**69: "2^69 more", 2**32: "2^32 more", 2**31: "2^31 more", 256: "256 more"}
    for number, named in more.items():
        rule = "ten bytes" if number >= 2**64 else "length out"
        token = b"\x02\x02" + varint(number + 22) + IDENTIFIER + b"\0" + TAIL
        yield reading(f"V2 binary whose identifier's length is {named} than its bytes", rule, token)
        token = b"\x02" + varint(number + 2) + b"\x16" + IDENTIFIER + b"\0" + TAIL
        yield reading(f"V2 binary whose identifier's type is {named} than 2", "ten bytes" if number >= 2**64 else "types", token)
        token = b"\x02" + HEAD + b"\0\x06" + varint(number + 32) + SIGNATURE
        yield reading(f"V2 binary whose signature's length is {named} than 32", rule, token)
    for size in (127, 128, 129, 255, 256, 300, 16_383 - 12_300, 4_096):
        about = f"V2 binary with an identifier of {size} bytes, its length in {len(varint(size))} bytes"
        yield reading(about, "minimal", v2(identifier=b"n" * size))
