"""Locations that are none or aren't UTF-8, each limit, and which of two faults is told."""
from vectors.reading_rows import CONTENTS
from vectors.rows import reading
from vectors.spelling import IDENTIFIER, SIGNATURE, field, object_of, section, text, v1, v2

ODD_TEXTS = {
    "a byte that begins no letter": b"\x80",
    "a letter cut short": "é".encode()[:1],
    "a letter spelled too long": b"\xc0\xaf",
    "half of a surrogate pair": b"\xed\xa0\x80",
    "a number past the last letter": b"\xf4\x90\x80\x80",
    "the byte ff": b"\xff",
}


def rows():
    yield from odd_locations()
    yield from no_locations()
    yield from limits()
    yield from orders()


def odd_locations():
    """Locations that aren't UTF-8."""
    for name, content in ODD_TEXTS.items():
        yield reading(f"V1 packets whose location is {name}", "v1 location", v1(location=content), "UTF-8")
        yield reading(f"V2 binary whose location is {name}", "v2 location", v2(location=content), "UTF-8")
        vid = [(b"cid", b"a"), (b"vid", b"v"), (b"cl", content)]
        yield reading(f"V1 packets with a third party's location that is {name}", "v1 location", v1(caveats=[vid]), "UTF-8")
        third = section(b"a", content, b"v")
        yield reading(f"V2 binary with a third party's location that is {name}", "v2 location", v2(caveats=[(third,)]), "UTF-8")
        yield reading(f"V2 JSON with these bytes in its location: {name}", "object", object_of(l="L").replace(b'"L"', b'"' + content + b'"'), "UTF-8")
    for name in ("a letter of two bytes", "a letter of four bytes", "a line feed", "a zero byte"):
        yield reading(f"V1 packets whose location is {name}", "v1 location", v1(location=CONTENTS[name]))
        yield reading(f"V2 binary whose location is {name}", "v2 location", v2(location=CONTENTS[name]))


def no_locations():
    """Tokens without a location, and with an empty one."""
    tail = b"\0" + field(6, SIGNATURE)
    yield reading("V1 packets whose location is empty", "v1 no location", v1(location=b""))
    yield reading("V2 binary without a location", "v2 no location", v2(location=b""))
    yield reading("V2 binary with a location of no bytes", "v2 no location", b"\x02\x01\x00" + section(IDENTIFIER) + tail)
    yield reading("V2 JSON without a location", "json location", object_of(l=None))
    yield reading("V2 JSON with an empty location", "empty location", object_of(l=""))
    yield reading("V2 binary whose caveat has a location of no bytes", "v2 no location", v2(caveats=[(section(b"a", b""),)]), "empty location")
    yield reading("V1 packets whose caveat has an empty cl", "empty location", v1(caveats=[[(b"cid", b"a"), (b"cl", b"")]]), "empty location")
    yield reading("V2 JSON whose caveat has an empty location", "empty location", object_of(c=[{"i": "a", "l": ""}]), "empty location")


def limits():
    """Each limit, met and passed by one."""
    for size in (1_023, 1_024, 1_025):
        yield reading(f"V1 packets with a location of {size} bytes", "location limit", v1(location=b"l" * size), "limits")
        yield reading(f"V2 binary with a location of {size} bytes", "location limit", v2(location=b"l" * size), "limits")
        yield reading(f"V2 JSON with a location of {size} bytes", "location limit", object_of(l="l" * size), "limits")
    for size in (4_095, 4_096, 4_097):
        yield reading(f"V1 packets with an identifier of {size} bytes", "identifier limit", v1(identifier=b"i" * size), "limits")
        yield reading(f"V2 binary with an identifier of {size} bytes", "identifier limit", v2(identifier=b"i" * size, location=b""), "limits")
        yield reading(f"V2 JSON with an identifier of {size} bytes", "identifier limit", object_of(i="i" * size), "limits")
        yield reading(f"V1 packets of two caveats, the last of {size} bytes", "caveat limits", v1(caveats=[b"a", b"c" * size]), "limits")
        yield reading(f"V2 binary of two caveats, the first of {size} bytes", "caveat limits", v2(caveats=[b"c" * size, b"a"]), "limits")
        yield reading(f"V2 JSON of a caveat of {size} bytes", "caveat limits", object_of(c=[{"i": "c" * size}]), "limits")
    for count in (127, 128, 129, 130):
        yield reading(f"V1 packets of {count} caveats", "caveat limits", v1(caveats=[b"c"] * count), "limits")
        yield reading(f"V2 binary of {count} caveats", "caveat limits", v2(caveats=[b"c"] * count), "limits")
        yield reading(f"V2 JSON of {count} caveats", "caveat limits", object_of(c=[{"i": "c"}] * count), "limits")
    for size in (32_767, 32_768, 32_769):
        yield reading(f"V2 binary of {size} bytes", "token limit", filled(v2, size), "limits")
        yield reading(f"V2 JSON of {size} bytes, most of them spaces", "token limit", object_of() + b" " * (size - len(object_of())), "limits")
    for size in (24_575, 24_576, 24_577):
        yield reading(f"V2 text of {len(text(filled(v2, size)))} letters", "token limit", text(filled(v2, size)), "limits")
        yield reading(f"V1 text of {len(text(filled(v1, size)))} letters", "token limit", text(filled(v1, size)), "limits")
    padded = text(filled(v2, 24_575), padded=True)
    yield reading(f"V2 text of {len(padded)} letters with its padding", "token limit", padded, "limits")
    yield reading("32,769 bytes that spell nothing", "token limit", b"!" * 32_769, "limits")


def filled(write, size):
    """A token of so many bytes."""
    caveats = [b"c" * 3_900] * ((size - 600) // 4_000)
    while len(write(caveats=[*caveats, b""])) + 3_000 < size:
        caveats.append(b"c" * 2_000)
    for rest in range(4_096):
        token = write(caveats=[*caveats, b"c" * rest])
        if len(token) == size:
            return token
    raise ValueError(f"no token has {size} bytes")


def orders():
    """Tokens with two faults, of which the first is told."""
    third, placed = [(b"cid", b"a"), (b"vid", b"v")], [(b"cid", b"b"), (b"cl", b"l")]
    long = b"c" * 4_097
    yield reading("V1 packets of a third party's caveat and one with a location", "order", v1(caveats=[placed, third]), "order")
    yield reading("V1 packets of a third party's caveat behind one that is too long", "order", v1(caveats=[long, third]), "order")
    yield reading("V1 packets of a caveat with a location before one that is too long", "order", v1(caveats=[placed, long]), "order")
    yield reading("V1 packets of a third party's caveat, with a byte behind the signature", "order", v1(caveats=[third]) + b"\n", "order")
    yield reading("V1 packets of a long caveat, with a byte behind the signature", "order", v1(caveats=[long]) + b"\n", "order")
    yield from orders_of_v2(long)
    yield from orders_of_json()
    both = text(v1(caveats=[third])) + b"A" * 32_700
    yield reading("32,769 letters that would be base64 of a third party's token", "order", both, "order")


def orders_of_v2(long):
    whole, located, bare = section(b"a", b"l", b"v"), section(b"a", b"l"), section(b"b", None, b"")
    token = v2(caveats=[(whole,)], signature=SIGNATURE[:31])
    yield reading("V2 binary of a third party's caveat and a signature of 31 bytes", "order", token, "order")
    token = v2(caveats=[*[b"c"] * 128, (section(b"a", None, b"v"),)])
    yield reading("V2 binary of 129 caveats, the last a third party's", "order", token, "order")
    token = v2(caveats=[(located,), (bare,)])
    yield reading("V2 binary of a caveat with a location and one with a vid behind it", "order", token, "order")
    token = v2(caveats=[(section(long, b"l"),)])
    yield reading("V2 binary of a caveat with a location that is too long", "order", token, "order")


def orders_of_json():
    third, located = {"i": "a", "v": "b"}, {"i": "a", "l": "b"}
    token = object_of(l="l" * 1_025, c=[third])
    yield reading("V2 JSON of a third party's caveat and a location of 1,025 bytes", "order", token, "order")
    token = object_of(c=[located, {"i": "a", "v64": "YQ"}])
    yield reading("V2 JSON of a caveat with a location and one of a third party", "order", token, "order")
    token = object_of(c=[third])[:-1]
    yield reading("V2 JSON of a third party's caveat in an object that ends too early", "order", token, "order")
