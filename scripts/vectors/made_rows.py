"""Tokens written and narrowed, in each form."""
from vectors.chain_rows import filler
from vectors.rows import Row
from vectors.spelling import IDENTIFIER, LOCATION, SECRET, object_of, section, signature_of, text, v1, v2

FORMS = ["v1-text", "v2-binary", "v2-json", "v2-text"]
RULES = {"v1-text": "v1 token", "v2-binary": "v2 token", "v2-json": "json written", "v2-text": "text written"}
# Whose choice it is how the form is spelled.
OWN = {"v1-text": "", "v2-binary": "", "v2-json": "json", "v2-text": ""}


def rows():
    yield from written()
    yield from written_limits()
    yield from narrowed()
    yield from narrowed_limits()
    yield from rewritten()


def writing(about, form, location=LOCATION, identifier=IDENTIFIER, caveats=(), own=None, rule=None, known=()):
    given = {"secret": SECRET, "location": location, "identifier": identifier, "caveats": list(caveats), "form": form}
    return Row("writing", f"{about}, as {form}", rule or RULES[form], given, OWN[form] if own is None else own, known)


def written():
    contents = {
        "the token of libmacaroons' README": {},
        "no location": {"location": b""},
        "a caveat": {"caveats": [b"test = caveat"]},
        "three caveats": {"caveats": [b"account = 3735928559", b"time < 2100-01-01T00:00", b"a"]},
        "an empty caveat": {"caveats": [b""]},
        "two empty caveats": {"caveats": [b"", b""]},
        "an empty identifier": {"identifier": b""},
        "an empty identifier and no location": {"identifier": b"", "location": b""},
        "an identifier that isn't UTF-8": {"identifier": b"\xff\xfe"},
        "a caveat that isn't UTF-8": {"caveats": [b"\xff"]},
        "a caveat cut in a letter": {"caveats": ["é".encode()[:1]]},
        "letters beyond ASCII": {"location": "é".encode(), "identifier": "€".encode(), "caveats": ["😀".encode()]},
        "line feeds": {"location": b"\n", "identifier": b"a\nb", "caveats": [b"\n"]},
        "control bytes": {"identifier": bytes(range(32)), "caveats": [b"\x7f", b"\x1f"]},
        "quotes and backslashes": {"identifier": b'"\\/', "caveats": [b'"', b"\\"]},
        "a zero byte in its location": {"location": b"\0"},
        "sixteen caveats": {"caveats": [b"caveat %d" % at for at in range(16)]},
        "128 caveats": {"caveats": [b"c"] * 128},
    }
    for size in (14, 15, 113, 114, 115, 127, 128, 129, 255, 256, 1_024):
        contents[f"a location of {size} bytes"] = {"location": b"l" * size}
    for size in (1, 22, 112, 127, 128, 129, 256, 3_000, 4_096):
        contents[f"an identifier of {size} bytes"] = {"identifier": b"i" * size}
    for size in (1, 118, 119, 120, 127, 128, 129, 247, 256, 4_000, 4_096):
        contents[f"a caveat of {size} bytes"] = {"caveats": [b"c" * size]}
    # go-macaroon leaves such a caveat out, where it doesn't refuse it.
    dropped = ("a caveat that isn't UTF-8", "a caveat cut in a letter")
    for about, parts in contents.items():
        for form in FORMS:
            yield writing(about, form, **parts, known=("go-macaroon",) if about in dropped and form == "v1-text" else ())


def written_limits():
    for form in FORMS:
        yield writing("a location of 1,025 bytes", form, b"l" * 1_025, own="limits", rule="location limit")
        yield writing("an identifier of 4,097 bytes", form, identifier=b"i" * 4_097, own="limits", rule="identifier limit")
        yield writing("a caveat of 4,097 bytes", form, caveats=[b"c" * 4_097], own="limits", rule="caveat limits")
        yield writing("129 caveats", form, caveats=[b"c"] * 129, own="limits", rule="caveat limits")
    yield from written_lengths()


def written_lengths():
    """Tokens of the longest length that may be written, and one more."""
    for form, limit in (("v1-text", 24_576), ("v2-text", 24_576), ("v2-binary", 32_768)):
        write = v1 if form == "v1-text" else v2
        # None of them may pass the limit of a caveat, the last one neither.
        caveats = [b"c" * 3_900] * (limit // 4_000)
        rest = limit - len(write(b"", b"i", [*caveats, b""]))
        rest -= len(write(b"", b"i", [*caveats, b"c" * rest])) - limit
        for more in (0, 1):
            about = f"a token of {limit + more} bytes before its base64" if form != "v2-binary" else f"a token of {limit + more} bytes"
            yield writing(about, form, b"", b"i", [*caveats, b"c" * (rest + more)], "limits", "token limit")
    caveats = [b"c" * 4_000] * 8
    rest = 32_768 - len(object_of(l=None, i="i", c=[{"i": it.decode()} for it in [*caveats, b""]]))
    for more in (0, 1):
        yield writing(f"an object of {32_768 + more} bytes", "v2-json", b"", b"i", [*caveats, b"c" * (rest + more)], "limits", "token limit")


def narrowing(about, token, caveats, form, own=None, rule="attenuate"):
    given = {"token": token, "caveats": list(caveats), "form": form}
    return Row("narrowing", f"{about}, as {form}", rule, given, OWN[form] if own is None else own)


def tokens(caveats=(), identifier=IDENTIFIER):
    """A token with a right signature, in each form."""
    signature = signature_of(SECRET, identifier, caveats)
    packets, binary = (write(LOCATION, identifier, caveats, signature) for write in (v1, v2))
    json = object_of(i=identifier.decode(), c=[{"i": it.decode()} for it in caveats], s64=text(signature).decode())
    return {"v1-text": text(packets), "v2-binary": binary, "v2-json": json, "v2-text": text(binary)}


def narrowed():
    added = {
        "a caveat": [b"test = caveat"],
        "an empty caveat": [b""],
        "a caveat that isn't UTF-8": [b"\xff"],
        "a caveat of a line feed": [b"\n"],
        "three caveats": [b"a", b"b", b"c"],
        "a caveat that is there already": [b"account = 3735928559"],
        "a caveat of 55 bytes": [filler(55)],
        "a caveat of 56 bytes": [filler(56)],
        "a caveat of 128 bytes": [b"c" * 128],
        "nine caveats": [b"caveat %d" % at for at in range(9)],
    }
    for form, token in tokens([b"account = 3735928559"]).items():
        for about, caveats in added.items():
            yield narrowing(f"a token of one caveat, narrowed by {about}", token, caveats, form)
    for form, token in tokens().items():
        yield narrowing("a token without caveats, narrowed by one", token, [b"test = caveat"], form)
        yield narrowing("a token without caveats, narrowed by a bound of time", token, [b"time < 2100-01-01T00:00"], form)
    yield narrowing("a token that no key gave", v2(), [b"a = b"], "v2-binary")


def narrowed_limits():
    full = tokens([b"c"] * 127)
    for form, token in full.items():
        yield narrowing("a token of 127 caveats, narrowed by one", token, [b"d"], form, "limits", "caveat limits")
        yield narrowing("a token of 127 caveats, narrowed by two", token, [b"d", b"e"], form, "limits", "caveat limits")
    for form, token in tokens().items():
        yield narrowing("a token narrowed by a caveat of 4,096 bytes", token, [b"c" * 4_096], form, "limits", "caveat limits")
        yield narrowing("a token narrowed by a caveat of 4,097 bytes", token, [b"c" * 4_097], form, "limits", "caveat limits")
        yield narrowing("a token narrowed by 129 caveats", token, [b"c"] * 129, form, "limits", "caveat limits")
        yield narrowing("a token narrowed past the longest token", token, [b"c" * 4_096] * 9, form, "limits", "token limit")
    cut, longer = v2()[:-1], v1() + b"\n"
    broken_ones = {b"": "no token", b"!": "a text that is no base64", cut: "a token that is cut", longer: "packets with a byte behind them"}
    for broken, named in broken_ones.items():
        yield narrowing(f"{named} narrowed by a caveat", broken, [b"a = b"], "v2-text", "", "attenuate")
    yield narrowing("a third party's token narrowed by a caveat", v2(caveats=[(section(b"a", b"l", b"v"),)]), [b"a = b"], "v2-text", "third party")


def rewritten():
    """A token of each form written in each other, and in its own."""
    for caveats in ([], [b"a = b", "é".encode()], [b"", b"\n"]):
        spelled = b" ".join(caveats).hex() or "none"
        for own, token in tokens(caveats).items():
            about = f"a token of {len(caveats)} caveats ({spelled}) that came as {own}, narrowed by nothing"
            yield from (narrowing(about, token, [], form) for form in FORMS)
