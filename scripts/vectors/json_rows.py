"""V2 JSON read: each member, each kind of value, and what of RFC 8259 a reader has to know."""
from vectors.rows import reading
from vectors.spelling import SIGNATURE, coded, object_of, text

PLAIN = object_of(l=None)
# A member's value, as it stands in JSON, and what it is.
VALUES = {
    "a number": "2",
    "a fraction": "2.0",
    "an exponent": "2e0",
    "null": "null",
    "true": "true",
    "false": "false",
    "a list": "[]",
    "a list of a text": '["a"]',
    "an object": "{}",
    "a text": '"a"',
    "an empty text": '""',
    "a text that is no base64": '"!"',
}
# How the members are told of, and the value that each has where it is right.
MEMBERS = {
    "v": "json version",
    "l": "json location",
    "i": "json identifier",
    "i64": "json identifier",
    "c": "json caveats",
    "s": "json signature",
    "s64": "json signature",
}
OF_CAVEAT = ["i", "i64", "l", "v", "v64"]


def rows():
    yield from members()
    yield from caveat_members()
    yield from missing()
    yield from spellings()
    yield from base64_members()
    yield from texts()
    yield from whole_texts()
    yield from other_members()


def given(own, name, value):
    """The object with a member in the place of its own of this name, in both spellings."""
    taken = {name.removesuffix("64"), name.removesuffix("64") + "64"}
    members = [f'"{it}":{content}' for it, content in own.items() if it not in taken]
    return ("{" + ",".join([*members, f'"{name}":{value}']) + "}").encode()


def members():
    """Each member with a value of each kind."""
    own = {"i": '"a"', "s64": f'"{coded(SIGNATURE)}"'}
    for name, rule in MEMBERS.items():
        for named, value in VALUES.items():
            about = f"V2 JSON whose member `{name}` is {named}"
            is_own = name == "v" or named in ("null", "a fraction", "an exponent")
            yield reading(about, rule if name == "v" else "json kinds", given(own, name, value), "json" if is_own else "")


def caveat_members():
    """Each member of a caveat with a value of each kind."""
    for name in OF_CAVEAT:
        for named, value in VALUES.items():
            caveat = given({"i": '"a"'}, name, value)
            about = f"V2 JSON with a caveat whose member `{name}` is {named}"
            yield reading(about, "json caveat", object_of(c=["HERE"]).replace(b'"HERE"', caveat), "json" if named == "null" else "")


def missing():
    """Objects that lack what they need, or have it twice."""
    yield reading("V2 JSON without an identifier", "json identifier", object_of(i=None))
    yield reading("V2 JSON without a signature", "json signature", object_of(s64=None))
    yield reading("V2 JSON without a version", "json version", object_of(v=None))
    yield reading("V2 JSON without a list of caveats", "json caveats", object_of(c=None))
    yield reading("V2 JSON with nothing but identifier and signature", "object", object_of(v=None, l=None, c=None))
    yield reading("an empty object", "json identifier", b"{}")
    yield reading("V2 JSON with `i` and `i64`", "json kinds", object_of(i64="YQ"))
    yield reading("V2 JSON with `s` and `s64`", "json kinds", object_of(s="s" * 32))
    yield reading("V2 JSON with a caveat that has `i` and `i64`", "json kinds", object_of(c=[{"i": "a", "i64": "YQ"}]))
    yield reading("V2 JSON with a caveat that has `v` and `v64`", "json kinds", object_of(c=[{"i": "a", "v": "a", "v64": "YQ"}]))
    yield reading("V2 JSON with a caveat that is an empty object", "json caveat", object_of(c=[{}]))
    for value in ("a", 1, None, [], True):
        yield reading(f"V2 JSON whose caveats are a list of {value!r}", "json caveats", object_of(c=[value]))
    for version in (0, 1, 3, 20, -2):
        yield reading(f"V2 JSON of the version {version}", "json version", object_of(v=version), "json")


def spellings():
    """Signatures and identifiers in each spelling."""
    letters = "0123456789abcdefghijklmnopqrstuv"
    yield reading("V2 JSON whose signature is a text of 32 letters", "json signature", object_of(s64=None, s=letters))
    yield reading("V2 JSON whose signature is a text of 16 letters of two bytes", "json signature", object_of(s64=None, s="é" * 16))
    for count in (0, 1, 31, 33, 64):
        yield reading(f"V2 JSON whose signature is a text of {count} letters", "json signature", object_of(s64=None, s=letters[0] * count))
        yield reading(f"V2 JSON whose signature is base64 of {count} bytes", "json signature", object_of(s64=coded(b"s" * count)))
    yield reading("V2 JSON whose identifier stands in base64", "json identifier", object_of(i=None, i64=coded(b"a text")))
    yield reading("V2 JSON with caveats in both spellings", "json caveat", object_of(c=[{"i": "a"}, {"i64": "_w"}, {"i": "b"}]))


def base64_members():
    """Base64 in a member: the rules of base64 text hold there."""
    content = b"\xfb\xef\xbe" * 10 + b"\xff\xff"
    for alphabet in ("url", "standard"):
        for padded in (False, True):
            named = f"{'URL-safe' if alphabet == 'url' else 'standard'}, {'padded' if padded else 'unpadded'}"
            yield reading(f"V2 JSON whose signature is base64, {named}", "alphabets", object_of(s64=text(content, alphabet, padded).decode()))
            caveat = {"i64": text(b"\xfb\xff", alphabet, padded).decode()}
            yield reading(f"V2 JSON whose caveat is base64, {named}", "alphabets", object_of(c=[caveat]))
    letters = coded(content)
    wrong = {
        "of both alphabets": ("mixed alphabets", letters.replace("-", "+", 1)),
        "with one letter of padding too many": ("padding", letters + "=="),
        "with two letters of padding too many": ("padding", letters + "==="),
        "with last bits that aren't zero": ("last bits", letters[:-1] + "9"),
        "with a letter over": ("letter over", letters + "AA"),
        "with a line feed": ("letters", letters[:20] + "\n" + letters[20:]),
        "with a carriage return and a line feed behind it": ("letters", letters + "\r\n"),
        "with a space before it": ("letters", " " + letters),
        "with a dot": ("letters", letters[:20] + "." + letters[21:]),
    }
    for named, (rule, spelled) in wrong.items():
        yield reading(f"V2 JSON whose signature is base64 {named}", rule, object_of(s64=spelled))
    odd = {
        "of both alphabets": "-_+/",
        "of one letter": "A",
        "with bits that no byte uses": "YR",
        "with a line feed": "YW\nJj",
        "padded in its midst": "YQ==YQ==",
        "of padding alone": "====",
    }
    for named, spelled in odd.items():
        yield reading(f"V2 JSON whose caveat is base64 {named}", "json kinds", object_of(c=[{"i64": spelled}]))
        yield reading(f"V2 JSON whose identifier is base64 {named}", "json kinds", object_of(i=None, i64=spelled))


def texts():
    """Texts with escapes, and such as RFC 8259 doesn't have."""
    inside = lambda spelled: PLAIN.replace(b"we used our secret key", spelled)
    right = {
        "every short escape": b'\\"\\\\\\/\\b\\f\\n\\r\\t',
        "a letter by its number": b"\\u0061\\u00e9\\u20ac",
        "a number in capital digits": b"\\u00E9",
        "a letter by a surrogate pair": b"\\ud83d\\ude00",
        "a zero byte by its number": b"\\u0000",
        "the byte 7f": b"\x7f",
        "letters beyond ASCII": "é€😀".encode(),
    }
    wrong = {
        "the first half of a surrogate pair": b"\\ud83d",
        "the second half of a surrogate pair": b"\\ude00",
        "two first halves": b"\\ud83d\\ud83d",
        "the halves turned": b"\\ude00\\ud83d",
        "half a pair and a letter": b"\\ud83da",
        "an unknown escape": b"\\x61",
        "an escape of three digits": b"\\u061",
        "an escape with a letter that is no digit": b"\\u00g1",
        "a line feed as it is": b"\n",
        "a tab as it is": b"\t",
        "a zero byte as it is": b"\0",
        "the byte 1f as it is": b"\x1f",
        "a quote as it is": b'"',
        "a backslash at its end": b"\\",
        "a byte that is no UTF-8": b"\xff",
        "a letter spelled too long": b"\xc0\xaf",
        "half of a surrogate pair in UTF-8": b"\xed\xa0\x80",
    }
    for named, spelled in right.items():
        yield reading(f"V2 JSON whose identifier has {named}", "object", inside(spelled))
    for named, spelled in wrong.items():
        is_own = "half" in named or "halves" in named
        yield reading(f"V2 JSON whose identifier has {named}", "object", inside(spelled), "json" if is_own else "")
    yield reading("V2 JSON with a member's name spelled by an escape", "object", PLAIN.replace(b'"i"', b'"\\u0069"'))
    yield reading("V2 JSON with a member's name that is capital", "unknown members", PLAIN.replace(b'"i"', b'"I"'))
    yield reading("V2 JSON with `S64` in the place of `s64`", "unknown members", PLAIN.replace(b'"s64"', b'"S64"'))
    yield reading("V2 JSON whose member `c` is capital", "unknown members", object_of(c=[{"i": "a"}]).replace(b'"c"', b'"C"'), "json")


def whole_texts():
    """White space, and what stands around the object."""
    yield reading("V2 JSON with white space between all", "object", PLAIN.replace(b",", b" ,\n\t").replace(b":", b" :\r ").replace(b"{", b"{ "))
    for behind, named in ((b" ", "a space"), (b"\n", "a line feed"), (b"\r\n\t ", "white space of each kind")):
        yield reading(f"V2 JSON with {named} behind it", "object", PLAIN + behind)
    rest = {
        "a brace": b"}",
        "a second object": b"{}",
        "a comma": b",",
        "a zero byte": b"\0",
        "a letter": b"x",
        "a vertical tab": b"\x0b",
        "a byte order mark": b"\xef\xbb\xbf",
    }
    for named, behind in rest.items():
        yield reading(f"V2 JSON with {named} behind it", "object", PLAIN + behind)
    wrong = {
        "its last brace missing": PLAIN[:-1],
        "a comma before its last brace": PLAIN[:-1] + b",}",
        "a comma behind its first brace": b"{," + PLAIN[1:],
        "a comma missing": PLAIN.replace(b",", b" ", 1),
        "a colon missing": PLAIN.replace(b":", b" ", 1),
        "two commas": PLAIN.replace(b",", b",,", 1),
        "a name without quotes": PLAIN.replace(b'"i"', b"i"),
        "a name in single quotes": PLAIN.replace(b'"i"', b"'i'"),
        "a name that is a number": PLAIN.replace(b'"i"', b"1"),
        "a comment": b"{/**/" + PLAIN[1:],
        "a comma behind the last caveat": object_of(c=["HERE"]).replace(b'"HERE"', b'{"i":"a"},'),
        "a byte order mark behind its first brace": b"{\xef\xbb\xbf" + PLAIN[1:],
    }
    for named, spelled in wrong.items():
        yield reading(f"V2 JSON with {named}", "object", spelled)
    for size in range(2, len(PLAIN), 9):
        yield reading(f"V2 JSON of which the first {size} of {len(PLAIN)} bytes are there", "object", PLAIN[:size])


def other_members():
    """Members that say nothing, and members that stand twice."""
    inside = lambda spelled: PLAIN[:-1] + b',"x":' + spelled + b"}"
    right = {"a text": b'"a"', "null": b"null", "a list": b"[1,[2]]", "an object": b'{"i":1}', "a number": b"-0.5e+3", "zero below zero": b"-0"}
    for named, spelled in right.items():
        yield reading(f"V2 JSON with an unknown member that is {named}", "unknown members", inside(spelled), "json")
    wrong = {
        "01": "begins with a zero",
        "1.": "ends in a point",
        ".5": "begins with a point",
        "+1": "has a plus",
        "1e": "ends in an exponent",
        "0x10": "is hexadecimal",
        "NaN": "is NaN",
        "Infinity": "is Infinity",
        "-": "is a hyphen alone",
        "--1": "has two signs",
    }
    for spelled, named in wrong.items():
        yield reading(f"V2 JSON with a number that {named}", "object", inside(spelled.encode()))
    large = {
        "1e400": "no float holds",
        "-1e400": "no float holds below zero",
        "1e-400": "is nearer to zero than any float",
        "9" * 309: "has 309 digits",
        "9" * 308: "has 308 digits",
        "18446744073709551616": "is 2^64",
    }
    for spelled, named in large.items():
        yield reading(f"V2 JSON with a number that {named}", "object", inside(spelled.encode()), "json")
    for depth in (1, 2, 64, 126, 127, 128):
        yield reading(f"V2 JSON nested {depth + 1} deep, in an unknown member", "object", inside(b"[" * depth + b"]" * depth), "json")
    yield reading("V2 JSON with the identifier twice", "object", PLAIN[:-1] + b',"i":"later"}', "json")
    yield reading("V2 JSON with a wrong identifier before the right one", "object", b'{"i":7,' + PLAIN[1:], "json")
    yield reading("V2 JSON with a wrong identifier behind the right one", "object", PLAIN[:-1] + b',"i":7}', "json")
    yield reading("V2 JSON with the caveats twice", "object", PLAIN[:-1] + b',"c":[{"i":"later"}]}', "json")
    twice = object_of(c=["HERE"]).replace(b'"HERE"', b'{"i":"a","i":"b"}')
    yield reading("V2 JSON with a caveat whose identifier stands twice", "object", twice, "json")
    other = b'{"caveats":[],"location":"l","identifier":"i","signature":"%b"}' % SIGNATURE.hex().encode()
    yield reading("V2 JSON of another version, in libmacaroons' V1 names", "json identifier", other, "json")
