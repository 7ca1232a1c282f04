"""The rules that rows are about: where each stands in docs/FORMATS.md, and its words there.

The words are those of the page, but for white space and line ends: the gate looks for them.
"""
import re

from common import TOP

PAGE = TOP / "docs" / "FORMATS.md"
KEYS, TOKENS, FORM = "Keys and signatures", "Tokens", "Which form is read"
BASE64, V1, V2, JSON = "Base64 text", "V1 packets", "V2 binary", "V2 JSON"
CAVEATS, FRAMES = "Caveats and facts", "Frames, requests and replies"

RULES = {
    "hmac": (KEYS, "`HMAC(key, text) = SHA256((K0 xor opad) ++ SHA256((K0 xor ipad) ++ text))`"),
    "block key": (KEYS, "K0 is the key (its SHA-256 where it is longer than 64 bytes) followed by zero bytes to 64"),
    "root key": (KEYS, "The root key of a secret is `HMAC(G, secret)`"),
    "start": (KEYS, "The signature of a token is `HMAC(root key, identifier)`"),
    "chain": (KEYS, "each caveat c, in order, replaces the signature s by `HMAC(s, c)`"),
    "unsigned": (KEYS, "The location isn't signed."),
    "location limit": (TOKENS, "A token has a location (UTF-8, up to 1,024 bytes)"),
    "identifier limit": (TOKENS, "an identifier (up to 4,096 bytes)"),
    "caveat limits": (TOKENS, "up to 128 caveats of up to 4,096 bytes each"),
    "token limit": (TOKENS, "As it is read or written it has at most 32,768 bytes."),
    "vid": (TOKENS, "A caveat that a third party is to discharge has a *vid*, the verifier's id, and may have a location."),
    "caveat location": (TOKENS, "A caveat with either is read in order to be refused."),
    "empty location": (TOKENS, "An empty location is no location, in a caveat too."),
    "v1 text": (TOKENS, "| V1 text | 1 | base64 of V1 packets |"),
    "v2 text": (TOKENS, "| V2 text | 4 | base64 of V2 binary |"),
    "first byte": (FORM, "The first byte decides: `0` (0x30) begins V1 packets, 0x02 V2 binary, `{` (0x7b) V2 JSON."),
    "base64 of a form": (FORM, "Any other text is base64 of one of these three"),
    "decoded once": (FORM, "what it decodes to is looked at once in the same way and never decoded again"),
    "order": (FORM, "What is wrong with a token is told by the first of these tests that fails"),
    "empty": (FORM, "it isn't empty, and where its first byte asks for base64 it is base64 text"),
    "alphabets": (BASE64, "One of the two alphabets is used throughout, with all of its padding or with none."),
    "mixed alphabets": (BASE64, "a text in which letters of both alphabets meet (`+` or `/` beside `-` or `_`)"),
    "padding": (BASE64, "padding that is incomplete or in excess"),
    "letter over": (BASE64, "a number of letters that leaves one over"),
    "last bits": (BASE64, "last bits that no byte uses, unless they are zero"),
    "letters": (BASE64, "any character that is no letter of an alphabet"),
    "text written": (BASE64, "Written: the URL-safe alphabet, unpadded."),
    "packet": (V1, 'packet = length key " " value LF'),
    "length": (V1, "length = 4 digits of 0-9 a-f: the length of the whole packet, these four digits included"),
    "v1 token": (V1, "token = location identifier *(cid [vid] [cl]) signature each the packet of that key; nothing follows"),
    "value": (V1, "Any byte may stand in the value, a line feed too, since the length tells where it ends."),
    "v1 signature": (V1, "The signature's value is 32 raw bytes"),
    "v1 location": (V1, "`location` and `cl` are UTF-8"),
    "key place": (V1, "Malformed are a key out of its place"),
    "capital digit": (V1, "a digit written `A` to `F`"),
    "line feed": (V1, "a packet whose last byte (by its length) is no line feed"),
    "v1 rest": (V1, "anything behind the signature"),
    "v1 no location": (V1, "An empty location is the packet `000elocation ` and a line feed."),
    "minimal": (V2, "They are *minimal*: no number is written with a zero group at its end, but 0 itself."),
    "v2 token": (V2, "token = version token-part *caveat end signature"),
    "token part": (V2, "token-part = [location] identifier end"),
    "v2 caveat": (V2, "caveat = [location] identifier [vid] end"),
    "version": (V2, "version = the byte 02"),
    "end": (V2, "end = the byte 00"),
    "field": (V2, "field = varint(type) varint(length) that many bytes"),
    "types": (V2, "Fields of other types or out of order"),
    "varint": (V2, "longer varints than needed"),
    "length out": (V2, "lengths that lead out of the input are malformed"),
    "v2 signature": (V2, "the signature (6, of 32 bytes); nothing follows it"),
    "v2 location": (V2, "A location is UTF-8."),
    "v2 no location": (V2, "An empty location is written by leaving it out; an explicit one (`0100`) is read as absent."),
    "two groups": (V2, "A caveat of 128 bytes begins `028001`."),
    "ten bytes": (JSON, "A varint ends after ten bytes at most."),
    "object": (JSON, "One JSON object (RFC 8259), read as `serde_json` reads it: nested at most 127 deep, of a repeated member the last stands."),
    "json version": (JSON, "the whole number 2, without fraction or exponent"),
    "json location": (JSON, "| `l` | the location, as text | optional |"),
    "json identifier": (JSON, "the identifier: its text / its bytes in base64"),
    "json caveats": (JSON, "a list of objects, a caveat each"),
    "json signature": (JSON, "the signature of 32 bytes: its text / its bytes in base64"),
    "json caveat": (JSON, "In a caveat's object `i` / `i64` is its identifier (again one of the two), `l` its location and `v` / `v64` its vid, where it has them."),
    "unknown members": (JSON, "Unknown members say nothing."),
    "json kinds": (JSON, "Malformed are a known member whose value is of another kind (`null` is one), a field in both spellings, and base64 that isn't accepted."),
    "json written": (JSON, "Written without white space, members in the order of their names"),
    "json escapes": (JSON, 'In texts only `"`, `\\` and the bytes below 0x20 are escaped'),
    "fact": (CAVEATS, "It satisfies a caveat that is, byte for byte, one of the facts"),
    "time limit": (CAVEATS, "A time limit is `time < ` and a time"),
    "lower bound": (CAVEATS, "a lower bound `time >= ` and a time"),
    "time": (CAVEATS, "A time is `YYYY-MM-DDTHH:MM`, then perhaps `:SS`, then perhaps `Z`, where Y, M, D, H and S stand for ASCII digits."),
    "date": (CAVEATS, "The date is one of the proleptic Gregorian calendar in the years 0000 to 9999"),
    "clock": (CAVEATS, "the hour below 24, minute and second below 60 (no leap second), the second 0 where it is left out"),
    "seconds": (CAVEATS, "A time counts as the number of seconds from 1970-01-01T00:00 to it, each day having 86,400."),
    "no bound": (CAVEATS, "A text that differs anywhere is neither, and no text is both."),
    "holds": (CAVEATS, "a caveat that is a time limit above its moment, and a caveat that is a lower bound of time not above its moment; no other"),
    "believed": (CAVEATS, "A fact is believed whatever it says"),
    "mint": (FRAMES, "22 if the token would pass a limit, as a token or as it is written; the token, under the name's first key"),
    "attenuate": (FRAMES, "22 if the longer token would pass a limit, as a token or as it is written; the longer token"),
    "verify": (FRAMES, "23 if the signature isn't the chain's under any of the name's keys; 29 if the token was taken back; 24 for the first caveat that isn't satisfied; granted"),
}


def place(rule):
    """Where the rule stands: the page and its heading, as a link has it."""
    return "docs/FORMATS.md#" + re.sub(r"[^\w -]", "", RULES[rule][0].lower()).replace(" ", "-")


def words(rule):
    return RULES[rule][1]


def sections():
    """The text below each heading of the page."""
    parts = re.split(r"^#+ (.*)$", PAGE.read_text(), flags=re.MULTILINE)
    return dict(zip(parts[1::2], map(plain, parts[2::2])))


def plain(text):
    return " ".join(text.split())


def faults():
    """The rules whose words don't stand where they are said to stand."""
    found = sections()
    return [f"the rule `{rule}` isn't below {heading}" for rule, (heading, text) in RULES.items() if plain(text) not in found[heading]]
