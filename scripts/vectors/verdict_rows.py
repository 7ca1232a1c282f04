"""Verdicts: the signature under each key, the facts, and bounds of time at their moments."""
from vectors.chain_rows import filler
from vectors.rows import Row
from vectors.spelling import IDENTIFIER, LOCATION, SECRET, section, signature_of, text, v1, v2

MOMENT = 1_700_000_000
SECOND = b"another long secret"
CAVEATS = [b"account = 3735928559", b"method = GET"]


def rows():
    yield from of_facts()
    yield from of_signatures()
    yield from of_keys()
    yield from of_moments()
    yield from of_unread()


def token_of(caveats=(), write=v2, secret=SECRET, identifier=IDENTIFIER, location=LOCATION):
    return write(location, identifier, caveats, signature_of(secret, identifier, caveats))


def verdict(about, token, facts=(), moment=MOMENT, own="", rule="verify", secrets=(SECRET,), known=()):
    given = {"secrets": list(secrets), "token": token, "facts": list(facts), "moment": moment}
    return Row("verdict", about, rule, given, own, known)


def of_facts():
    """Caveats that a fact satisfies, and such as only look like one."""
    for write, form in ((v1, "V1 packets"), (v2, "V2 binary")):
        yield verdict(f"{form} without caveats, without facts", token_of(write=write), rule="fact")
        yield verdict(f"{form} without caveats, with a fact", token_of(write=write), [b"a = b"], rule="fact")
        yield verdict(f"{form} of two caveats, both facts", token_of(CAVEATS, write), CAVEATS, rule="fact")
        yield verdict(f"{form} of two caveats, the facts turned", token_of(CAVEATS, write), CAVEATS[::-1], rule="fact")
        yield verdict(f"{form} of two caveats, of which the first is no fact", token_of(CAVEATS, write), CAVEATS[1:], rule="verify")
        yield verdict(f"{form} of two caveats, of which the last is no fact", token_of(CAVEATS, write), CAVEATS[:1], rule="verify")
        yield verdict(f"{form} of two caveats, without facts", token_of(CAVEATS, write), rule="verify")
        yield verdict(f"{form} of a caveat that stands twice, one fact", token_of([b"a"] * 2, write), [b"a"], rule="fact")
    near = {
        "with a letter more": b"a = bc",
        "with a letter less": b"a = ",
        "with a capital letter": b"A = b",
        "with a space behind it": b"a = b ",
        "with a line feed behind it": b"a = b\n",
        "with a zero byte behind it": b"a = b\0",
        "with a space less": b"a =b",
    }
    for named, fact in near.items():
        yield verdict(f"a fact that is the caveat {named}", token_of([b"a = b"]), [fact], rule="fact")
        yield verdict(f"a caveat that is the fact {named}", token_of([fact]), [b"a = b"], rule="fact")
    yield verdict("an empty caveat and an empty fact", token_of([b""]), [b""], rule="fact")
    yield verdict("an empty caveat and no fact", token_of([b""]), rule="fact")
    yield verdict("a caveat that isn't UTF-8, and a fact", token_of([b"\xff"]), [b"\xff"], rule="fact")
    yield verdict("a caveat of a letter beyond ASCII, composed, and the fact decomposed", token_of(["é".encode()]), ["é".encode()], rule="fact")
    for count in (1, 2, 8, 16, 64, 128):
        caveats = [b"caveat %d" % at for at in range(count)]
        yield verdict(f"{count} caveats, all facts", token_of(caveats), caveats, rule="fact")
        yield verdict(f"{count} caveats, of which the last is no fact", token_of(caveats), caveats[:-1], rule="verify")
    for place in range(9):
        caveats = [b"caveat %d" % at for at in range(9)]
        yield verdict(f"nine caveats, of which number {place} is no fact", token_of(caveats), caveats[:place] + caveats[place + 1 :], rule="verify")


def of_signatures():
    """Signatures with a bit turned, and parts that were changed under a right one."""
    signature = signature_of(SECRET, IDENTIFIER, CAVEATS)
    for at in range(32):
        turned = signature[:at] + bytes([signature[at] ^ 1 << at % 8]) + signature[at + 1 :]
        yield verdict(f"a signature with a bit of byte {at} turned", v2(caveats=CAVEATS, signature=turned), CAVEATS)
    for size in (1, 16, 31):
        begun = signature[:size].ljust(32, b"\0")
        yield verdict(f"a signature of which the first {size} bytes are right", v2(caveats=CAVEATS, signature=begun), CAVEATS)
    yield verdict("a signature of zero bytes", v2(caveats=CAVEATS, signature=b"\0" * 32), CAVEATS)
    yield verdict("a signature turned around", v2(caveats=CAVEATS, signature=signature[::-1]), CAVEATS)
    yield verdict("the signature before the last caveat", v2(caveats=CAVEATS, signature=signature_of(SECRET, IDENTIFIER, CAVEATS[:1])), CAVEATS)
    yield verdict("the last caveat taken away", v2(caveats=CAVEATS[:1], signature=signature), CAVEATS)
    yield verdict("all caveats taken away", v2(caveats=[], signature=signature), CAVEATS)
    yield verdict("a caveat put in without its HMAC", v2(caveats=[*CAVEATS, b"a = b"], signature=signature), [*CAVEATS, b"a = b"])
    yield verdict("the caveats turned", v2(caveats=CAVEATS[::-1], signature=signature), CAVEATS)
    yield verdict("the caveats joined in one", v2(caveats=[b"".join(CAVEATS)], signature=signature), [b"".join(CAVEATS)])
    yield verdict("a caveat changed", v2(caveats=[CAVEATS[0], b"method = PUT"], signature=signature), [*CAVEATS, b"method = PUT"])
    yield verdict("the identifier changed", v2(identifier=b"another", caveats=CAVEATS, signature=signature), CAVEATS)
    elsewhere = v2(identifier=IDENTIFIER + b"a", caveats=[CAVEATS[0][1:], CAVEATS[1]], signature=signature)
    yield verdict("the identifier and the first caveat cut elsewhere", elsewhere, CAVEATS)
    yield verdict("another location", token_of(CAVEATS, location=b"http://elsewhere/"), CAVEATS, rule="unsigned")
    yield verdict("no location", token_of(CAVEATS, location=b""), CAVEATS, rule="unsigned")
    yield verdict("a wrong signature and a caveat that is no fact", v2(caveats=CAVEATS, signature=bytes(32)), [])
    unsigned = v2(caveats=CAVEATS, signature=signature_of(SECRET, IDENTIFIER))
    yield verdict("caveats that nobody signed and that are no facts", unsigned, [], known=("pymacaroons",))


def of_keys():
    """Secrets of each length, wrong ones, and names with two keys."""
    for size in (1, 31, 32, 33, 55, 56, 63, 64, 65, 128):
        secret = filler(size, b"secret")
        yield verdict(f"a secret of {size} bytes", token_of(CAVEATS, secret=secret), CAVEATS, secrets=[secret])
        turned = secret[:-1] + bytes([secret[-1] ^ 1])
        about = f"a secret of {size} bytes, of which the last has a bit turned"
        yield verdict(about, token_of(CAVEATS, secret=secret), CAVEATS, secrets=[turned])
    yield verdict("a key that ends in zero bytes more", token_of(secret=b"secret"), secrets=[b"secret\0"], rule="root key")
    both = {"secrets": [SECRET, SECOND], "own": "two keys"}
    yield verdict("the token's secret is the second of two", token_of(secret=SECOND), **both)
    yield verdict("the token's secret is the first of two", token_of(), **both)
    yield verdict("the token's secret is neither of two", token_of(secret=b"a third"), **both)
    yield verdict("the second of two secrets, and a caveat that is no fact", token_of(CAVEATS, secret=SECOND), CAVEATS[:1], **both)
    yield verdict("the root key in the place of the secret", token_of(secret=SECRET), secrets=[bytes(32)])
    for place in range(16):
        secret = filler(24, b"key %d" % (place % 5))
        caveats = [b"caveat %d" % at for at in range(place % 7)]
        yield verdict(f"token {place} of sixteen under five keys", token_of(caveats, secret=secret), caveats, secrets=[secret])


def bound(caveat, moment, about):
    return verdict(f"{about}: {caveat.decode()}", token_of([caveat]), moment=moment, own="bounds of time", rule="holds")


def of_moments():
    """Bounds of time a second before, at and behind their ends."""
    ends = {b"2023-11-14T22:13:20": MOMENT, b"1970-01-01T00:00": 0, b"2000-02-29T23:59:59": 951_868_799, b"9999-12-31T23:59:59Z": 253_402_300_799}
    for spelled, second in ends.items():
        for sign in (b"<", b">="):
            for step in (-1, 0, 1):
                if second + step >= 0:
                    yield bound(b"time %b %b" % (sign, spelled), second + step, ("a second before", "at the second", "a second behind")[step + 1])
    for moment in (0, 1, 2**31 - 1, 2**31, 2**32, 2**63 - 1, 2**63, 2**64 - 1):
        yield bound(b"time < 9999-12-31T23:59:59", moment, f"the moment {moment}")
        yield bound(b"time >= 0000-01-01T00:00", moment, f"the moment {moment}")
    yield bound(b"time < 1969-12-31T23:59:59", 0, "a limit before 1970")
    yield bound(b"time >= 1969-12-31T23:59:59", 0, "a lower bound before 1970")
    late = b"time < 2020-01-01T00:00"
    yield verdict("a limit that is past, which is a fact", token_of([late]), [late], own="bounds of time", rule="believed")
    yield verdict("a limit that is none, which is a fact", token_of([b"time < 2020-13-01T00:00"]), [b"time < 2020-13-01T00:00"], rule="believed")
    yield verdict("a limit that is none, which is no fact", token_of([b"time < 2100-13-01T00:00"]), rule="no bound")
    both = [b"time >= 2023-01-01T00:00", b"time < 2024-01-01T00:00"]
    moments = {
        1_672_531_199: "before",
        1_672_531_200: "at the beginning of",
        MOMENT: "within",
        1_704_067_199: "at the last second of",
        1_704_067_200: "at the end of",
    }
    for moment, named in moments.items():
        yield verdict(f"a moment {named} a year that two bounds leave", token_of(both), moment=moment, own="bounds of time", rule="holds")
    yield verdict("a limit that holds and a caveat that is no fact", token_of([both[1], b"a = b"]), own="bounds of time", rule="verify")
    yield verdict("a limit that is past behind a caveat that is no fact", token_of([b"a = b", late]), own="bounds of time", rule="verify")


def of_unread():
    """Tokens that are no tokens, before any key."""
    yield verdict("no token", b"", rule="empty")
    yield verdict("a token that is cut", token_of(CAVEATS)[:-1], CAVEATS, rule="v2 signature")
    yield verdict("a token with a byte behind it", token_of(CAVEATS) + b"\n", CAVEATS, rule="v2 signature")
    yield verdict("V1 text of a token", text(token_of(CAVEATS, v1)), CAVEATS, rule="v1 text")
    yield verdict("V2 text of a token", text(token_of(CAVEATS)), CAVEATS, rule="v2 text")
    yield verdict("a third party's caveat that nobody discharges", v2(caveats=[(section(b"a", b"l", b"v" * 72),)]), [b"a"], rule="vid")
