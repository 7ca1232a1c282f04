#!/usr/bin/env python3
"""Answers rows by pymacaroons."""
import base64

from pymacaroons import MACAROON_V1, MACAROON_V2, Macaroon, Verifier, utils
from pymacaroons.serializers import BinarySerializer, JsonSerializer
from rows import Skip, run

VERSIONS = {"v1-text": MACAROON_V1, "v2-binary": MACAROON_V2, "v2-text": MACAROON_V2}


def read(token):
    if token[:1] == b"{":
        return Macaroon.deserialize(token.decode(), JsonSerializer())
    return BinarySerializer().deserialize_raw(token) if token[:1] in (b"0", b"\x02") else Macaroon.deserialize(token.decode())


def reading(token):
    found = read(token)
    caveats = [(it.caveat_id_bytes, it.verification_key_id, utils.convert_to_bytes(it.location) or None) for it in found.caveats]
    return utils.convert_to_bytes(found.location) or b"", found.identifier_bytes, caveats, bytes.fromhex(found.signature)


def narrowed(token, caveats):
    for caveat in caveats:
        token.add_first_party_caveat(caveat)
    return token


def written(token, form):
    if VERSIONS.get(form) != token.version:
        raise Skip("JSON's spelling is its own" if form == "v2-json" else "it writes a token in the version that it came in")
    content = BinarySerializer().serialize_raw(token)
    return content if form == "v2-binary" else base64.urlsafe_b64encode(content).rstrip(b"=")


def minted(secret, identifier, caveats, location=b"", form="v2-text"):
    version = VERSIONS.get(form, MACAROON_V2)
    return narrowed(Macaroon(location=location, identifier=identifier, key=secret, version=version), caveats)


def verdict(secrets, token, facts, moment):
    verifier = Verifier()
    for fact in facts:
        verifier.satisfy_exact(fact.decode())
    return verifier.verify(read(token), secrets[0])


run(
    reading=reading,
    writing=lambda form, **given: written(minted(form=form, **given), form),
    narrowing=lambda token, caveats, form: written(narrowed(read(token), caveats), form),
    hmac=lambda key, text: utils.hmac_digest(key, text),
    root_key=lambda secret: utils.generate_derived_key(secret),
    signature=lambda **given: bytes.fromhex(minted(**given).signature),
    verdict=verdict,
)
