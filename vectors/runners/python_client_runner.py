#!/usr/bin/env python3
"""Answers rows by macaroond's client for Python, as far as it needs no daemon."""
from macaroond import BadToken, Form, attenuate, inspect
from rows import Refused, run

FORMS = {"v1-text": Form.V1_TEXT, "v2-binary": Form.V2_BINARY, "v2-json": Form.V2_JSON, "v2-text": Form.V2_TEXT}
REFUSALS = {19: "transport", 20: "malformed", 21: "third party", 22: "limit", 26: "caveat location"}


def refusing(call, *words, **given):
    """What the call gives, or the name of the refusal."""
    try:
        return call(*words, **given)
    except BadToken as error:
        raise Refused(REFUSALS[error.code]) from None


def content_of(text):
    return text if isinstance(text, bytes) else text.encode("utf-8", "surrogateescape")


def reading(token):
    found = refusing(inspect, token)
    return content_of(found.location), content_of(found.identifier), map(content_of, found.caveats), found.signature


def narrowing(token, caveats, form):
    return content_of(refusing(attenuate, token, *caveats, form=FORMS[form]))


run(tells_why=True, reading=reading, narrowing=narrowing)
