"""Tokens without a daemon, beside values that were made elsewhere (the repository's scripts/check/cases) and by hand."""
import base64
import pathlib
import unittest

import macaroond
from macaroond import BadToken, Form, tokens

CASES = pathlib.Path(__file__).resolve().parents[3] / "scripts" / "check" / "cases"
SIGNATURE = bytes.fromhex("e3d9e02908526c4c0039ae15114115d97fdd68bf2ba379b342aaf0f617d0552f")
BINARY = b"\x02\x01\x0ehttp://mybank/\x02\x16we used our secret key\x00\x00\x06\x20" + SIGNATURE
PLAIN = '{"i":"a","s64":"' + base64.urlsafe_b64encode(SIGNATURE).decode() + '"'
MALFORMED, THIRD_PARTY, CAVEAT_LOCATION, LIMIT, TRANSPORT = 20, 21, 26, 22, 19
OF_TOKEN = {f"refused {code}" for code in (19, 20, 21, 22, 26)}


class Fields:
    """Reads the fields of a request's payload."""

    def __init__(self, payload):
        self.rest = payload

    def taken(self, count):
        content, self.rest = self.rest[:count], self.rest[count:]
        return content

    def number(self, width):
        return int.from_bytes(self.taken(width), "big")

    def long(self):
        return self.taken(self.number(2))


def printed(token):
    """A token as the pipe prints it."""
    content = token if isinstance(token, bytes) else token.encode()
    return f"token hex:{content.hex()}" if content[:1] == b"\x02" else f"token {content.decode()}"


def offline(payload):
    """What the package says by itself to a request, as the pipe prints it; None where that needs a key."""
    fields = Fields(payload)
    kind = fields.number(1)
    try:
        if kind == 2:
            form, token = fields.number(1), fields.long()
            caveats = [fields.long() for _ in range(fields.number(1))]
            return printed(macaroond.attenuate(token, *caveats, form=Form(form)))
        fields.taken(fields.number(1))
        macaroond.inspect(fields.long())
    except BadToken as error:
        return f"refused {error.code}"
    return None


class Outside(unittest.TestCase):
    def test_cases(self):
        """Each attenuate of the cases comes to the same token or fault, and each verify to the same fault."""
        looked_at = 0
        for path in CASES.glob("*.stdout"):
            _, _, asked = path.with_suffix("").read_text().partition("\n\n")
            for line, wanted in zip(asked.splitlines(), path.read_text().splitlines()):
                with self.subTest(path.stem, line=line[:80]):
                    is_whole = line[:2] in ("02", "03") and wanted != "refused 16" and wanted != "refused 18"
                    if is_whole:
                        came = offline(bytes.fromhex(line))
                        self.assertEqual(came, wanted if line[:2] == "02" or wanted in OF_TOKEN else None)
                        looked_at += 1
        self.assertGreater(looked_at, 80)


class ByHand(unittest.TestCase):
    def test_inspect(self):
        token = macaroond.inspect(macaroond.attenuate(BINARY, "a", b"\xff"))
        self.assertEqual(token[:4], (Form.V2_BINARY, "http://mybank/", "we used our secret key", ("a", "\udcff")))

    def test_every_form_from_every_form(self):
        for form in Form:
            token = macaroond.attenuate(BINARY, form=form)
            self.assertEqual(macaroond.inspect(token), macaroond.inspect(BINARY)._replace(form=form))
            self.assertEqual(tokens.form_of(token), form)
            self.assertIsInstance(token, bytes if form == Form.V2_BINARY else str)
            for other in Form:
                self.assertEqual(macaroond.attenuate(token, form=other), macaroond.attenuate(BINARY, form=other))

    def test_own_forms(self):
        """In which form a token is written that came in one that is never written."""
        packets = base64.urlsafe_b64decode(macaroond.attenuate(BINARY, form=Form.V1_TEXT) + "==")
        object_text = base64.b64encode(macaroond.attenuate(BINARY, form=Form.V2_JSON).encode())
        for token, form in ((packets, Form.V1_TEXT), (object_text, Form.V2_JSON), (b"", Form.V2_TEXT), (b"!", Form.V2_TEXT)):
            self.assertEqual(tokens.form_of(token), form)
        self.assertEqual(macaroond.inspect(packets).form, Form.V1_TEXT)
        self.assertEqual(macaroond.inspect(object_text).form, Form.V2_JSON)

    def test_objects(self):
        """What the daemon's reader of JSON takes and doesn't, where Python's would say otherwise; None is taken."""
        deep = "[" * 126 + "]" * 126
        for text, fault in (
            (PLAIN + "}", None),
            (PLAIN + ',"x":NaN}', MALFORMED),
            (PLAIN + ',"x":-Infinity}', MALFORMED),
            (PLAIN + ',"x":1e400}', MALFORMED),
            (PLAIN + ',"x":' + "9" * 400 + "}", MALFORMED),
            (PLAIN + ',"x":' + "9" * 300 + "}", None),
            (PLAIN + ',"x":"\\ud800"}', MALFORMED),
            (PLAIN + ',"x":"\\ud83d\\ude00"}', None),
            (PLAIN + ',"x":"\\\\ud800"}', None),
            (PLAIN + ',"x":"\\ud800","x":1}', MALFORMED),
            (PLAIN + ',"x":' + deep + "}", None),
            (PLAIN + ',"x":[' + deep + "]}", MALFORMED),
            (PLAIN + ',"x":' + "[" * 5000 + "]" * 5000 + "}", MALFORMED),
            (PLAIN + ',"v":2}', None),
            (PLAIN + ',"v":2.0}', MALFORMED),
            (PLAIN + ',"v":"2"}', MALFORMED),
            (PLAIN + ',"v":1,"v":2}', None),
            (PLAIN + ',"i64":"YQ"}', MALFORMED),
            (PLAIN + ',"l":null}', MALFORMED),
            (PLAIN + ',"c":[{"i":"a","v":""}]}', THIRD_PARTY),
            (PLAIN + ',"c":[{"i":"a","l":"b"}]}', CAVEAT_LOCATION),
            (PLAIN + ',"c":[{"i":"a","l":""}]}', None),
            (PLAIN + ',"c":[{"i64":"YR"}]}', MALFORMED),
        ):
            with self.subTest(text[-60:]):
                self.assertEqual(fault_of(text), fault)

    def test_other_faults(self):
        for token, fault in (
            (b"", TRANSPORT),
            (b"!", TRANSPORT),
            (b"YQ", MALFORMED),
            (b"+_8A", TRANSPORT),
            (b"AgEO=", TRANSPORT),
            (bytes(40_000), LIMIT),
            (BINARY + b"\0", MALFORMED),
            (BINARY.replace(b"\x01\x0e", b"\x01\x8e\x00"), MALFORMED),
            (b"0000location \n", MALFORMED),
        ):
            with self.subTest(token[:40]):
                self.assertEqual(fault_of(token), fault)

    def test_limits_of_attenuate(self):
        for caveats in (["a"] * 129, ["a" * 4_097], ["a" * 4_096] * 8):
            with self.assertRaises(BadToken) as caught:
                macaroond.attenuate(BINARY, *caveats)
            self.assertEqual(caught.exception.code, LIMIT)


def fault_of(token):
    try:
        macaroond.inspect(token)
    except BadToken as error:
        return error.code
    return None


if __name__ == "__main__":
    unittest.main()
