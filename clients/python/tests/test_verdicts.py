"""What a verdict tells in words, whatever its token holds."""
import unittest

from macaroond import attenuate
from macaroond.verdict import verdict

TOKEN = b"\x02\x01\x02me\x02\x05alice\x00\x00\x06\x20" + bytes(32)
# A caveat, and how the command line shows it.
SHOWN = {
    b"action = read": "action = read",
    b"a\n2026-01-01T00:00:00Z granted to root\x1b[2J": "a\\x0a2026-01-01T00:00:00Z granted to root\\x1b[2J",
    b"\xff\xfe": "\\xff\\xfe",
    "\u00e4\u202e".encode(): "\\xc3\\xa4\\xe2\\x80\\xae",
    b"\\x0a": "\\x5cx0a",
    b" ~\x7f\x1f": " ~\\x7f\\x1f",
    b"": "",
}


class Words(unittest.TestCase):
    def test_caveats(self):
        for caveat, shown in SHOWN.items():
            with self.subTest(caveat=caveat):
                made = verdict(b"\x18\x00\x00", attenuate(TOKEN, caveat))
                self.assertEqual(made.reason, f"caveat 0 is not satisfied: {shown}")
                self.assertEqual((repr(made), str(made)), (f"<Verdict {made.reason}>",) * 2)
                self.assertTrue(made.reason.isascii() and made.reason.isprintable())

    def test_caveats_that_are_not_there(self):
        for token in (TOKEN, b"\n"):
            self.assertEqual(verdict(b"\x18\x00\x00", token).reason, "caveat 0 is not satisfied: (the token can't be read here)")

    def test_unsigned_location(self):
        told = verdict(b"\x03\x00\x05carol\x00\x04here", TOKEN)
        self.assertEqual((told.identifier, told.unsigned_location), ("carol", "here"))
        granted = verdict(b"\x00", TOKEN)
        self.assertEqual((granted.identifier, granted.unsigned_location), ("alice", "me"))
        refused = verdict(b"\x17", TOKEN)
        self.assertEqual((refused.identifier, refused.unsigned_location), (None, None))


if __name__ == "__main__":
    unittest.main()
