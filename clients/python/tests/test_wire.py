"""Requests and replies as bytes; the values are those of docs/FORMATS.md."""
import unittest

from macaroond import BadRequest, Form, wire
from macaroond.calls import Run, batches, raw_call

NOTHING = ()
MINT = "01010462616e6b000e687474703a2f2f6d7962616e6b2f001677652075736564206f757220736563726574206b657900"


class Requests(unittest.TestCase):
    def test_bytes(self):
        mint = wire.mint_request("bank", "we used our secret key", "http://mybank/", NOTHING, Form.V1_TEXT)
        self.assertEqual(mint.hex(), MINT)
        self.assertEqual(wire.verify_request("a", "!", NOTHING, 5).hex(), "0301610001210000000000000005" + "00")
        self.assertEqual(wire.attenuate_request(b"!", ["a", b"\xff", "\udcff"], Form.V2_JSON).hex(), "02030001210300016100" + "01ff0001ff")

    def test_now(self):
        """Without a moment the daemon's clock is asked, and whose the token is."""
        self.assertEqual(wire.verify_request("a", "!", ["f"], None).hex(), "050161000121" + "01000166")
        self.assertEqual(wire.owner(bytes.fromhex("000169" + "00026c6c")), (b"i", b"ll"))

    def test_too_long(self):
        """What a request can't tell is an error; what changes no verdict is cut or left out."""
        for asked in (
            lambda: wire.mint_request("b" * 256, "", "", NOTHING, 4),
            lambda: wire.mint_request("b", "i" * 65_536, "", NOTHING, 4),
            lambda: wire.mint_request("b", "i", "", ["c"] * 256, 4),
            lambda: wire.verify_request("b", "!", ["f"] * 256, 0),
            lambda: wire.verify_request("b", "!", NOTHING, -1),
            lambda: wire.verify_request("b", "!", NOTHING, 2**64),
            lambda: wire.verify_request("b", "\ud800", NOTHING, 0),
            lambda: wire.framed(bytes(65_537)),
        ):
            self.assertRaises(BadRequest, asked)
        self.assertEqual(wire.verify_request("b", "!" * 70_000, NOTHING, 0), wire.verify_request("b", "!" * 32_769, NOTHING, 0))
        self.assertEqual(wire.verify_request("b", "!", ["f" * 4_097, "g"], 0), wire.verify_request("b", "!", ["g"], 0))

    def test_batches(self):
        """At most 256 requests go out together, or about 64 KiB."""
        for sizes, runs in (([0] * 513, [256, 256, 1]), ([30_000] * 5, [3, 2]), ([], []), ([65_536], [1])):
            calls = (raw_call(bytes(size)) for size in sizes)
            self.assertEqual([len(run) for run in batches(calls)], runs)
        self.assertEqual(Run().taken(), [])


if __name__ == "__main__":
    unittest.main()
