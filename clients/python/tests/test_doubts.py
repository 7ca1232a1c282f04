"""Caveats that can hardly hold, by the table that is for each client."""
import json
import pathlib
import unittest
import warnings

from macaroond import CaveatWarning, Client, attenuate, doubts

from .script import server

ROWS = json.loads((pathlib.Path(__file__).resolve().parents[2] / "cases" / "doubts.json").read_text())
TOKEN = "AgIFYWxpY2UAAAYg" + "A" * 43


class Doubts(unittest.TestCase):
    def test_rows(self):
        for row in ROWS:
            with self.subTest(row=row):
                earlier = [row["caveat"]] if row["repeated"] else []
                told = doubts([row["caveat"]], row["at"], earlier)
                words = [line.removeprefix("a caveat ").partition(": ")[0] for line in told]
                self.assertEqual(words, [row["doubt"]] if row["doubt"] else [])

    def test_lines(self):
        self.assertEqual(doubts(["a", b"a\xff", "a", "a\n", b"a\xff"]), ["a caveat stands there twice: a", r"a caveat stands there twice: a\xff"])
        self.assertEqual(doubts(["ip=\x1b"]), [r"a caveat has not one space on each side of its equals sign: ip=\x1b"])

    def test_warned_of(self):
        """Each call that makes a token warns at the line of its caller, and goes on."""
        with server(lambda stream: stream.echo_all()) as path, Client(path) as client:
            calls = [
                lambda: client.mint("bank", "alice", caveats=(caveat for caveat in ["a", "method=GET"])),
                lambda: client.attenuate(TOKEN, "a", "method=GET"),
                lambda: attenuate(TOKEN, "a", "method=GET"),
                lambda: attenuate(attenuate(TOKEN, "a"), "a"),
            ]
            for call in calls:
                with self.assertWarns(CaveatWarning) as warned:
                    self.assertIsInstance(call(), str)
                self.assertEqual(warned.filename, __file__)

    def test_not_warned_of(self):
        with warnings.catch_warnings():
            warnings.simplefilter("error")
            attenuate(TOKEN, "a", "method = GET", "path under /a", "time < 2100-01-01T00:00")
