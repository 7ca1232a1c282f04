"""Settings, and what the command line says of faulty ones."""
import contextlib
import io
import pathlib
import re
import tempfile
import unittest

from macaroond_fleet import command
from macaroond_fleet.errors import FleetError
from macaroond_fleet.settings import settings_in

EXAMPLE = pathlib.Path(__file__).parents[1] / "fleet.conf"
GOOD = """[fleet]
fleet = shop
endpoints = https://etcd-1.example:2379 https://etcd-2.example:2379
user = one
password_file = password
operators = operators.pem
certificate = one.pem
key = one.key
member = one
"""
PEM = "-----BEGIN CERTIFICATE-----\nAAAA\n-----END CERTIFICATE-----\n"


class Reading(unittest.TestCase):
    def setUp(self):
        folder = tempfile.TemporaryDirectory()
        self.addCleanup(folder.cleanup)
        self.folder = pathlib.Path(folder.name).resolve()
        for name in ("password", "one.key"):
            (self.folder / name).write_text("secret\n")
            (self.folder / name).chmod(0o600)
        (self.folder / "one.pem").write_text(PEM)
        self.path = self.folder / "fleet.conf"

    def settings(self, text):
        self.path.write_text(text)
        return settings_in(str(self.path))

    def test_good_ones(self):
        found = self.settings(GOOD)
        self.assertEqual(found.endpoints, ["https://etcd-1.example:2379", "https://etcd-2.example:2379"])
        self.assertEqual(found.identity.key, str(self.folder / "one.key"))
        self.assertEqual((found.socket, found.keys), ("/run/macaroond/socket", "/etc/macaroond/fleet/keys"))

    def test_the_example(self):
        """What an operator copies: as it stands, and with each line that is left out there."""
        text = EXAMPLE.read_text()
        found = self.settings(text)
        self.assertEqual((found.fleet, found.member, len(found.endpoints)), ("shop", "one", 3))
        named = self.settings(re.sub(r"^#(?=[a-z]+ =)", "", text, flags=re.MULTILINE))
        self.assertEqual(named, found)

    def test_faulty_ones(self):
        for text, why in {
            "": "one section",
            GOOD.replace("[fleet]", "[flotte]"): "one section",
            GOOD.replace("fleet = shop", "fleet = a/b"): "needs a name",
            GOOD.replace("fleet = shop", ""): "needs a name",
            GOOD.replace("endpoints = ", "endpoints =\n#"): "there is no `endpoints =`",
            GOOD.replace("certificate = one.pem", ""): "there is no `certificate =`",
            GOOD.replace("password_file = password", ""): "there is no `password_file =`",
            GOOD + "sokcet = /run\n": "there is no `sokcet =`",
            GOOD + "member = two\n": "member",
            GOOD.replace("one.key", "two.key"): "two.key: No such file",
            GOOD.replace("one.pem", "two.pem"): "two.pem: No such file",
            GOOD.replace("one.pem", "one.key"): "one.key: there is no certificate",
        }.items():
            with self.subTest(why), self.assertRaisesRegex(FleetError, why):
                self.settings(text)

    def test_an_authority_that_is_none(self):
        for name, why in (("gone.pem", "gone.pem: No such file"), ("one.key", "one.key: ")):
            with self.subTest(name), self.assertRaisesRegex(FleetError, why) as caught:
                self.settings(f"{GOOD}authority = {name}\n").store()
            self.assertNotIn("Errno", str(caught.exception))

    def test_secrets_that_others_may_read(self):
        for name in ("one.key", "password"):
            with self.subTest(name):
                (self.folder / name).chmod(0o644)
                with self.assertRaisesRegex(FleetError, "mode 644"):
                    self.settings(GOOD).store()
                (self.folder / name).chmod(0o640)

    def test_the_command_line(self):
        for words, status, told in [
            (["--config", "/nowhere", "status"], 1, "/nowhere: No such file"),
            (["--config", str(self.path), "agent"], 1, "fleet.conf"),
        ]:
            with self.subTest(words), contextlib.redirect_stderr(io.StringIO()) as said:
                self.assertEqual(command.main(words), status)
            self.assertIn(told, said.getvalue())

    def test_times(self):
        self.assertEqual([command.seconds(it) for it in ("0", "90", "90s", "15m", "12h", "30d")], [0, 90, 90, 900, 43_200, 2_592_000])
        for text in ("", "s", "-1", "1.5h", "1w"):
            with self.subTest(text), self.assertRaises(Exception):
                command.seconds(text)
