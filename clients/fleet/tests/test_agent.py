"""What an agent takes from a store, and what it leaves: whatever the store does, the files stay as they last were good."""
import os
import stat
import time
import unittest
import unittest.mock

from macaroond_fleet import form, operate, sealing
from macaroond_fleet.errors import FleetError, NotTaken, StoreAway, ToolAway
from macaroond_fleet.form import HEAD_MAX, Head, KeyFile, key_of
from macaroond_fleet.sealing import digest_of
from macaroond_fleet.store import Change

from .rooms import KEYS, SECRET, Room, certified, up

HEAD = key_of("shop", "head")


class Hostile(unittest.TestCase):
    """Each way in which a store may be at fault: nothing changes, it is told, and a good head is taken behind it."""

    def setUp(self):
        self.room = Room(self, "one", "two")
        self.fleet = self.room.begun("one")
        self.agent = up(self.room, self.room.agent("one"))
        self.assertTrue(self.agent.is_up(), self.agent.why())
        self.was = self.fleet.state().head
        self.good, self.files = self.room.store.copy(), self.room.files("one")

    def refuses(self, why):
        """The agent looks, leaves all as it is, and says why."""
        self.agent.look_at = 0.0
        self.agent.turn()
        self.assertIn(why, self.agent.why())
        self.assertEqual(self.room.files("one"), self.files)
        self.assertIn("the files stay as they are", self.room.told[-1])

    def tearDown(self):
        """The next good head is taken."""
        self.room.store.away, self.room.store.held = "", self.good
        operate.revoke(self.room.fleet(), "bank", ["61"])
        up(self.room, self.agent)
        self.assertTrue(self.agent.is_up(), self.agent.why())
        self.assertIn(b"revoked bank 61", self.room.files("one")[1][0])

    def signed(self, text, who="operator"):
        """A head of this text, signed by somebody, is in the store."""
        self.room.store.write(HEAD, sealing.sign(text, self.room.identities[who]))

    def head(self, keys=None, **fields):
        """A head that the operator signed, with these keys, encrypted for the member."""
        made = self.was._replace(serial=self.was.serial + 1)
        if keys is not None:
            sealed = sealing.encrypt(keys, [self.room.certificate("one")])
            self.room.store.write(key_of("shop", "objects", digest_of(sealed)), sealed)
            made = made._replace(keys=digest_of(sealed))
        return made._replace(**fields)

    def test_it_is_away(self):
        self.room.store.away = "connection refused"
        self.refuses("connection refused")

    def test_it_is_wiped(self):
        self.room.store.held = {}
        self.refuses("the store has nothing of this fleet")

    def test_it_is_rolled_back(self):
        old = self.room.store.copy()
        operate.revoke(self.fleet, "bank", ["62"])
        self.good = self.room.store.copy()
        up(self.room, self.agent)
        self.files = self.room.files("one")
        self.room.store.held = old
        self.refuses("the store is rolled back")

    def test_it_is_rolled_back_while_the_agent_was_away(self):
        old = self.room.store.copy()
        operate.revoke(self.fleet, "bank", ["62"])
        self.good = self.room.store.copy()
        up(self.room, self.agent)
        self.files, self.room.store.held = self.room.files("one"), old
        self.agent = self.room.agent("one")
        self.refuses("the store is rolled back")

    def test_another_head_of_the_same_serial(self):
        self.signed(self.head(serial=self.was.serial, steps={"bank": form.Step("below")}).text())
        self.refuses("another head of serial")

    def test_somebody_else_signed_it(self):
        for who in ("one", "two"):
            with self.subTest(who):
                self.signed(self.head().text(), who)
                self.refuses("it isn't signed by whom it has to be (openssl cms: signer certificate not found)")

    def test_nobody_signed_it(self):
        self.room.store.write(HEAD, self.head().text())
        self.refuses("it isn't signed by whom it has to be")

    def test_a_byte_of_it_is_another_one(self):
        message = self.room.head()
        at = message.index(b'"serial"') + 12
        self.room.store.write(HEAD, message[:at] + bytes([message[at] ^ 1]) + message[at + 1 :])
        self.refuses("it isn't signed by whom it has to be")

    def test_garbage(self):
        for garbage in (b"", b"\0" * 1000, b"{}", os.urandom(1000), b"0\x80" * 500):
            with self.subTest(garbage[:10]):
                self.room.store.write(HEAD, garbage)
                self.refuses("it isn't signed by whom it has to be")

    def test_too_long(self):
        self.room.store.write(HEAD, b"0" * (HEAD_MAX + 1))
        self.refuses("has more than")

    def test_it_is_signed_and_faulty(self):
        text = self.head().text()
        faults = {
            b"[]": "isn't of the form",
            b'"': "isn't JSON",
            b"[" * 100_000: "isn't JSON",
            text.replace(b"macaroond-fleet 1", b"macaroond-fleet 2"): "isn't of the form",
            text.replace(b'"fleet": "shop"', b'"fleet": "mill"'): "of another fleet",
            text.replace(b'"steps"', b'"stairs"'): "hasn't the members",
            text.replace(b'"serial": ', b'"serial": 1e9999, "serials": '): "hasn't the members",
            text.replace(b'"revoked": []', b'"revoked": ["../head"]'): "its revocations are no digests",
            text.replace(b'"one"', b'"../one"'): "a member has no name",
            text.replace(b"BEGIN CERTIFICATE", b"BEGIN CERTIFICATION"): "a member has no certificate",
            text.replace(b'"steps": {}', b'"steps": {"bank": ["sideways", 0]}'): "a change is at no step",
        }
        for faulty, why in faults.items():
            with self.subTest(why):
                self.signed(faulty)
                self.refuses(why)

    def test_serials_that_are_none(self):
        for serial in ("-1", "1.5", "true", '"9"', str(form.SERIAL_MAX + 1), "1e999", "NaN"):
            with self.subTest(serial):
                was = f'"serial": {self.head().serial}'.encode()
                self.signed(self.head().text().replace(was, f'"serial": {serial}'.encode()))
                self.refuses("its serial is no number")

    def test_an_object_is_missing(self):
        self.signed(self.head(revoked=("0" * 64,)).text())
        self.refuses("the store lacks the object")

    def test_an_object_is_another_one(self):
        self.signed(self.head(keys=KEYS + b"key mill 61\n").text())
        name = next(name for name in self.room.store.held if "/objects/" in name and name not in self.good)
        self.room.store.write(name, sealing.encrypt(KEYS, [self.room.certificate("one")]))
        self.refuses("something else in the place of the object")

    def test_an_object_is_too_long(self):
        self.signed(self.head(keys=KEYS + b"key mill 61\n").text())
        name = next(name for name in self.room.store.held if "/objects/" in name and name not in self.good)
        self.room.store.write(name, b"0" * (form.OBJECT_MAX + 1))
        self.refuses("has more than")

    def test_more_revocations_than_there_may_be(self):
        self.signed(self.head(revoked=("0" * 64,) * 20_000).text())
        self.refuses("has more than")

    def test_keys_for_somebody_else(self):
        sealed = sealing.encrypt(KEYS, [self.room.certificate("two")])
        self.room.store.write(key_of("shop", "objects", digest_of(sealed)), sealed)
        self.signed(self.head()._replace(keys=digest_of(sealed)).text())
        self.refuses("the keys can't be decrypted here; was this member added by ")
        self.refuses("one.key its key? (openssl cms: Error decrypting CMS using private key)")

    def test_faulty_key_files(self):
        line = f"key bank {SECRET}\n".encode()
        for text, why in {
            b"": "the key file has no key",
            b"# none\n": "the key file has no key",
            KEYS + b"key bank\n": "line 3",
            KEYS + b"key shop 6\n": "line 3",
            KEYS + b"key ../shop 61\n": "line 3",
            KEYS + b"\xff\n": "line 3",
            KEYS + b"key shop 61\r\n": "line 3",
            line * 3: "bank stands on three lines",
        }.items():
            with self.subTest(text[-20:]):
                self.signed(self.head(keys=text).text())
                self.refuses(why)

    def test_faulty_revocations(self):
        for piece in (b"revoked bank 6\n", b"key bank 61\n", b"\0"):
            with self.subTest(piece):
                self.room.store.write(key_of("shop", "objects", digest_of(piece)), piece)
                self.signed(self.head(revoked=(digest_of(piece),)).text())
                self.refuses("the revocations are faulty")

    def test_it_is_no_member(self):
        self.signed(self.head(members={"two": self.room.certificate("two")}).text())
        self.refuses("one is no member of the fleet")


class Files(unittest.TestCase):
    """How files come to their places, and when they are up."""

    def setUp(self):
        self.room = Room(self, "one")
        self.fleet = self.room.begun("one")

    def told(self):
        name = key_of("shop", "told", "one")
        message = sealing.signed(self.room.store.held[name].value, [self.room.certificate("one")])
        return form.told_in(message, "shop", "one")

    def test_nobody_else_may_read_them(self):
        up(self.room, self.room.agent("one"))
        for name in ("keys", "revoked"):
            mode = os.stat(self.room.folder / "one" / name).st_mode
            self.assertEqual(stat.S_IMODE(mode), 0o600)
        self.assertEqual(self.room.files("one")[0][0], KEYS)
        self.assertEqual(self.room.files("one")[1][0], b"# none\n")
        self.assertEqual(sorted(os.listdir(self.room.folder / "one")), ["keys", "revoked", "state"])

    def test_it_is_up_once_the_daemon_has_read_it(self):
        agent = self.room.agent("one")
        agent.turn()
        self.assertFalse(agent.is_up())
        self.assertEqual(self.room.files("one")[0][0], KEYS)
        agent.taken_at = 0.0
        agent.turn()
        self.assertEqual((self.told().serial, self.told().why), (0, "its daemon hasn't read it yet"))
        self.room.daemon_reads("one")
        agent.turn()
        self.assertEqual((self.told().serial, self.told().why), (self.fleet.state().head.serial, ""))

    def test_the_daemon_refuses_it(self):
        agent = self.room.agent("one")
        self.room.numbers["one"]["keys_refused"] = 1
        up(self.room, agent)
        self.assertEqual((self.told().serial, self.told().why), (0, f"its daemon refuses {self.room.folder}/one/keys; its log says why"))

    def test_the_daemon_is_away_and_comes_back(self):
        numbers, self.room.numbers["one"] = self.room.numbers["one"], None
        agent = self.room.agent("one")
        agent.turn()
        agent.taken_at = 0.0
        agent.turn()
        self.assertEqual((self.told().serial, self.told().why), (0, "its daemon doesn't answer"))
        self.assertEqual(self.room.files("one")[0][0], KEYS)
        self.room.numbers["one"] = numbers
        self.room.daemon_reads("one")
        agent.turn()
        self.assertEqual(self.told().serial, self.fleet.state().head.serial)

    def published(self, *identifiers):
        """An agent that finds these revocations in the place of those that there were."""
        operate.begin(self.fleet, KeyFile(KEYS), [("bank", it) for it in identifiers], is_first=False)
        self.agent.look_at = 0.0
        self.agent.turn()

    def lines(self):
        return self.room.files("one")[1][0].decode().splitlines()

    def test_a_list_of_as_many_lines(self):
        self.agent = up(self.room, self.room.agent("one"))
        self.published("61")
        self.assertEqual(self.lines(), ["revoked bank 61"])
        up(self.room, self.agent)
        # The daemon has one line up already, so that another list of one line couldn't be told from it.
        self.published("62")
        self.assertFalse(self.agent.is_up())
        self.assertEqual(self.lines(), ["revoked bank 62"] * 2)
        up(self.room, self.agent)
        self.assertTrue(self.agent.is_up(), self.agent.why())
        self.published("62", "63")
        self.assertEqual(self.lines(), ["revoked bank 62", "revoked bank 63", "revoked bank 63"])
        self.published("62", "63")
        self.assertEqual(up(self.room, self.agent).why(), "")

    def test_a_name_that_is_the_word_of_a_line(self):
        agent = up(self.room, self.room.agent("one"))
        for name in ("revoked", "unrevoked"):
            operate.begin(self.fleet, KeyFile(KEYS), [(name, "61")], is_first=False)
            up(self.room, agent)
            self.assertEqual(self.lines()[0], f"revoked {name} 61")
            self.assertTrue(agent.is_up(), agent.why())

    def test_a_list_that_was_read_at_once(self):
        self.agent = up(self.room, self.room.agent("one"))
        self.published("61", "62")
        up(self.room, self.agent)
        # The daemon reads this one before it is asked behind it: so its number stays, and the list is put in the other form.
        self.room.numbers["one"]["revoked"] = 1
        self.published("63")
        self.assertEqual(self.lines(), ["revoked bank 63"] * 2)
        self.agent.revoked.before = self.room.numbers["one"]["revoked"] = 2
        self.agent.turn()
        self.assertFalse(self.agent.is_up())
        self.agent.revoked.again_at = 0.0
        self.agent.turn()
        self.assertEqual(self.lines(), ["revoked bank 63"])
        self.assertTrue(up(self.room, self.agent).is_up(), self.agent.why())

    def test_a_daemon_that_was_about_to_start(self):
        self.room.numbers["one"] = None
        agent = self.room.agent("one")
        agent.turn()
        # It may have read what was there before, and tells of it a moment behind.
        now = int(time.time())
        self.room.numbers["one"] = {"keys_read_seconds": now + 2, "keys_refused": 0, "revoked": 0}
        agent.turn()
        self.assertFalse(agent.is_up())
        self.room.numbers["one"]["keys_read_seconds"] = now + 60
        agent.turn()
        self.assertTrue(agent.is_up(), agent.why())

    def test_a_daemon_without_revocations(self):
        del self.room.numbers["one"]["revoked"]
        agent = self.room.agent("one")
        agent.turn()
        self.room.numbers["one"]["keys_read_seconds"] += 4 * 10**9
        agent.taken_at = 0.0
        agent.turn()
        self.assertEqual(self.told().serial, 0)
        self.assertIn("--revoked FILE", self.told().why)

    def test_the_check_refuses_it(self):
        agent = up(self.room, self.room.agent("one"))
        files = self.room.files("one")
        self.room.program.write_text("#!/bin/sh\necho \"error: $3: line 7: no\" >&2\nexit 1\n")
        operate.Rotation(self.fleet, "bank", 0).advance(self.fleet.state())
        up(self.room, agent)
        self.assertIn("macaroond check refuses it", self.told().why)
        self.assertIn("keys: line 7: no", self.told().why)
        self.assertEqual(self.room.files("one"), files)
        self.assertEqual(sorted(os.listdir(self.room.folder / "one")), ["keys", "revoked", "state"])

    def test_the_check_refuses_the_revocations(self):
        agent = up(self.room, self.room.agent("one"))
        files = self.room.files("one")
        self.room.program.write_text("#!/bin/sh\n[ $1$2 != check--revoked ] || { echo \"error: $3: line 1: no\" >&2; exit 1; }\n")
        operate.revoke(self.fleet, "bank", ["61"])
        up(self.room, agent)
        self.assertIn("revoked: line 1: no", self.told().why)
        self.assertEqual(self.room.files("one"), files)

    def test_a_daemon_that_has_other_keys(self):
        """It was started anew with a key file of its own, and so it has read that later than the agent's was put."""
        self.room.numbers["one"]["key_names"] = 7
        agent = up(self.room, self.room.agent("one"))
        self.assertFalse(agent.is_up())
        agent.keys.again_at = 0.0
        agent.turn()
        self.assertIn("is it started with that", self.told().why)
        self.room.numbers["one"]["key_names"] = 2
        self.assertTrue(up(self.room, agent).is_up(), agent.why())

    def test_there_is_no_program(self):
        self.room.program.unlink()
        agent = up(self.room, self.room.agent("one"))
        self.assertIn("check:", agent.why())
        self.assertEqual(self.room.files("one"), [None, None])

    def test_a_change_by_hand_is_undone(self):
        agent = up(self.room, self.room.agent("one"))
        (self.room.folder / "one" / "keys").write_bytes(b"key bank 00\n")
        agent.turn()
        self.assertEqual(self.room.files("one")[0][0], KEYS)

    def test_a_file_that_was_left_beside(self):
        (self.room.folder / "one").mkdir()
        (self.room.folder / "one" / "keys.fleet_").symlink_to("elsewhere")
        up(self.room, self.room.agent("one"))
        self.assertEqual(sorted(os.listdir(self.room.folder / "one")), ["keys", "revoked", "state"])

    def test_a_lease_that_ended_is_begun_anew(self):
        agent = up(self.room, self.room.agent("one"))
        here = key_of("shop", "here", "one")
        self.room.store.end(agent.lease)
        self.assertNotIn(here, self.room.store.held)
        agent.keep_at = 0.0
        agent.turn()
        self.assertIn(here, self.room.store.held)
        agent.leave()
        self.assertNotIn(here, self.room.store.held)

    def kept(self, agent):
        """What the operator knows of the member once its agent has kept its lease."""
        agent.keep_at = 0.0
        up(self.room, agent)
        return self.room.fleet().look()[1][0]

    def test_what_was_taken_away_is_said_again(self):
        """A member that was removed and is one again, or a fleet that was begun anew, by an agent that was there all the time."""
        agent = up(self.room, self.room.agent("one"))
        operate.remove_member(self.fleet, "one")
        up(self.room, agent)
        operate.add_member(self.fleet, "one", self.room.certificate("one"))
        self.assertTrue(self.kept(agent).is_up(self.fleet.state().head.serial))
        self.room.store.held = {}
        self.fleet = self.room.begun("one")
        self.assertTrue(self.kept(agent).is_up(self.fleet.state().head.serial))

    def test_it_is_said_again_at_once(self):
        agent, here = up(self.room, self.room.agent("one")), key_of("shop", "here", "one")
        self.room.store.put(Change({}, [here]))
        agent.look_at = 0.0
        agent.turn()
        self.assertIn(here, self.room.store.held)

    def test_a_lease_under_which_nothing_could_be_said(self):
        agent, put = self.room.agent("one"), self.room.store.put

        def broken(change):
            raise StoreAway("it doesn't answer in time")

        self.room.store.put = broken
        agent.turn()
        self.assertIn("in time", agent.of_telling)
        self.room.store.put = put
        self.assertTrue(self.kept(agent).is_up(self.fleet.state().head.serial))

    def test_another_run_s_word_stays(self):
        """Of two agents of one member the later one counts, and the first one again once that is gone."""
        agents = [up(self.room, self.room.agent("one")) for _ in range(2)]
        self.kept(agents[0])
        here = key_of("shop", "here", "one")
        self.assertEqual(self.room.store.held[here].value, agents[1].run_name.encode())
        agents[1].leave()
        self.kept(agents[0])
        self.assertEqual(self.room.store.held[here].value, agents[0].run_name.encode())

    def test_a_state_that_can_t_be_written(self):
        """What isn't kept isn't taken, and it is tried again."""
        agent, state = self.room.agent("one"), self.room.folder / "one" / "state"
        state.write_text("")
        for _ in range(2):
            agent.look_at = 0.0
            agent.turn()
            self.assertIn("state/shop.taken: ", agent.why())
            self.assertEqual(self.room.files("one"), [None, None])
        state.unlink()
        self.assertTrue(up(self.room, agent).is_up(), agent.why())
        self.assertEqual(self.room.agent("one").taken.serial, agent.up())

    def test_a_state_that_is_none(self):
        up(self.room, self.room.agent("one"))
        (self.room.folder / "one" / "state" / "shop.taken").write_text("{")
        with self.assertRaises(FleetError):
            self.room.agent("one")

    def test_a_member_that_keeps_no_revocations(self):
        agent = self.room.agent("one")
        agent.settings = agent.settings._replace(revoked="")
        up(self.room, agent)
        self.assertTrue(agent.is_up())
        operate.revoke(self.fleet, "bank", ["61"])
        agent.look_at = 0.0
        agent.turn()
        self.assertIn("no file for them here", agent.why())
        self.assertFalse(agent.is_up())


class Sealing(unittest.TestCase):
    """What openssl is asked for, and what it must refuse."""

    def setUp(self):
        self.room = Room(self, "one", "two")

    def test_members_and_the_operator_read_it(self):
        sealed = sealing.encrypt(KEYS, [self.room.certificate(name) for name in ("one", "operator")])
        for name in ("one", "operator"):
            self.assertEqual(sealing.decrypt(sealed, self.room.identities[name]), KEYS)
        with self.assertRaises(FleetError):
            sealing.decrypt(sealed, self.room.identities["two"])
        self.assertNotIn(SECRET.encode(), sealed)

    def test_what_was_encrypted_can_t_be_changed(self):
        sealed = sealing.encrypt(KEYS, [self.room.certificate("one")])
        for at in (len(sealed) - 1, len(sealed) - 20, len(sealed) - 40):
            broken = sealed[:at] + bytes([sealed[at] ^ 1]) + sealed[at + 1 :]
            with self.assertRaises(FleetError):
                sealing.decrypt(broken, self.room.identities["one"])

    def test_openssl_that_isn_t_done_in_time(self):
        """Nothing is known of a message then: it isn't said to be somebody else's."""
        message = sealing.sign(b"text", self.room.identities["one"])
        with unittest.mock.patch.object(sealing, "PATIENCE", 0.0), self.assertRaisesRegex(ToolAway, "more than 0.0 seconds"):
            sealing.signed(message, [self.room.certificate("one")])

    def test_rsa(self):
        paths = sealing.Identity(f"{self.room.folder}/rsa.pem", f"{self.room.folder}/rsa.key")
        command = ["req", "-x509", "-newkey", "rsa:2048", "-nodes", "-days", "1", "-subj", "/CN=rsa"]
        sealing.run([*command, "-keyout", paths.key, "-out", paths.certificate], b"")
        with open(paths.certificate) as file:
            text = file.read()
        both = sealing.encrypt(KEYS, [text, self.room.certificate("one")])
        self.assertEqual(sealing.decrypt(both, paths), KEYS)
        self.assertEqual(sealing.decrypt(both, self.room.identities["one"]), KEYS)
        self.assertEqual(sealing.signed(sealing.sign(KEYS, paths), [text]), KEYS)

    def test_a_signature_is_somebody_s(self):
        other = certified("operator-two")
        message = sealing.sign(KEYS, other)
        with open(other.certificate) as file:
            text = file.read()
        self.assertEqual(sealing.signed(message, [self.room.certificate("operator"), text]), KEYS)
        with self.assertRaises(FleetError):
            sealing.signed(message, [self.room.certificate("operator")])


class Lines(unittest.TestCase):
    """Key files and revocations."""

    def test_a_name_s_secrets(self):
        keys = KeyFile(b"key a 01\nkey b 02\nkey a 03\nkey c 04\n")
        self.assertEqual(keys.of("a"), ["01", "03"])
        self.assertEqual(keys.with_secrets("a", ["05"]).text(), b"key a 05\nkey b 02\nkey c 04\n")
        self.assertEqual(keys.with_secrets("c", ["04", "06"]).text(), b"key a 01\nkey b 02\nkey a 03\nkey c 04\nkey c 06\n")

    def test_as_many_names_as_there_may_be(self):
        text = "".join(f"key k{number} 01\nkey k{number} 02\n" for number in range(form.NAMES_MAX)).encode()
        self.assertEqual(len(KeyFile(text).names()), 1000)
        with self.assertRaisesRegex(NotTaken, "it has more than 1000 names"):
            KeyFile(text + b"key more 01\n")

    def test_pieces(self):
        lines = [("bank", f"{number:0100x}") for number in range(2000)]
        pieces = form.pieces_of(lines)
        self.assertGreater(len(pieces), 2)
        self.assertEqual(form.revocations(pieces), lines)
        more = form.pieces_of([*lines, ("bank", "ff")])
        self.assertEqual(more[:-1], pieces[: len(more) - 1])
        self.assertEqual(form.pieces_of([]), [])

    def test_a_head_s_text(self):
        head = Head("shop", 7, "0" * 64, ("1" * 64,), {}, {"bank": form.Step("kept", 9)})
        self.assertEqual(form.head_in(head.text(), "shop"), head)


class Objects(unittest.TestCase):
    def test_another_head_comes_in_between(self):
        room = Room(self, "one")
        fleet = room.begun("one")
        agent, together = room.agent("one"), room.store.together

        def faster(key, prefixes, longest):
            """Somebody publishes between the look at the head and that at its objects."""
            found = together(key, prefixes, longest)
            room.store.together = together
            operate.add_member(fleet, "one", room.certificate("one"))
            return found

        room.store.together = faster
        up(room, agent)
        self.assertTrue(agent.is_up(), agent.why())

    def test_what_isn_t_named_any_more_goes(self):
        room = Room(self, "one")
        fleet = room.begun("one")
        for number in range(3):
            operate.revoke(fleet, "bank", [f"{number:02x}"])
        held = [name for name in room.store.held if "/objects/" in name]
        self.assertEqual(len(held), 2)
        room.store.put(Change({}))
