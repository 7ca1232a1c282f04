"""The words of an operator, over a store in memory."""
import contextlib
import io
import re
import time
import types
import unittest
import unittest.mock

from macaroond_fleet import command, operate, sealing
from macaroond_fleet.form import Told, key_of
from macaroond_fleet.operate import Rotation
from macaroond_fleet.settings import Settings

from .rooms import KEYS, SECRET, Room, up


class Commands(unittest.TestCase):
    def setUp(self):
        self.room = Room(self, "one", "two")
        self.fleet = self.room.begun("one", "two")
        self.agents = [up(self.room, self.room.agent(name)) for name in ("one", "two")]
        for name, value in (("settings_in", lambda _: self.room.settings("operator")),):
            patched = unittest.mock.patch.object(command, name, value)
            patched.start()
            self.addCleanup(patched.stop)
        patched = unittest.mock.patch.object(Settings, "store", lambda _: self.room.store)
        patched.start()
        self.addCleanup(patched.stop)

    def run_words(self, *words):
        """How the command ends, and what it prints."""
        with contextlib.redirect_stdout(io.StringIO()) as out, contextlib.redirect_stderr(io.StringIO()) as err:
            status = command.main(list(words))
        return status, out.getvalue(), err.getvalue()

    def file(self, text):
        path = self.room.folder / "published"
        path.write_bytes(text)
        return str(path)

    def test_status(self):
        status, out, _ = self.run_words("status")
        self.assertEqual(status, 0)
        self.assertIn("2 names, 0 revocations", out)
        self.agents[1].leave()
        status, out, err = self.run_words("status")
        self.assertEqual(status, 1)
        self.assertRegex(out, r"two +\d+ +\d+ s ago +away")
        self.assertIn("not every member has it up", err)

    def test_a_member_s_words_are_shown_as_text(self):
        told = Told("shop", "one", self.agents[0].run_name, 0, "\x1b[2Jall is well\n", 0)
        signed = sealing.sign(told.text(), self.room.identities["one"])
        self.room.store.write(key_of("shop", "told", "one"), signed)
        self.assertIn("\\x1b[2Jall is well\\x0a", self.run_words("status")[1])

    def test_dry_runs_change_nothing(self):
        held = self.room.store.copy()
        for words in (["rotate", "bank", "--old-for", "1h"], ["revoke", "bank", "alice"], ["publish", "--keys", self.file(KEYS)],
                      ["add-member", "three", self.room.identities["one"].certificate], ["remove-member", "one"]):
            with self.subTest(words[0]):
                self.assertEqual(self.run_words(*words, "--dry-run")[0], 0)
                self.assertEqual(self.room.store.copy(), held)

    def test_a_dry_run_names_who_is_away(self):
        self.agents[0].leave()
        status, out, _ = self.run_words("rotate", "bank", "--old-for", "1h", "--dry-run")
        self.assertEqual(out.splitlines()[0], "one: away")
        self.assertEqual(len(out.splitlines()), 5)

    def published(self):
        """Whether all members had the head before up, each time that one is published from now on."""
        change, seen = self.room.store.change, []

        def noted(made, where):
            if key_of("shop", "head") in made.puts:
                state, members = self.room.fleet().look()
                seen.append(all(it.is_up(state.head.serial) for it in members))
            return change(made, where)

        self.room.store.change = noted
        return seen

    def while_members_look(self):
        """Members look, and their daemons read, whenever an operator waits."""
        look = types.SimpleNamespace(sleep=lambda _: [up(self.room, agent) for agent in self.agents], time=time.time, monotonic=time.monotonic)
        return unittest.mock.patch.object(operate, "time", look)

    def test_a_rotation(self):
        """Each step is made once all have told the one before. It goes on where it was broken off, and another one begins behind it."""
        seen, words = self.published(), ["rotate", "bank", "--old-for", "0"]
        status, out, err = self.run_words(*words, "--patience", "0")
        self.assertEqual((status, out, seen), (1, "", [True]))
        self.assertIn("one: it is at serial", err)
        self.assertIn("a change of bank is under way", self.run_words("status")[1])
        with self.while_members_look():
            status, out, _ = self.run_words(*words)
        self.assertEqual((status, seen), (0, [True] * 4))
        self.assertEqual(re.findall(r"^bank: (.*), after", out, re.MULTILINE), [command.MEANINGS[it] for it in command.STEPS[1:]])
        for agent in self.agents:
            self.assertEqual(self.room.files(agent.settings.member)[0][0], self.fleet.keys_of(self.fleet.state()).text())
        self.assertNotIn(f"key bank {SECRET}", self.run_words("keys")[1])

    def test_a_rotation_while_somebody_is_away(self):
        """Nothing is changed, and he is named; it goes on once he is back, or by a word that he serves nobody."""
        self.agents[1].leave()
        seen, held = self.published(), self.room.head()
        status, out, err = self.run_words("rotate", "bank", "--old-for", "0", "--patience", "0")
        self.assertEqual((status, seen, self.room.head()), (1, [], held))
        self.assertIn("two: away", err)
        self.agents.pop()
        with self.while_members_look():
            self.assertEqual(self.run_words("rotate", "bank", "--old-for", "0", "--without", "two")[0], 0)
        self.assertEqual(len(seen), 4)

    def test_a_key_that_is_lost(self):
        kept = self.file(f"key bank {SECRET}\n".encode())
        status, _, err = self.run_words("publish", "--keys", kept)
        self.assertEqual(status, 1)
        self.assertIn("keys of shop aren't in this file", err)
        self.assertEqual(self.fleet.keys_of(self.fleet.state()).text(), KEYS)
        self.run_words("publish", "--keys", kept, "--drop", "--patience", "0")
        self.assertEqual(self.fleet.keys_of(self.fleet.state()).names(), ["bank"])

    def test_a_new_key_that_would_mint_at_once(self):
        """Above the old one it makes tokens that others refuse; below it is harmless, and so is a new name."""
        above, more = self.file(f"key bank 62\nkey bank {SECRET}\nkey shop {SECRET}\n".encode()), b"key bank 62\nkey mill 63\n"
        for words in ([], ["--dry-run"]):
            status, _, err = self.run_words("publish", "--keys", above, *words)
            self.assertEqual(status, 1)
            self.assertIn("the first key of bank is a new one", err)
        self.run_words("publish", "--keys", self.file(KEYS + more), "--patience", "0")
        self.assertEqual(self.fleet.keys_of(self.fleet.state()).text(), KEYS + more)

    def test_a_comment_that_isn_t_utf_8(self):
        """A key file is bytes, and its comments say nothing."""
        was = self.fleet.state().head.serial
        self.run_words("publish", "--keys", self.file(b"# caf\xe9\n" + KEYS), "--patience", "0")
        self.assertGreater(self.fleet.state().head.serial, was)

    def test_what_others_change_while_a_key_file_is_published(self):
        """What they took back stays so, and keys that are new by then aren't dropped."""
        other, kept = self.room.fleet(), self.file(KEYS)
        self.room.store.before_change = lambda: operate.revoke(other, "bank", ["61"])
        self.run_words("publish", "--keys", kept, "--patience", "0")
        self.assertEqual(self.fleet.state().revocations(), [("bank", "61")])
        self.room.store.before_change = lambda: Rotation(other, "bank", 0).advance(other.state())
        status, _, err = self.run_words("publish", "--keys", kept, "--patience", "0")
        self.assertEqual(status, 1)
        self.assertIn("keys of bank aren't in this file", err)
        self.assertEqual(len(self.fleet.keys_of(self.fleet.state()).of("bank")), 2)

    def test_identifiers(self):
        self.run_words("revoke", "bank", "alice", "--patience", "0")
        self.run_words("revoke", "bank", "FF00", "--hex", "--patience", "0")
        self.assertEqual(self.fleet.state().revocations(), [("bank", b"alice".hex()), ("bank", "ff00")])
        self.assertIn("isn't in hexadecimal", self.run_words("revoke", "bank", "xyz", "--hex")[2])

    def test_without_somebody_who_is_no_member(self):
        held = self.room.store.copy()
        for words in (["revoke", "bank", "a"], ["rotate", "bank", "--old-for", "0"], ["publish", "--keys", self.file(KEYS)]):
            self.assertIn("four is no member", self.run_words(*words, "--without", "four")[2])
            self.assertEqual(self.room.store.copy(), held)

    def test_it_isn_t_up(self):
        status, _, err = self.run_words("revoke", "bank", "alice", "--patience", "0")
        self.assertEqual(status, 1)
        self.assertIn("one: it is at serial", err)

    def test_keys(self):
        self.assertEqual(self.run_words("keys"), (0, KEYS.decode(), ""))

    def test_a_fleet_that_is_there_isn_t_begun(self):
        status, _, err = self.run_words("publish", "--keys", self.file(KEYS), "--first")
        self.assertEqual(status, 1)
        self.assertIn("has this fleet already", err)
        self.assertEqual(self.fleet.state().head.members.keys(), {"one", "two"})
        self.room.store.held = {}
        self.assertIn("publish --first", self.run_words("status")[2])
        self.assertEqual(self.run_words("publish", "--keys", self.file(KEYS), "--first")[0], 0)
