"""What an operator does: steps that wait for all members, that go on where they were, and members that aren't believed."""
import contextlib
import io
import os
import threading
import unittest
import unittest.mock

from macaroond_fleet import form, operate, sealing
from macaroond_fleet.errors import FleetError, NotTaken
from macaroond_fleet.form import KeyFile, Step, key_of
from macaroond_fleet.operate import Rotation

from .rooms import KEYS, SECRET, Room, up


class Rotating(unittest.TestCase):
    def setUp(self):
        self.room = Room(self, "one", "two")
        self.fleet = self.room.begun("one", "two")
        self.agents = [self.room.agent(name) for name in ("one", "two")]

    def held(self):
        return self.fleet.keys_of(self.fleet.state()).of("bank")

    def step(self):
        return self.fleet.state().head.steps.get("bank")

    def advance(self, rotation):
        return rotation.advance(self.fleet.state())

    def test_the_steps(self):
        rotation = Rotation(self.fleet, "bank", 60)
        self.advance(rotation)
        old, new = self.held()
        self.assertEqual((old, self.step()), (SECRET, Step("below")))
        self.assertEqual(len(bytes.fromhex(new)), 32)
        self.advance(rotation)
        self.assertEqual((self.held(), self.step()), ([new, old], Step("above")))
        self.advance(rotation)
        self.assertEqual((self.held(), self.step().word), ([new, old], "kept"))
        self.advance(rotation)
        self.assertEqual((self.held(), self.step()), ([new], None))
        self.assertEqual(self.fleet.keys_of(self.fleet.state()).of("shop"), [SECRET])

    def test_it_goes_on_where_it_was(self):
        for word in ("below", "above", "kept", "dropped"):
            fleet = self.room.fleet()
            rotation = Rotation(fleet, "bank", 60)
            self.assertEqual(rotation.next_word(fleet.state()), word)
            rotation.advance(fleet.state())
        self.assertEqual(len(self.held()), 1)

    def test_two_at_once_make_each_step_once(self):
        one, two = Rotation(self.fleet, "bank", 60), Rotation(self.room.fleet(), "bank", 60)
        was = self.fleet.state()
        one.advance(was)
        two.advance(was)
        self.assertEqual((len(self.held()), self.step()), (2, Step("below")))

    def test_somebody_was_faster(self):
        other = self.room.fleet()
        self.room.store.before_change = lambda: operate.revoke(other, "shop", ["61"])
        self.advance(Rotation(self.fleet, "bank", 60))
        self.assertEqual((self.step(), self.fleet.state().revocations()), (Step("below"), [("shop", "61")]))

    def test_a_name_without_a_key(self):
        with self.assertRaisesRegex(FleetError, "there is no key mill; the fleet has bank, shop$"):
            self.advance(Rotation(self.fleet, "mill", 60))
        many = b"".join(f"key n{number:02} {SECRET}\n".encode() for number in range(12))
        operate.begin(self.fleet, KeyFile(many), [], is_first=False)
        with self.assertRaisesRegex(FleetError, r"the fleet has n00, n01, .*, n09, \.\.$"):
            self.advance(Rotation(self.fleet, "mill", 60))

    def test_two_keys_of_which_nobody_knows(self):
        operate.begin(self.fleet, KeyFile(KEYS + b"key bank 62\n"), [], is_first=False)
        with self.assertRaisesRegex(FleetError, "bank has two keys"):
            self.advance(Rotation(self.fleet, "bank", 60))

    def test_a_key_file_that_is_published_in_between(self):
        self.advance(Rotation(self.fleet, "bank", 60))
        keys = self.fleet.keys_of(self.fleet.state())
        operate.begin(self.fleet, keys.with_secrets("shop", ["62"]), [], is_first=False)
        self.assertEqual(self.step(), Step("below"))
        # Another key of the name: its change isn't where it was, and would end without one.
        operate.begin(self.fleet, keys.with_secrets("bank", [SECRET]), [], is_first=False)
        self.assertIsNone(self.step())
        operate.begin(self.fleet, keys.with_secrets("bank", ["62", SECRET]), [], is_first=False)
        with self.assertRaisesRegex(FleetError, "bank has two keys"):
            self.advance(Rotation(self.fleet, "bank", 60))

    def test_all_members_have_it_up(self):
        head = self.advance(Rotation(self.fleet, "bank", 60))
        with self.assertRaisesRegex(FleetError, "one: away; two: away"):
            self.fleet.await_up(head.serial, [], 0)
        up(self.room, self.agents[0])
        with self.assertRaisesRegex(FleetError, "everywhere: two: away"):
            self.fleet.await_up(head.serial, [], 0)
        self.fleet.await_up(head.serial, ["two"], 0)
        up(self.room, self.agents[1])
        self.fleet.await_up(head.serial, [], 0)
        self.agents[0].leave()
        with self.assertRaisesRegex(FleetError, "everywhere: one: away"):
            self.fleet.await_up(head.serial, [], 0)

    def test_it_waits(self):
        for agent in self.agents:
            up(self.room, agent)
        head = self.advance(Rotation(self.fleet, "bank", 60))
        later = threading.Timer(0.5, lambda: [up(self.room, agent) for agent in self.agents])
        later.start()
        self.fleet.await_up(head.serial, [], 30)
        later.join()


class Believing(unittest.TestCase):
    """Members' words are signed: who writes the store can't say that something is up."""

    def setUp(self):
        self.room = Room(self, "one", "two")
        self.fleet = self.room.begun("one", "two")
        self.agents = {name: up(self.room, self.room.agent(name)) for name in ("one", "two")}
        self.serial = self.fleet.state().head.serial
        self.fleet.await_up(self.serial, [], 0)

    def waits(self, serial, why):
        with self.assertRaisesRegex(FleetError, why):
            self.room.fleet().await_up(serial, [], 0)

    def write(self, who, **fields):
        told = form.Told("shop", "one", self.agents["one"].run_name, self.serial, "", 0)._replace(**fields)
        self.room.store.write(key_of("shop", "told", "one"), sealing.sign(told.text(), self.room.identities[who]))

    def test_another_member_s_signature(self):
        self.write("two")
        self.waits(self.serial, "one: what it tells isn't believed")

    def test_another_member_s_words(self):
        self.write("one", member="two")
        self.waits(self.serial, "one: what it tells isn't believed")

    def test_another_fleet_s_words(self):
        self.write("one", fleet="mill")
        self.waits(self.serial, "one: what it tells isn't believed")

    def test_nobody_s_words(self):
        for value in (b"", b"up", b"0" * 100_000):
            self.room.store.write(key_of("shop", "told", "one"), value)
            self.waits(self.serial, "one: what it tells isn't believed")

    def test_words_of_an_earlier_run(self):
        self.room.agent("one").keep_lease()
        self.waits(self.serial, "one: it has told nothing yet")

    def test_words_of_an_earlier_serial(self):
        old = self.room.store.held[key_of("shop", "told", "one")].value
        operate.revoke(self.fleet, "bank", ["61"])
        for agent in self.agents.values():
            up(self.room, agent)
        serial = self.fleet.state().head.serial
        self.room.fleet().await_up(serial, [], 0)
        self.room.store.write(key_of("shop", "told", "one"), old)
        self.waits(serial, "one: it is at serial")

    def test_a_member_that_was_removed_gets_no_keys(self):
        operate.remove_member(self.fleet, "two")
        state = self.fleet.state()
        with self.assertRaises(FleetError):
            sealing.decrypt(state.objects[state.head.keys], self.room.identities["two"])
        self.assertEqual(sealing.decrypt(state.objects[state.head.keys], self.room.identities["one"]), KEYS)
        files = self.room.files("two")
        up(self.room, self.agents["two"])
        self.assertIn("two is no member", self.agents["two"].why())
        self.assertEqual(self.room.files("two"), files)
        self.assertNotIn(key_of("shop", "told", "two"), self.room.store.copy().keys() - {key_of("shop", "told", "two")})


class RolledBack(unittest.TestCase):
    """An operator doesn't go on from a store that was rolled back: old keys would be up again."""

    def setUp(self):
        self.room = Room(self, "one")
        self.fleet = self.room.begun("one")
        self.old = self.room.store.copy()
        operate.revoke(self.fleet, "bank", ["61"])

    def test_by_what_this_operator_saw(self):
        self.room.store.held = self.old
        with self.assertRaisesRegex(NotTaken, "the store is rolled back"):
            operate.revoke(self.room.fleet(), "bank", ["62"])

    def test_by_what_another_run_saw(self):
        """Two commands run side by side, and the one with the earlier head ends last."""
        early, late = (self.room.fleet().taken for _ in range(2))
        head = self.room.fleet().state().head
        late.keep(head._replace(serial=head.serial + 2), "b" * 64)
        early.keep(head._replace(serial=head.serial + 1), "a" * 64)
        self.assertEqual(early.serial, head.serial + 1)
        self.assertEqual(self.room.fleet().taken.serial, head.serial + 2)
        self.assertEqual(os.listdir(self.room.folder / "operator" / "state"), ["shop.taken"])

    def test_by_what_a_member_told(self):
        up(self.room, self.room.agent("one"))
        told = {name: it for name, it in self.room.store.held.items() if "/told/" in name}
        self.room.store.held = {**self.old, **told}
        other = self.room.fleet()
        other.taken.serial = 0
        with self.assertRaisesRegex(NotTaken, "one has a later one up"):
            operate.revoke(other, "bank", ["62"])

    def test_it_is_begun_anew(self):
        agent = up(self.room, self.room.agent("one"))
        self.room.store.held = {}
        fleet = self.room.begun("one")
        up(self.room, agent)
        self.assertTrue(agent.is_up(), agent.why())
        self.assertEqual(agent.up(), fleet.state().head.serial)


class Revoking(unittest.TestCase):
    def setUp(self):
        self.room = Room(self, "one")
        self.fleet = self.room.begun("one")

    def test_it_is_up(self):
        agent = up(self.room, self.room.agent("one"))
        head = operate.revoke(self.fleet, "bank", ["61", "62", "61"])
        up(self.room, agent)
        self.fleet.await_up(head.serial, [], 0)
        self.assertEqual(self.room.files("one")[1][0], b"revoked bank 61\nrevoked bank 62\n")

    def test_twice_is_once(self):
        first = operate.revoke(self.fleet, "bank", ["61"])
        self.assertEqual(operate.revoke(self.fleet, "bank", ["61"]), first)

    def test_a_list_that_is_published(self):
        lines = [("bank", "61"), ("bank", "62"), ("bank", "61")]
        operate.begin(self.fleet, KeyFile(KEYS), lines, is_first=False)
        self.assertEqual(self.fleet.state().revocations(), lines[:2])
        operate.begin(self.fleet, KeyFile(KEYS), [], is_first=False)
        agent = up(self.room, self.room.agent("one"))
        self.assertEqual(self.room.files("one")[1][0], b"# none\n")
        self.assertTrue(agent.is_up(), agent.why())

    def test_a_long_list_in_the_place_of_another(self):
        """Each piece is another one: more go than etcd takes away at once."""
        with unittest.mock.patch.object(form, "PIECE_MAX", 1):
            for byte in ("61", "62"):
                lines = [("bank", f"{number:04x}{byte}") for number in range(400)]
                head = operate.begin(self.fleet, KeyFile(KEYS), lines, is_first=False)
                self.assertEqual((len(head.revoked), self.room.fleet().state().revocations()), (400, lines))
        held = {name.rpartition("/")[2] for name in self.room.store.held if "/objects/" in name}
        self.assertEqual(held, set(head.objects()))

    def test_what_no_agent_would_take(self):
        was = self.room.head()
        for name, most in (("REVOKED_MAX", 15), ("OBJECT_MAX", 15), ("OBJECT_MAX", 100)):
            with self.subTest(name), unittest.mock.patch.object(operate, name, most), self.assertRaisesRegex(FleetError, "more than"):
                operate.begin(self.fleet, KeyFile(KEYS), [("bank", "61")], is_first=False)
            self.assertEqual(self.room.head(), was)

    def test_a_name_without_a_key(self):
        with self.assertRaisesRegex(FleetError, "there is no key mill"):
            operate.revoke(self.fleet, "mill", ["61"])

    def test_a_store_that_refuses(self):
        """What it says is told, and not that others were faster or that the fleet is there already."""

        def refused(made, where):
            raise operate.StoreAway("permission denied")

        self.room.store.change = refused
        with self.assertRaisesRegex(operate.StoreAway, "permission denied"):
            operate.revoke(self.fleet, "bank", ["61"])
        self.assertEqual(self.room.told, ["permission denied; looking again"])
        self.room.store.held = {}
        with self.assertRaisesRegex(operate.StoreAway, "permission denied"):
            self.room.begun()

    def test_an_answer_that_is_lost(self):
        change = self.room.store.change

        def lost(made, where):
            """It is changed, and the answer doesn't come."""
            change(made, where)
            self.room.store.change = change
            raise operate.StoreAway("it doesn't answer in time")

        self.room.store.change = lost
        operate.revoke(self.fleet, "bank", ["61"])
        self.assertEqual(self.fleet.state().revocations(), [("bank", "61")])
        with contextlib.redirect_stdout(io.StringIO()):
            self.room.store.change = lost
            Rotation(self.fleet, "bank", 0).advance(self.fleet.state())
            self.assertEqual(self.fleet.state().head.steps, {"bank": Step("below")})
            self.room.store.change = lost
            operate.remove_member(self.fleet, "one")
        self.assertEqual(self.fleet.state().head.members, {})
