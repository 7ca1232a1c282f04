"""What an operator does: keys and revocations for all, signed, and each step only once the one before is up everywhere."""
from __future__ import annotations

import contextlib
import secrets
import time
from typing import Callable, Dict, List, NamedTuple, Optional, Sequence, Tuple

from . import form, sealing
from .agent import Objects, Taken
from .errors import FleetError, Lacking, NotTaken, StoreAway
from .form import HEAD_MAX, OBJECT_MAX, REVOKED_MAX, TOLD_MAX, Head, KeyFile, Step, Told, key_of
from .sealing import digest_of
from .settings import Settings
from .store import Change, Entry, Store

# How many bytes a new secret has.
SECRET_BYTES = 32
# The pause between two looks at what members tell, in seconds.
PAUSE = 0.15
# The most bytes of all that members tell.
MEMBERS_MAX = 2 << 20
# For how many seconds a store may be away, and the pause between two tries.
AWAY, AWAY_PAUSE = 10.0, 0.5
# How often a change is tried again where somebody else has changed something meanwhile.
TRIES = 20
# The most bytes of an object that etcd takes together with the head, by its own limit of 1.5 MiB.
SENT_MAX = 900 << 10
# How many names are told where another one was asked for.
NAMED = 10
# How many objects a change puts, and how many it takes away, by etcd's own limit of 128 steps for both together.
STEPS_MAX = 60


class State(NamedTuple):
    """What the store has: the head as it is signed, in which revision, and its objects."""

    head: Head
    digest: str
    revision: int
    objects: Dict[str, bytes]

    def revocations(self) -> List[Tuple[str, str]]:
        return form.revocations([self.objects[it] for it in self.head.revoked])


class Member(NamedTuple):
    """What is known of a member: whether its agent is there, and what that told last."""

    name: str
    is_here: bool
    is_fresh: bool
    told: Optional[Told]
    fault: str

    def is_up(self, serial: int) -> bool:
        return self.is_here and self.is_fresh and self.told is not None and self.told.serial >= serial

    def state(self, serial: int) -> str:
        """In words, whether it counts, and why it doesn't."""
        if self.fault:
            return self.fault
        if not self.is_here:
            return "away"
        if self.told is None or not self.is_fresh:
            return "it has told nothing yet"
        if self.is_up(serial):
            return "up"
        return "; ".join(filter(None, [f"it is at serial {self.told.serial}", self.told.why]))


class Fleet:
    """The fleet of an operator's settings."""

    def __init__(self, settings: Settings, store: Store, say: Callable[[str], None]) -> None:
        self.settings, self.store, self.say = settings, store, say
        self.operators = settings.operator_certificates()
        self.objects = Objects(store, settings.fleet)
        self.taken = Taken(settings.state, settings.fleet)
        self.seen: Dict[str, Told] = {}
        self.last: Optional[State] = None
        self.opened: Dict[str, KeyFile] = {}
        # Why a change that is tried got no answer, if it got none.
        self.lost = ""

    def key(self, *parts: str) -> str:
        return key_of(self.settings.fleet, *parts)

    # What there is.

    def look(self) -> Tuple[State, List[Member]]:
        """What the store has, and what is known of each member, at one moment. A store that is away may come back."""
        until = time.monotonic() + AWAY
        while True:
            try:
                return self.look_once()
            except (StoreAway, Lacking):
                if time.monotonic() > until:
                    raise
                time.sleep(AWAY_PAUSE)

    def look_once(self) -> Tuple[State, List[Member]]:
        """The same. A store that is rolled back, by what was seen here or by what members have told, is a fault."""
        prefixes = [self.key("here", ""), self.key("told", "")]
        found = {entry.key: entry for entry in self.store.together(self.key("head"), prefixes, HEAD_MAX + MEMBERS_MAX)}
        entry = found.get(self.key("head"))
        if entry is None:
            raise NotTaken("the store has nothing of this fleet; `macaroond-fleet publish --first` begins it")
        state = self.state_of(entry)
        values = {key: it.value for key, it in found.items()}
        members = [self.member(state.head, name, values) for name in sorted(state.head.members)]
        if later := [it for it in members if it.told is not None and it.told.serial > state.head.serial]:
            raise NotTaken(f"the store is rolled back: it has serial {state.head.serial}, and {later[0].name} has a later one up")
        return state, members

    def state(self) -> State:
        return self.look()[0]

    def state_of(self, entry: Entry) -> State:
        """What a head says; that of the last look is known already."""
        digest = digest_of(entry.value)
        if self.last is None or self.last.digest != digest:
            head = form.head_in(sealing.signed(entry.value, self.operators), self.settings.fleet)
            self.taken.require_new(head, digest)
            self.last = State(head, digest, entry.revision, self.objects.of(head))
            self.taken.keep(head, digest)
        return self.last._replace(revision=entry.revision)

    def keys_of(self, state: State) -> KeyFile:
        """The key file, as the operator may decrypt it."""
        digest = state.head.keys
        if digest not in self.opened:
            self.opened = {digest: KeyFile(sealing.decrypt(state.objects[digest], self.settings.identity))}
        return self.opened[digest]

    def member(self, head: Head, name: str, values: Dict[str, bytes]) -> Member:
        """What is known of a member. What an earlier run of its agent told isn't known to hold still."""
        fault, told = "", None
        here, message = values.get(self.key("here", name)), values.get(self.key("told", name))
        if message is not None:
            try:
                told = self.told(head, name, message)
            except FleetError as why:
                fault = f"what it tells isn't believed: {why}"
        is_fresh = told is not None and here == told.run.encode()
        return Member(name, here is not None, is_fresh, told, fault)

    def told(self, head: Head, name: str, message: bytes) -> Told:
        """What a member told, by the certificate that the head has of it."""
        where = " ".join((name, digest_of(head.members[name].encode()), digest_of(message)))
        if where not in self.seen:
            if len(message) > TOLD_MAX:
                raise NotTaken("it is too long")
            self.seen[where] = form.told_in(sealing.signed(message, [head.members[name]]), self.settings.fleet, name)
        return self.seen[where]

    # What is changed.

    def publish(self, was: Optional[State], head: Head, objects: Sequence[bytes]) -> Optional[Head]:
        """Signs a head with its objects, and puts it in the place of what was; None where somebody else was faster."""
        whole = {**(was.objects if was else {}), **{digest_of(it): it for it in objects}}
        require_takable(head, whole)
        head = head._replace(serial=max(self.taken.serial + 1, was.head.serial + 1 if was else 1, int(time.time())))
        signed = sealing.sign(head.text(), self.settings.identity)
        if len(signed) > HEAD_MAX:
            raise FleetError("the head is too long: the fleet has too many members")
        held = set(was.head.objects()) if was else set()
        puts = {digest_of(it): it for it in objects if digest_of(it) not in held}
        self.upload(puts, len(signed))
        gone = [self.key("objects", it) for it in sorted(held - set(head.objects()))]
        change = Change({**{self.key("objects", name): it for name, it in puts.items()}, self.key("head"): signed}, gone[:STEPS_MAX])
        if not self.is_changed(change, was.revision if was else 0):
            return None
        digest = digest_of(signed)
        with contextlib.suppress(StoreAway):
            self.sweep(gone[STEPS_MAX:], digest)
        self.taken.keep(head, digest)
        self.last = State(head, digest, 0, {name: whole[name] for name in head.objects()})
        return head

    def sweep(self, gone: Sequence[str], digest: str) -> None:
        """Takes away what the head of this digest doesn't name, as long as that is the head: another one may name it again."""
        for at in range(0, len(gone), STEPS_MAX):
            entry = self.store.get(self.key("head"), HEAD_MAX)
            if entry is not None and digest_of(entry.value) == digest:
                self.store.change(Change({}, gone[at : at + STEPS_MAX]), (self.key("head"), entry.revision))

    def is_changed(self, change: Change, revision: int) -> bool:
        """Whether the change was made. Where the answer is lost it may have been: who looks again sees. What fails twice so fails."""
        try:
            return self.store.change(change, (self.key("head"), revision))
        except StoreAway as why:
            if revision == 0 or str(why) == self.lost:
                raise
            self.lost = str(why)
            self.say(f"{why}; looking again")
            return False

    def upload(self, puts: Dict[str, bytes], room: int) -> None:
        """Puts so many of these objects first, one by one, that the others fit one transaction."""
        while puts and (sum(map(len, puts.values())) + room > SENT_MAX or len(puts) > STEPS_MAX):
            name, data = puts.popitem()
            self.store.put(Change({self.key("objects", name): data}))

    def changed(self, change: Callable[[State], Tuple[Head, Sequence[bytes]]]) -> Head:
        """Makes a change of what the store has now, again where somebody else was faster."""
        self.lost = ""
        for _ in range(TRIES):
            was = self.state()
            head, objects = change(was)
            if (head, list(objects)) == (was.head, []):
                return head
            if (made := self.publish(was, head, objects)) is not None:
                return made
        raise FleetError("others change the fleet without pause; try again")

    def with_keys(self, state: State, keys: KeyFile, **fields: object) -> Tuple[Head, Sequence[bytes]]:
        """The head with these keys, encrypted for its members and the operators."""
        head = state.head._replace(**fields)  # type: ignore[arg-type]
        sealed = self.sealed(keys, head.members)
        self.opened = {digest_of(sealed): keys}
        return head._replace(keys=digest_of(sealed)), [sealed]

    def sealed(self, keys: KeyFile, members: Dict[str, str]) -> bytes:
        return sealing.encrypt(keys.text(), [*members.values(), *self.operators])

    # Until it is up.

    def await_up(self, serial: int, without: Sequence[str], patience: float) -> None:
        """Waits until every member has told that this serial is up; who hasn't in time is named, and it is a fault."""
        until, said = time.monotonic() + patience, ""
        while True:
            waited = [it for it in self.look()[1] if it.name not in without and not it.is_up(serial)]
            if not waited:
                return
            told = "; ".join(f"{it.name}: {it.state(serial)}" for it in waited)
            if time.monotonic() > until:
                raise FleetError(f"it isn't up everywhere: {told}")
            if any(not it.is_here for it in waited) and told != said:
                self.say(f"waiting for {told}")
                said = told
            time.sleep(PAUSE)


def require_takable(head: Head, objects: Dict[str, bytes]) -> None:
    """What no agent would take isn't published: no operator could take it back."""
    if len(objects[head.keys]) > OBJECT_MAX:
        raise FleetError(f"the keys have more than {OBJECT_MAX} bytes, as they are encrypted")
    if max((len(objects[it]) for it in head.revoked), default=0) > OBJECT_MAX or sum(len(objects[it]) for it in head.revoked) > REVOKED_MAX:
        raise FleetError(f"the revocations have more than {REVOKED_MAX} bytes, or one of them has more than {OBJECT_MAX}")


# The key file, the members, a key's change, and revocations.


def require_harmless(were: KeyFile, keys: KeyFile) -> None:
    """A key that isn't there any more ends its tokens, and one that mints before all have it makes some that others refuse: that has to be meant."""
    lost = dict.fromkeys(name for name, secret in were.lines if secret not in keys.of(name))
    if lost:
        raise FleetError(f"keys of {', '.join(lost)} aren't in this file, and their tokens would end; --drop says that this is meant")
    if early := [name for name in were.names() if keys.of(name)[0] not in were.of(name)]:
        why = "and members that haven't got it yet would refuse its tokens; `rotate` makes one without that, and --drop says that it is meant"
        raise FleetError(f"the first key of {', '.join(early)} is a new one, {why}")


def no_key(name: str, keys: KeyFile) -> FleetError:
    """That the key file has none of this name, with some of those that it has."""
    names = keys.names()
    return FleetError(f"there is no key {name}; the fleet has {', '.join(names[:NAMED])}{', ..' if len(names) > NAMED else ''}")


def begin(fleet: Fleet, keys: KeyFile, revoked: Optional[List[Tuple[str, str]]], is_first: bool, may_drop: bool = True) -> Head:
    """Publishes a key file and revocations in the place of those that are there, or as the first ones. None leaves revocations as they are."""
    # Each line once: daemons tell how many they have.
    pieces = form.pieces_of(list(dict.fromkeys(revoked or [])))
    digests = tuple(map(digest_of, pieces))

    def change(state: State) -> Tuple[Head, Sequence[bytes]]:
        were = fleet.keys_of(state)
        if not may_drop:
            require_harmless(were, keys)
        # A change goes on where its keys are as it left them.
        kept = {name: step for name, step in state.head.steps.items() if keys.of(name) == were.of(name)}
        head, objects = fleet.with_keys(state, keys, revoked=state.head.revoked if revoked is None else digests, steps=kept)
        return head, [*objects, *pieces]

    if not is_first:
        return fleet.changed(change)
    sealed = fleet.sealed(keys, {})
    head = fleet.publish(None, Head(fleet.settings.fleet, 0, digest_of(sealed), digests, {}, {}), [sealed, *pieces])
    if head is None:
        raise FleetError("the store has this fleet already; publish without --first to change it")
    return head


def add_member(fleet: Fleet, name: str, certificate: str) -> Head:
    """From now on this owner of a certificate gets the keys."""
    if not form.is_name(name):
        raise FleetError("a member's name has 1 to 64 letters, digits, dots, underscores or dashes")
    found = sealing.certificates_in(certificate)
    if len(found) != 1:
        raise FleetError("there is not one certificate in the file")
    sealing.is_elliptic(found[0])

    def change(state: State) -> Tuple[Head, Sequence[bytes]]:
        return fleet.with_keys(state, fleet.keys_of(state), members={**state.head.members, name: found[0]})

    return fleet.changed(change)


def remove_member(fleet: Fleet, name: str) -> Head:
    """From now on a member gets no keys; those that it has it keeps."""

    def change(state: State) -> Tuple[Head, Sequence[bytes]]:
        if name not in state.head.members:
            if fleet.lost:
                # It was removed by the try whose answer didn't come.
                return state.head, []
            raise FleetError(f"{name} is no member")
        left = {it: certificate for it, certificate in state.head.members.items() if it != name}
        return fleet.with_keys(state, fleet.keys_of(state), members=left)

    head = fleet.changed(change)
    fleet.store.put(Change({}, [fleet.key(part, name) for part in ("here", "told")]))
    return head


def revoke(fleet: Fleet, name: str, identifiers: Sequence[str]) -> Head:
    """Adds these identifiers, in hexadecimal, to the revocations."""

    def change(state: State) -> Tuple[Head, Sequence[bytes]]:
        if name not in fleet.keys_of(state).names():
            raise no_key(name, fleet.keys_of(state))
        lines = state.revocations()
        held = set(lines)
        more = [(name, it) for it in dict.fromkeys(identifiers) if (name, it) not in held]
        if not more:
            return state.head, []
        pieces = form.pieces_of([*lines, *more])
        return state.head._replace(revoked=tuple(map(digest_of, pieces))), pieces

    return fleet.changed(change)


class Rotation:
    """A key's change. How far it has come stands in the store, so that it goes on where it was, from anywhere."""

    def __init__(self, fleet: Fleet, name: str, old_for: int) -> None:
        self.fleet, self.name, self.old_for = fleet, name, old_for

    def at(self, state: State) -> Tuple[Optional[Step], List[str]]:
        """The step that it is at, and the name's secrets."""
        return state.head.steps.get(self.name), self.fleet.keys_of(state).of(self.name)

    def next_word(self, state: State) -> str:
        """What comes next: `below`, `above`, `kept` or `dropped`."""
        step, held = self.at(state)
        if not held:
            raise no_key(self.name, self.fleet.keys_of(state))
        if step is not None:
            return {"below": "above", "above": "kept", "kept": "dropped"}[step.word]
        if len(held) == 2:
            raise FleetError(f"{self.name} has two keys, and no change of it is under way; drop one by `publish` first")
        return "below"

    def advance(self, was: State) -> Head:
        """Makes the next step, unless somebody has made it since."""
        word, at = self.next_word(was), self.at(was)

        def change(state: State) -> Tuple[Head, Sequence[bytes]]:
            return getattr(self, word)(state, at[1]) if self.at(state) == at else (state.head, [])

        return self.fleet.changed(change)

    def below(self, state: State, held: List[str]) -> Tuple[Head, Sequence[bytes]]:
        return self.with_step(state, [*held, secrets.token_hex(SECRET_BYTES)], Step("below"))

    def above(self, state: State, held: List[str]) -> Tuple[Head, Sequence[bytes]]:
        return self.with_step(state, held[::-1], Step("above"))

    def kept(self, state: State, held: List[str]) -> Tuple[Head, Sequence[bytes]]:
        until = int(time.time()) + self.old_for
        return state.head._replace(steps={**state.head.steps, self.name: Step("kept", until)}), []

    def dropped(self, state: State, held: List[str]) -> Tuple[Head, Sequence[bytes]]:
        return self.with_step(state, held[:1], None)

    def with_step(self, state: State, held: List[str], step: Optional[Step]) -> Tuple[Head, Sequence[bytes]]:
        steps = {name: it for name, it in state.head.steps.items() if name != self.name}
        if step is not None:
            steps[self.name] = step
        return self.fleet.with_keys(state, self.fleet.keys_of(state).with_secrets(self.name, held), steps=steps)
