"""Beside each daemon: takes what an operator signed from the store to the daemon's files, and tells back what is up.

Whatever the store does, the files stay as they last were good: a head is taken only where an operator
signed it, where its serial is none that was passed, and where each of its objects has its digest.
"""
from __future__ import annotations

import fcntl
import json
import os
import pathlib
import queue
import secrets
import sys
import time
from typing import Callable, Dict, List, NamedTuple, Optional, Tuple

from . import sealing
from .daemon import KeysReading, Numbers, Reading, RevokedReading, numbers
from .errors import FleetError, Lacking, NotTaken, ToolFailed
from .files import Target
from .form import HEAD_MAX, OBJECT_MAX, REVOKED_MAX, TOLD_MAX, Head, KeyFile, Told
from .form import head_in, is_digest, is_number, key_of, revocations, revoked_text
from .sealing import digest_of
from .settings import Settings
from .store import Change, Store

# How many seconds it waits for news where all is up, and where the daemon has still to read a file; and until when
# it waits so, behind a new head.
BEAT, SOON, WAITED = 5.0, 0.1, 15.0
# How many seconds behind a new head it tells that this isn't up yet.
TOLD_AFTER = 2.5
# For how many beats a lease outlives an agent.
BEATS_OF_LEASE = 3
# The longest text that it tells back.
WHY_MAX = 500


class Wanted(NamedTuple):
    """What the daemon's files shall have, by the head of this serial."""

    head: Head
    digest: str
    keys: bytes
    revoked: bytes


class Taken:
    """The serial and the digest of the head that was taken last, in a file: what is older isn't taken any more."""

    def __init__(self, folder: str, fleet: str) -> None:
        self.path = pathlib.Path(folder, f"{fleet}.taken")
        self.serial, self.digest = self.found()

    def found(self) -> Tuple[int, str]:
        """What the file has, or 0 where nothing was taken yet."""
        try:
            found = json.loads(self.path.read_text())
            serial, digest = found["serial"], found["digest"]
        except FileNotFoundError:
            return 0, ""
        except OSError as fault:
            raise FleetError(f"{self.path}: {fault.strerror}") from fault
        except (ValueError, KeyError, TypeError) as fault:
            raise FleetError(f"{self.path}: it isn't what was written there; without it, what is old can't be told. Look at the store by `status`, then remove it") from fault
        if not is_number(serial) or not is_digest(digest):
            raise FleetError(f"{self.path}: it has no serial")
        return serial, digest

    def require_new(self, head: Head, digest: str) -> None:
        """A head that is older than one that was taken, or another one of its serial, isn't taken."""
        if head.serial < self.serial:
            raise NotTaken(f"the store is rolled back: it has serial {head.serial} where {self.serial} was taken")
        if head.serial == self.serial and digest != self.digest:
            raise NotTaken(f"the store has another head of serial {head.serial} than was taken")

    def keep(self, head: Head, digest: str) -> None:
        """Keeps a head that is taken, unless another run has kept a later one meanwhile."""
        if (head.serial, digest) == (self.serial, self.digest):
            return
        try:
            self.bring_to_disk(head.serial, digest)
        except OSError as fault:
            raise FleetError(f"{self.path}: {fault.strerror}") from fault
        self.serial, self.digest = head.serial, digest

    def bring_to_disk(self, serial: int, digest: str) -> None:
        self.path.parent.mkdir(mode=0o700, parents=True, exist_ok=True)
        folder = os.open(self.path.parent, os.O_RDONLY | os.O_DIRECTORY)
        try:
            fcntl.flock(folder, fcntl.LOCK_EX)
            if serial > self.found()[0]:
                beside = self.path.with_suffix(".new")
                with open(beside, "w") as file:
                    json.dump({"serial": serial, "digest": digest}, file)
                    file.flush()
                    os.fsync(file.fileno())
                beside.rename(self.path)
                os.fsync(folder)
        finally:
            os.close(folder)


class Objects:
    """The objects of the last head that was looked at, by their digests: what is there isn't asked for again."""

    def __init__(self, store: Store, fleet: str) -> None:
        self.store, self.fleet = store, fleet
        self.held: Dict[str, bytes] = {}

    def of(self, head: Head) -> Dict[str, bytes]:
        """All that the head names, each with the digest by which it does."""
        if len(head.revoked) * 1024 > REVOKED_MAX:
            raise NotTaken("the head names more revocations than there may be")
        found = {}
        for digest in head.objects():
            found[digest] = self.held[digest] if digest in self.held else self.fetched(digest)
            if sum(map(len, found.values())) > REVOKED_MAX + OBJECT_MAX:
                raise NotTaken("the revocations have more bytes than they may have")
        self.held = found
        return found

    def fetched(self, digest: str) -> bytes:
        entry = self.store.get(key_of(self.fleet, "objects", digest), OBJECT_MAX)
        if entry is None:
            raise Lacking(f"the store lacks the object {digest[:12]} that the head names")
        if digest_of(entry.value) != digest:
            raise NotTaken(f"the store has something else in the place of the object {digest[:12]}")
        return entry.value


def wanted_of(head: Head, digest: str, objects: Dict[str, bytes], who: sealing.Identity) -> Wanted:
    """What the files shall have; faulty lines and a file without keys aren't taken."""
    try:
        keys = KeyFile(sealing.decrypt(objects[head.keys], who))
    except ToolFailed as fault:
        asked = f"was this member added by {who.certificate}, and is {who.key} its key?"
        raise NotTaken(f"the keys can't be decrypted here; {asked} ({fault})") from fault
    lines = revocations([objects[it] for it in head.revoked])
    return Wanted(head, digest, keys.text(), revoked_text(lines))


class Agent:
    """One look at the store and the daemon after the other."""

    def __init__(self, settings: Settings, store: Store, log: Callable[[str], None], beat: float = BEAT) -> None:
        self.settings, self.store, self.log, self.beat = settings, store, log, beat
        self.operators = settings.operator_certificates()
        self.taken = Taken(settings.state, settings.fleet)
        self.objects = Objects(store, settings.fleet)
        self.keys = KeysReading(Target(settings.keys, settings.program, "check", "--keys"), self.numbers)
        self.revoked = RevokedReading(Target(settings.revoked, settings.program, "check", "--revoked"), self.numbers)
        self.run_name = secrets.token_hex(8)
        self.news: queue.SimpleQueue[None] = queue.SimpleQueue()
        self.wanted: Optional[Wanted] = None
        self.look_at, self.taken_at = 0.0, 0.0
        self.lease, self.is_here, self.keep_at = 0, False, 0.0
        # What went wrong with the store and what it has, with the files, and in telling it; and what was told last.
        self.of_store, self.of_files, self.of_telling = "", "", ""
        self.said, self.noted = (-1, ""), ""

    # The turns.

    def go(self) -> None:
        """Looks again and again, at news and with each beat."""
        self.turn()
        self.store.watch(key_of(self.settings.fleet, "head"), lambda: self.news.put(None))
        while True:
            self.wait()
            self.turn()

    def turn(self) -> None:
        """Looks at the store where that is due, brings the files to what it wants, looks at the daemon, and tells back."""
        if time.monotonic() >= self.look_at:
            self.of_store = fault_of(self.look)
            self.look_at = time.monotonic() + self.beat
        self.of_files = fault_of(self.settle)
        self.of_telling = fault_of(self.tell)
        self.note()

    def wait(self) -> None:
        """Until there are news, the next beat, or the daemon may have read a file."""
        is_waiting = not self.of_files and not self.is_up() and time.monotonic() - self.taken_at < WAITED
        is_at_rest = self.of_files or self.is_up()
        try:
            self.news.get(timeout=SOON if is_waiting else self.beat if is_at_rest else min(self.beat, 1.0))
            self.look_at = 0.0
            while True:
                self.news.get_nowait()
        except queue.Empty:
            pass

    # From the store to the files.

    def look(self) -> None:
        """Takes what the store has. Where the head's objects have gone since it was asked for, there is another head."""
        message = self.head()
        while True:
            try:
                return self.take(message)
            except Lacking:
                message, before = self.head(), message
                if message == before:
                    raise

    def head(self) -> bytes:
        """The head, as it is signed. Whether this member is said to be there still is seen with it."""
        head, here = key_of(self.settings.fleet, "head"), key_of(self.settings.fleet, "here", self.settings.member)
        found = {entry.key: entry.value for entry in self.store.together(head, [here], HEAD_MAX + TOLD_MAX)}
        self.is_here = self.is_here and here in found
        if head not in found:
            raise NotTaken("the store has nothing of this fleet")
        if len(found[head]) > HEAD_MAX:
            raise NotTaken(f"the head has more than {HEAD_MAX} bytes")
        return found[head]

    def take(self, message: bytes) -> None:
        """Takes a head, if that is new, signed and whole."""
        digest = digest_of(message)
        if self.wanted is not None and digest == self.wanted.digest:
            return
        head = head_in(sealing.signed(message, self.operators), self.settings.fleet)
        self.taken.require_new(head, digest)
        if self.settings.member not in head.members:
            raise NotTaken(f"{self.settings.member} is no member of the fleet")
        wanted = wanted_of(head, digest, self.objects.of(head), self.settings.identity)
        # First, so that no file has what a later run wouldn't know as taken.
        self.taken.keep(head, digest)
        self.wanted, self.taken_at = wanted, time.monotonic()

    def settle(self) -> None:
        """Brings the files to what is wanted, and learns what the daemon has read of them."""
        if self.wanted is None:
            return
        told = self.numbers()
        for reading, text in self.files(self.wanted):
            reading.bring(text, self.wanted.head.serial, told)
            reading.look(told)

    def numbers(self) -> Optional[Numbers]:
        return numbers(self.settings.socket)

    def files(self, wanted: Wanted) -> List[Tuple[Reading, bytes]]:
        """Each file with what it shall have. A member without a file of revocations takes none."""
        if self.settings.revoked:
            return [(self.keys, wanted.keys), (self.revoked, wanted.revoked)]
        if wanted.head.revoked:
            raise NotTaken("there are revocations, and no file for them here (`revoked =`)")
        return [(self.keys, wanted.keys)]

    def readings(self) -> List[Reading]:
        return [self.keys, self.revoked] if self.settings.revoked else [self.keys]

    def up(self) -> int:
        """The serial that the daemon has read all of, or 0."""
        return min(reading.up for reading in self.readings())

    def is_up(self) -> bool:
        """Whether that is what is wanted."""
        return self.wanted is not None and not self.of_files and self.up() == self.wanted.head.serial

    def is_soon(self) -> bool:
        """Whether a new head was taken just now, and is likely to be up in a moment: until then no fault is told."""
        is_quiet = self.wanted is not None and not self.of_store and not self.of_files
        return is_quiet and not self.is_up() and time.monotonic() - self.taken_at < TOLD_AFTER

    def why(self) -> str:
        """What is wrong, if anything is."""
        waiting = [reading.why for reading in self.readings() if self.wanted and reading.why]
        return "; ".join(filter(None, [self.of_store, self.of_files or (waiting[0] if waiting else "")]))

    # Back to the store.

    def tell(self) -> None:
        """Keeps the lease, and tells what is up where that is another thing than it told last."""
        self.keep_lease()
        settings, news = self.settings, (self.up(), self.why())
        if news == self.said or (news[0] == self.said[0] and self.is_soon()):
            return
        told = Told(settings.fleet, settings.member, self.run_name, self.up(), self.why()[:WHY_MAX], int(time.time()))
        signed = sealing.sign(told.text(), settings.identity)
        self.store.put(Change({key_of(settings.fleet, "told", settings.member): signed}))
        self.said = news

    def keep_lease(self) -> None:
        """Says that this run is there, for as long as its lease is kept. One that ended is begun anew, and what was taken away is said again."""
        if self.is_here and time.monotonic() < self.keep_at:
            return
        if not self.lease or not self.store.keep(self.lease):
            self.lease, self.is_here = self.store.grant(max(2, round(self.beat * BEATS_OF_LEASE))), False
        if not self.is_here:
            here = key_of(self.settings.fleet, "here", self.settings.member)
            self.store.put(Change({here: self.run_name.encode()}, lease=self.lease))
            self.is_here, self.said = True, (-1, "")
        self.keep_at = time.monotonic() + self.beat * 0.9

    def note(self) -> None:
        """Says in the log what is another thing than it said last."""
        is_kept = "; the files stay as they are" if self.of_store else ""
        faults = [self.why() + is_kept, self.of_telling if not self.of_store else ""]
        told = "; ".join(filter(None, faults)) or f"serial {self.up()} is up"
        if told != self.noted and not self.is_soon():
            self.log(told)
            self.noted = told

    def leave(self) -> None:
        """Ends the lease, so that others know at once."""
        if self.lease:
            fault_of(lambda: self.store.end(self.lease))


def fault_of(step: Callable[[], None]) -> str:
    """What keeps a step from its work, if anything does: all stays as it is then."""
    try:
        step()
    except (FleetError, OSError) as fault:
        return str(fault)
    return ""


def shown(text: str) -> str:
    """A line of printable ASCII, whatever a store or a member had written into it."""
    return "".join(it if it.isascii() and it.isprintable() else f"\\x{ord(it):02x}" for it in text)


def log_line(text: str) -> None:
    print(shown(text), file=sys.stderr, flush=True)
