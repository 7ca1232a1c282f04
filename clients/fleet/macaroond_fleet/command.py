"""The words of `macaroond-fleet`."""
from __future__ import annotations

import argparse
import os
import re
import signal
import sys
import time
from typing import Any, Iterator, List, Optional, Tuple

from . import form, operate
from .agent import BEAT, Agent, log_line, shown
from .errors import FleetError
from .operate import Fleet, Rotation
from .settings import DEFAULT, read, read_bytes, settings_in

# How many seconds a step may take until it is up everywhere.
PATIENCE = 60.0
UNITS = {"": 1, "s": 1, "m": 60, "h": 3600, "d": 86400}
MEANING = """Brings one key file, and one list of revocations, to all daemons of a fleet by etcd.

An operator signs what he publishes, and members' agents take nothing else. Each command but `agent`
ends with 0 once its work is up at every member, and with 1 where it isn't, naming who is away.
"""


def seconds(text: str) -> int:
    found = re.fullmatch(r"(\d{1,9})([smhd]?)", text)
    if found is None:
        raise argparse.ArgumentTypeError(f"`{text}` is no time; say 90s, 15m, 12h or 30d")
    return int(found[1]) * UNITS[found[2]]


def words() -> argparse.ArgumentParser:
    """What the command line may say."""
    parser = argparse.ArgumentParser(prog="macaroond-fleet", description=MEANING, formatter_class=argparse.RawDescriptionHelpFormatter)
    parser.add_argument("--config", default=DEFAULT, metavar="FILE", help=f"the settings; {DEFAULT} if left out")
    commands = parser.add_subparsers(dest="command", required=True, metavar="COMMAND")
    agent = commands.add_parser("agent", help="runs beside a daemon, until it is told to end")
    agent.add_argument("--beat", type=float, default=BEAT, metavar="SECONDS", help="looks at least so often; its lease is three beats")
    changing = [*words_of_keys(commands), *words_of_members(commands)]
    commands.add_parser("status", help="which member has what up, and since when")
    commands.add_parser("keys", help="prints the fleet's key file, for a backup; whoever reads it can mint")
    for each in changing:
        each.add_argument("--dry-run", action="store_true", help="says what would be done, and does nothing")
    return parser


def words_of_keys(commands: Any) -> Iterator[argparse.ArgumentParser]:
    """Of the commands that change keys and revocations, and wait until that is up."""
    publish = commands.add_parser("publish", help="puts a key file, and revocations, in the place of the fleet's")
    publish.add_argument("--keys", required=True, metavar="FILE")
    publish.add_argument("--revoked", metavar="FILE", help="left out, the revocations stay as they are")
    publish.add_argument("--drop", action="store_true", help="keys that aren't in the file are dropped, and their tokens end; a new key may mint at once")
    publish.add_argument("--first", action="store_true", help="begins the fleet, where the store has nothing of it")
    rotate = commands.add_parser("rotate", help="changes a key everywhere: below, above, drop; goes on where it was broken off")
    rotate.add_argument("name", metavar="NAME")
    old = "how long tokens of the old key shall be good once all mint under the new one: 90s, 15m, 12h, 30d"
    rotate.add_argument("--old-for", type=seconds, metavar="TIME", required=True, help=old)
    revoke = commands.add_parser("revoke", help="has tokens of an identifier refused everywhere")
    revoke.add_argument("name", metavar="NAME")
    revoke.add_argument("identifiers", metavar="ID", nargs="+")
    revoke.add_argument("--hex", action="store_true", help="the identifiers are in hexadecimal")
    for each in (publish, rotate, revoke):
        without = "doesn't wait for this member, whose daemon serves nobody"
        each.add_argument("--without", action="append", default=[], metavar="MEMBER", help=without)
        each.add_argument("--patience", type=float, default=PATIENCE, metavar="SECONDS", help="waits so long for each step to be up")
        yield each


def words_of_members(commands: Any) -> Iterator[argparse.ArgumentParser]:
    """Of the commands that say who is a member."""
    add = commands.add_parser("add-member", help="has a member get the keys from now on")
    add.add_argument("name", metavar="NAME")
    add.add_argument("certificate", metavar="CERTIFICATE")
    remove = commands.add_parser("remove-member", help="has a member get no keys from now on; those that it has it keeps")
    remove.add_argument("name", metavar="NAME")
    yield from (add, remove)


class Work:
    """The command that was given, on the fleet of its settings."""

    def __init__(self, given: Any) -> None:
        self.given = given
        self.settings = settings_in(given.config)
        self.fleet = Fleet(self.settings, self.settings.store(), say)
        self.begin = time.monotonic()

    def require_members(self) -> None:
        """Whom a command shall not wait for is a member; said before anything is changed."""
        if self.given.without and (unknown := set(self.given.without) - self.fleet.state().head.members.keys()):
            raise FleetError(f"{min(unknown)} is no member")

    def await_up(self, serial: int) -> None:
        self.fleet.await_up(serial, self.given.without, self.given.patience)

    def took(self) -> str:
        return f"{time.monotonic() - self.begin:.1f} s"

    def away(self) -> None:
        """Names the members that a step would wait for."""
        state, members = self.fleet.look()
        for member in members:
            if not member.is_up(state.head.serial):
                say(f"{member.name}: {member.state(state.head.serial)}")

    def publish(self) -> None:
        keys = form.KeyFile(read_bytes(self.given.keys))
        revoked = form.revocations([read_bytes(self.given.revoked)]) if self.given.revoked else None
        if self.given.dry_run:
            return self.plan_publish(keys, revoked)
        self.require_members()
        head = operate.begin(self.fleet, keys, revoked, self.given.first, self.given.drop)
        self.await_up(head.serial)
        say(f"serial {head.serial} is up at {len(head.members) - len(set(self.given.without))} members, after {self.took()}")

    def plan_publish(self, keys: form.KeyFile, revoked: Optional[List[Tuple[str, str]]]) -> None:
        if not self.given.first:
            state = self.fleet.state()
            if not self.given.drop:
                operate.require_harmless(self.fleet.keys_of(state), keys)
            self.away()
            revoked = state.revocations() if revoked is None else revoked
        say(f"would publish {len(keys.names())} names and {len(revoked or [])} revocations")

    def rotate(self) -> None:
        rotation = Rotation(self.fleet, self.given.name, self.given.old_for)
        if self.given.dry_run:
            return self.plan(rotation)
        self.require_members()
        while True:
            state = self.fleet.state()
            word = rotation.next_word(state)
            self.await_up(state.head.serial)
            if word == "dropped":
                await_moment(rotation.at(state)[0])
            head = rotation.advance(state)
            if word != "kept":
                self.await_up(head.serial)
            say(f"{self.given.name}: {MEANINGS[word]}, after {self.took()}")
            if word == "dropped":
                return

    def plan(self, rotation: Rotation) -> None:
        word = rotation.next_word(self.fleet.state())
        self.away()
        for coming in STEPS[STEPS.index(word):]:
            say(f"{self.given.name}: would be {MEANINGS[coming]}")

    def revoke(self) -> None:
        identifiers = [in_hexadecimal(it, self.given.hex) for it in self.given.identifiers]
        if self.given.dry_run:
            self.away()
            return say(f"would revoke {len(identifiers)} of {self.given.name}")
        self.require_members()
        head = operate.revoke(self.fleet, self.given.name, identifiers)
        self.await_up(head.serial)
        say(f"{self.given.name}: {len(identifiers)} revoked at {len(head.members) - len(set(self.given.without))} members, after {self.took()}")

    def status(self) -> None:
        (state, members), now = self.fleet.look(), time.time()
        head, waiting = state.head, False
        say(f"fleet {head.fleet}: serial {head.serial}, {len(self.fleet.keys_of(state).names())} names, {len(state.revocations())} revocations")
        for name, step in head.steps.items():
            until = f" until {moment(step.until)}" if step.until else ""
            say(f"a change of {name} is under way: {MEANINGS[step.word]}{until}; `rotate {name}` goes on")
        rows = [("MEMBER", "SERIAL", "TOLD", "STATE")]
        for it in members:
            age = f"{max(0, now - it.told.at):.0f} s ago" if it.told else "-"
            rows.append((it.name, str(it.told.serial) if it.told else "-", age, it.state(head.serial)))
            waiting = waiting or not it.is_up(head.serial)
        widths = [max(len(row[column]) for row in rows) for column in range(3)]
        for row in rows:
            say("  ".join([*(cell.ljust(width) for cell, width in zip(row, widths)), row[3]]))
        if waiting:
            raise FleetError("not every member has it up")

    def add_member(self) -> None:
        certificate = read(self.given.certificate)
        if self.given.dry_run:
            return say(f"would add {self.given.name}, and encrypt the keys for it")
        head = operate.add_member(self.fleet, self.given.name, certificate)
        say(f"{self.given.name} is a member from serial {head.serial} on")

    def remove_member(self) -> None:
        if self.given.dry_run:
            return say(f"would remove {self.given.name}")
        head = operate.remove_member(self.fleet, self.given.name)
        say(f"{self.given.name} is no member from serial {head.serial} on; it keeps the keys that it has, so rotate each name now")

    def keys(self) -> None:
        sys.stdout.write(self.fleet.keys_of(self.fleet.state()).text().decode())

    def agent(self) -> None:
        if not form.is_name(self.settings.member):
            raise FleetError(f"{self.given.config}: there is no `member =`")
        agent = Agent(self.settings, self.settings.store(), log_line, self.given.beat)
        signal.signal(signal.SIGTERM, lambda *_: sys.exit(0))
        try:
            agent.go()
        finally:
            agent.leave()


STEPS = ["below", "above", "kept", "dropped"]
MEANINGS = {
    "below": "the new key verifies everywhere",
    "above": "the new key mints everywhere",
    "kept": "the old key still verifies",
    "dropped": "the old key is dropped everywhere",
}


def in_hexadecimal(text: str, is_hex: bool) -> str:
    """An identifier as the file of revocations has it."""
    if not is_hex:
        return os.fsencode(text).hex()
    try:
        return bytes.fromhex(text).hex()
    except ValueError as fault:
        raise FleetError(f"`{text}` isn't in hexadecimal") from fault


def moment(at: int) -> str:
    return time.strftime("%Y-%m-%dT%H:%M:%SZ", time.gmtime(at))


def await_moment(step: Optional[form.Step]) -> None:
    """Waits until the tokens of the old key have ended; who breaks that off goes on later."""
    if step is not None and step.until > time.time():
        say(f"the old key verifies until {moment(step.until)}; this may be broken off, and goes on by the same command")
        time.sleep(max(0.0, step.until - time.time()))


def say(text: str) -> None:
    print(shown(text), flush=True)


def main(arguments: Optional[List[str]] = None) -> int:
    given = words().parse_args(arguments)
    try:
        work = Work(given)
        getattr(work, given.command.replace("-", "_"))()
    except (FleetError, OSError) as fault:
        log_line(f"macaroond-fleet: {fault}")
        return 1
    except KeyboardInterrupt:
        log_line("macaroond-fleet: broken off")
        return 130
    return 0
