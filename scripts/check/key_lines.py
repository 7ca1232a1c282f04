#!/usr/bin/env python3
"""Key files that `macaroond keygen` writes and `macaroond check` reads.

A row gives the file as it is before, the words, and how the run ends; and what the file is then. A
refused run leaves each byte of it. A file that is written has mode 600, and no other file is left.
Other rows look at whose the new file is, at links, and at what a run that was cut leaves.
"""
import fcntl
import os
import pathlib
import re
import stat
import subprocess
import sys
import tempfile
import typing

sys.path.insert(0, str(pathlib.Path(__file__).resolve().parents[1]))
from check import statuses
from check.statuses import Ending, bad
from common import runs, tokens
from common.runs import Case, Run

LINE = r"key bank [0-9a-f]{64}\n"
# A file whose lines are told apart: a comment, an empty line, another name, and the name itself.
FRONT, UPPER, REST = "# keys\n\nkey shop 0011\n", "key bank aa\n", "\n# end\nkey pier 22"
ONE, TWO = f"{FRONT}{UPPER}{REST}", f"{FRONT}{UPPER}{REST}\nkey bank bb\n# last"
FAULTY = "key bank aa\n\nkey shop 0g\n"


class Row(typing.NamedTuple):
    """A file (None: none is there), the words, how the run ends, and what the file is then."""

    before: typing.Optional[str]
    words: typing.Sequence[str]
    ending: Ending
    after: typing.Optional[str]


def keygen(option, name="bank"):
    return ["keygen", name, option, "keys"]


def revoke(option):
    return ["revoke", "bank", "--identifier", "alice", option, "keys"]


def refused(what):
    return Ending(1, "", f"error: keys: {what}\n")


def failed(what):
    return Ending(3, "", f"error: keys: {what}\n")


def kept(text, words, ending):
    """A run that leaves the file as it is."""
    return Row(text, words, ending, None if text is None else re.escape(text))


def fingerprint(secret):
    """Eight digits of the key of a secret in hexadecimal: they begin the HMAC of a fixed text under it."""
    return tokens.hashed(tokens.root_of(bytes.fromhex(secret)), b"macaroond fingerprint").hex()[:8]


def one_key(name, secret):
    return f"{name}: one key, {fingerprint(secret)}\n"


def two_keys(name, first, second):
    return f"{name}: two keys, {fingerprint(first)} and {fingerprint(second)}\n"


WRITTEN = Ending(0, "", "")
DROPPED = Ending(0, "bank: the second line is dropped\n", "")
DROPPED_FIRST = Ending(0, "bank: the first line is dropped\n", "")
ONE_OPTION = "of `--into`, `--above`, `--below`, `--raise`, `--drop` and `--drop-first` one alone may be given\n"
# The line of a list that takes alice's tokens back, and what is told of a line of no such form.
REVOKED = "revoked bank 616c696365\n"
NO_LIST = "line 2: the line is not of the form `revoked NAME HEX`"
# Who has a key file that others may use, and what mends that.
WIDE = "the file has mode 644, by which others than its owner may use it; `chmod 600` mends that"
WEAK = "the secret has fewer than 16 bytes, which may be guessed; `macaroond keygen NAME` prints a line with 32"
MISSING = "there is no key file; `macaroond keygen NAME --into keys` makes one"
NO_KEY = "warning: keys: the key file has no key; `macaroond keygen NAME` prints a line for it\n"
CHECK = ["check", "--keys", "keys"]
BAD_HEX = "line 3: the secret is not in hexadecimal, two digits a byte"
ROWS = {
    "into": Row(None, keygen("--into"), WRITTEN, LINE),
    "into_bad_name": kept(None, keygen("--into", "my bank"), bad("the name of a key is 1 to 64 letters, ")),
    "into_a_file": kept(ONE, keygen("--into"), refused("the file is there already")),
    "above": Row(ONE, keygen("--above"), WRITTEN, re.escape(FRONT) + LINE + re.escape(UPPER + REST)),
    "above_last": Row(ONE, keygen("--above", "pier"), WRITTEN, r"(?s).*\n# end\nkey pier [0-9a-f]{64}\nkey pier 22"),
    "above_two": kept(TWO, keygen("--above"), refused("the name has two lines already")),
    "above_none": kept(ONE, keygen("--above", "ban"), refused("the name has no line")),
    "above_bad_name": kept(ONE, keygen("--above", "my bank"), bad("the name of a key is 1 to 64 letters, ")),
    "above_faulty": kept(FAULTY, keygen("--above"), failed(BAD_HEX)),
    "above_missing": kept(None, keygen("--above"), failed(MISSING)),
    "below": Row(ONE, keygen("--below"), WRITTEN, re.escape(FRONT + UPPER) + LINE + re.escape(REST)),
    "below_last": Row(ONE, keygen("--below", "pier"), WRITTEN, r"(?s).*\n# end\nkey pier 22\nkey pier [0-9a-f]{64}\n"),
    "below_two": kept(TWO, keygen("--below"), refused("the name has two lines already")),
    "below_none": kept(ONE, keygen("--below", "ban"), refused("the name has no line")),
    "below_missing": kept(None, keygen("--below"), failed(MISSING)),
    "raise": Row(TWO, keygen("--raise"), WRITTEN, re.escape(f"{FRONT}key bank bb\n{UPPER}{REST}\n# last")),
    "raise_last": Row("key bank aa\nkey bank bb", keygen("--raise"), WRITTEN, "key bank bb\nkey bank aa\n"),
    "raise_one": kept(ONE, keygen("--raise"), refused("the name has one line alone")),
    "raise_none": kept(ONE, keygen("--raise", "banks"), refused("the name has no line")),
    "drop_first": Row(TWO, keygen("--drop-first"), DROPPED_FIRST, re.escape(f"{FRONT}key bank bb\n{REST}\n# last")),
    "drop_first_one": kept(ONE, keygen("--drop-first"), refused("the name has one line alone")),
    "drop_first_none": kept(ONE, keygen("--drop-first", "banks"), refused("the name has no line")),
    "drop": Row(TWO, keygen("--drop"), DROPPED, re.escape(f"{FRONT}{UPPER}{REST}\n# last")),
    "drop_last": Row("key bank aa\nkey bank bb", keygen("--drop"), DROPPED, "key bank aa\n"),
    "drop_one": kept(ONE, keygen("--drop"), refused("the name has one line alone")),
    "drop_none": kept(ONE, keygen("--drop", "banks"), refused("the name has no line")),
    "drop_faulty": kept(FAULTY, keygen("--drop"), failed(BAD_HEX)),
    "drop_missing": kept(None, keygen("--drop"), failed(MISSING)),
    "two_options": kept(
        ONE,
        ["keygen", "bank", "--above", "keys", "--drop", "keys"],
        bad(ONE_OPTION),
    ),
    "two_of_each": kept(ONE, ["keygen", "bank", "--below", "keys", "--raise", "keys"], bad(ONE_OPTION)),
    "check": kept(TWO, CHECK, Ending(0, two_keys("bank", "aa", "bb") + one_key("pier", "22") + one_key("shop", "0011"), f"warning: keys: line 3: {WEAK}\n")),
    "check_sound": kept("key bank " + "0" * 32 + "\n", CHECK, Ending(0, one_key("bank", "0" * 32), "")),
    "check_weak": kept("key bank " + "0" * 30 + "\n", CHECK, Ending(0, one_key("bank", "0" * 30), f"warning: keys: line 1: {WEAK}\n")),
    "check_empty": kept("", CHECK, Ending(0, "", NO_KEY)),
    "check_faulty": kept(FAULTY, CHECK, refused(BAD_HEX)),
    "check_missing": kept(None, CHECK, failed(MISSING)),
    "check_nothing": kept(ONE, ["check"], bad("`--keys` or `--revoked` has to be given\n")),
    "revoke_into": Row(None, revoke("--into"), WRITTEN, re.escape(REVOKED)),
    "revoke_into_a_list": Row("# mine\nrevoked shop 616c696365", revoke("--into"), WRITTEN, re.escape(f"# mine\nrevoked shop 616c696365\n{REVOKED}")),
    "revoke_into_faulty": kept(f"{REVOKED}revoked bank", revoke("--into"), failed(NO_LIST)),
    "revoke_into_the_same": kept("revoked bank 616C696365", revoke("--into"), WRITTEN),
    "revoke_drop": Row(f"# a\n{REVOKED}revoked bank 00\nrevoked bank 616C696365", revoke("--drop"), WRITTEN, re.escape("# a\nrevoked bank 00")),
    "revoke_drop_all": Row(REVOKED, revoke("--drop"), WRITTEN, ""),
    "revoke_drop_none": kept("revoked bank 616c69636500\nrevoked shop 616c696365\n", revoke("--drop"), WRITTEN),
    "revoke_drop_missing": kept(None, revoke("--drop"), failed("there is no list of tokens that were taken back")),
    "revoke_drop_faulty": kept(f"{REVOKED}revoked bank 0g\n", revoke("--drop"), failed("line 2: the identifier is not in hexadecimal, two digits a byte")),
}


def mode(path):
    return stat.S_IMODE(path.stat().st_mode)


def put(path, text, permissions=0o600):
    if text is not None:
        path.write_text(text)
        path.chmod(permissions)


def run_in(folder, words):
    return runs.built_run(Case("", words), cwd=folder)


def left(path, wanted):
    """What is wrong with the file that a run left."""
    names = sorted(os.listdir(path.parent))
    if names != ([] if wanted is None else [path.name]):
        return [f"these files are left: {names}"]
    if wanted is None:
        return []
    text = path.read_text()
    found = [] if re.fullmatch(wanted, text) else [f"the file is {text!r}"]
    return found + ([] if mode(path) == 0o600 else [f"its mode is {mode(path):o}"])


def row_faults(name, row):
    with tempfile.TemporaryDirectory() as folder:
        path = pathlib.Path(folder) / "keys"
        put(path, row.before)
        run = run_in(folder, row.words)
        told = [] if statuses.is_so(run, row.ending) else [statuses.told(name, run, row.ending)]
        return told + [f"{name}: {it}" for it in left(path, row.after)]


def wide_faults():
    """A file that others may read is warned of, and the one that takes its place is the owner's."""
    with tempfile.TemporaryDirectory() as folder:
        path = pathlib.Path(folder) / "keys"
        put(path, "key bank " + "a" * 64 + "\n", 0o644)
        checked = run_in(folder, CHECK)
        minted = run_in(folder, ["mint", "--keys", "keys", "--key", "bank", "--identifier", "alice"])
        changed = run_in(folder, keygen("--above"))
        warning = f"warning: keys: {WIDE}\n"
        found = [f"wide: {run}" for run in (checked, minted) if run.error != warning or run.status]
        return found + ([] if changed.status == 0 and mode(path) == 0o600 else [f"wide: {changed}"])


def owner_faults():
    """The new file has the old one's owner, group and mode, where the run may give it away."""
    if os.geteuid():
        return []
    found = []
    for owner, permissions in (((1234, 1235), 0o600), ((0, 1235), 0o640), ((0, 1235), 0o440)):
        with tempfile.TemporaryDirectory() as folder:
            path = pathlib.Path(folder) / "keys"
            put(path, ONE, permissions)
            os.chown(path, *owner)
            run = run_in(folder, keygen("--above"))
            now = ((path.stat().st_uid, path.stat().st_gid), mode(path))
            found += [] if run.status == 0 and now == (owner, permissions) else [f"owner: {now}, {run}"]
    return found


def beside_faults():
    """Where FILE.new is there, or what keygen didn't leave at FILE.keygen, nothing is changed."""
    found = []
    for name, why in (
        ("keys.new", "keys.new: the file is there already"),
        ("keys.keygen", "keys.keygen: what is there is no file that keygen left; remove it"),
    ):
        with tempfile.TemporaryDirectory() as folder:
            path, new, victim = (pathlib.Path(folder) / one for one in ("keys", name, "victim"))
            put(path, ONE)
            put(victim, "mine")
            new.symlink_to(victim)
            run = run_in(folder, keygen("--above"))
            is_so = statuses.is_so(run, Ending(1, "", f"error: {why}\n"))
            stays = path.read_text() == ONE and victim.read_text() == "mine" and new.is_symlink()
            found += [] if is_so and stays else [f"beside: {name}: {run}"]
    return found


def left_faults():
    """What a run that was cut left is removed by the next one, and one that another run has isn't."""
    with tempfile.TemporaryDirectory() as folder:
        path, new = pathlib.Path(folder) / "keys", pathlib.Path(folder) / "keys.keygen"
        put(path, ONE)
        put(new, "key bank half")
        with open(new) as held:
            fcntl.flock(held, fcntl.LOCK_EX)
            run = run_in(folder, keygen("--above"))
            busy = statuses.is_so(run, refused("another run changes the file; try again"))
            stays = path.read_text() == ONE and new.read_text() == "key bank half"
        found = [] if busy and stays else [f"held: {run}"]
        run = run_in(folder, keygen("--above"))
        found += [] if run.status == 0 and not new.exists() else [f"left: {run}"]
    with tempfile.TemporaryDirectory() as folder:
        path, new = pathlib.Path(folder) / "keys", pathlib.Path(folder) / "keys.keygen"
        put(new, "key bank half")
        run = run_in(folder, keygen("--into"))
        return found + [f"left: {it}" for it in left(path, LINE)] + ([] if run.status == 0 else [f"left: {run}"])


def link_faults():
    """A key file that is a link isn't changed, and neither is what it leads to."""
    found = []
    for option in ("--above", "--below"):
        with tempfile.TemporaryDirectory() as folder:
            path, far = pathlib.Path(folder) / "keys", pathlib.Path(folder) / "far"
            put(far, ONE)
            path.symlink_to(far)
            run = run_in(folder, keygen(option))
            is_so = statuses.is_so(run, refused("the file is a link; give the path of the file that it leads to"))
            stays = path.is_symlink() and far.read_text() == ONE
            found += [] if is_so and stays else [f"link: {option}: {run}"]
    return found


def change_faults():
    """The whole change of a key that several daemons make one after the other."""
    with tempfile.TemporaryDirectory() as folder:
        path = pathlib.Path(folder) / "keys"
        runs_made = [run_in(folder, keygen("--into"))]
        old = path.read_text()
        steps = []
        for option in ("--below", "--raise", "--drop"):
            runs_made.append(run_in(folder, keygen(option)))
            steps.append(path.read_text())
        new = steps[0].removeprefix(old)
        due = [old + new, new + old, new]
        is_so = steps == due and re.fullmatch(LINE, new) and new != old
        statuses_made = [run.status for run in runs_made]
        return [] if is_so and statuses_made == [0] * 4 else [f"change: {steps} where {due} are due, {runs_made}"]


def unwritten_faults():
    """A write that fails midway leaves the old file, and no new one."""
    with tempfile.TemporaryDirectory() as folder:
        path = pathlib.Path(folder) / "keys"
        put(path, ONE + "\n#" * 5_000)
        before = path.read_text()
        limited = ["sh", "-c", f'ulimit -f 4; trap "" XFSZ; exec {runs.PROGRAM} keygen bank --above keys']
        ended = subprocess.run(limited, capture_output=True, text=True, cwd=folder)
        run = Run(ended.returncode, ended.stdout, ended.stderr)
        wanted = failed("the file can't be written, or not for its owner and group")
        told = [] if statuses.is_so(run, wanted) else [statuses.told("unwritten", run, wanted)]
        return told + [f"unwritten: {it}" for it in left(path, re.escape(before))]


def faults():
    """What is wrong, and how many checks there were."""
    found = [fault for name, row in ROWS.items() for fault in row_faults(name, row)]
    others = [wide_faults, owner_faults, beside_faults, left_faults, link_faults, change_faults, unwritten_faults]
    return found + [fault for it in others for fault in it()], len(ROWS) + len(others)


if __name__ == "__main__":
    wrong, count = faults()
    print("\n".join(wrong) or f"{count} checks passed")
