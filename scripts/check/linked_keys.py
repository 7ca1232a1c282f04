"""Runs of `macaroond listen` whose key file stands behind links, as Kubernetes mounts a secret.

The file is a link, keys -> ..data/keys, and ..data is one too, to a folder with a time in its name.
A new secret is a new folder, and a new link ..data that is moved over the old one: neither the file
nor the link that `--keys` names changes. The words of the log and the wait are those of
changing_keys.py.
"""
import contextlib
import os
import pathlib
import shutil
import tempfile
import time

from check.changing_keys import AWAITED, BAD_SIGNATURE, GRANTED, UP_WITHIN, Probe, lines, verify
from common.daemon import Daemon
from common.rows import judged, of_each

# How many times a secret is replaced without a pause.
SWAPS = 200
OLD, NEW = lines(bank=["old"]), lines(bank=["new"])
IS_OLD, IS_NEW = verify("bank", "old"), verify("bank", "new")


class Mount:
    """A secret that is mounted in a folder, as the kubelet writes it."""

    def __init__(self, folder, text):
        self.folder, self.number = pathlib.Path(folder), 0
        self.folder.mkdir()
        self.replace(text)
        self.keys = self.folder / "keys"
        self.keys.symlink_to("..data/keys")

    def replace(self, text, times=None):
        """Puts a new secret in the place of the old one; the file's times may be told."""
        last = self.folder / "..data"
        before = self.folder / os.readlink(last) if last.is_symlink() else None
        self.number += 1
        made = self.folder / f"..2026_11_26_{self.number:06}"
        made.mkdir()
        (made / "keys").write_text(text)
        (made / "keys").chmod(0o600)
        if times:
            os.utime(made / "keys", ns=times)
        self.lead_to(made.name)
        if before is not None:
            shutil.rmtree(before, ignore_errors=True)

    def lead_to(self, name):
        """Moves a link to this folder over ..data."""
        (self.folder / "..data_tmp").symlink_to(name)
        (self.folder / "..data_tmp").rename(self.folder / "..data")


@contextlib.contextmanager
def listening(text):
    """A daemon whose key file is the link of a mount, and the mount."""
    with tempfile.TemporaryDirectory() as folder:
        mount = Mount(folder + "/secret", text)
        daemon = Daemon(folder, None, "--workers", "2", keys=mount.keys)
        try:
            daemon.start().mount = mount
            yield daemon
        finally:
            daemon.close()


def replaced():
    """A new secret, then one whose file has the size and the times of the one before."""
    with listening(OLD) as listener:
        probe = Probe(listener.path)
        yield "nothing is warned of", listener.errors.read_text().count("warning"), 0
        yield "before", probe.ask(IS_OLD), GRANTED
        listener.mount.replace(NEW)
        yield "up in time, on the same connection", probe.await_reply(IS_OLD, BAD_SIGNATURE, UP_WITHIN), True
        yield "the new key", Probe(listener.path).ask(IS_NEW), GRANTED
        yield "told once", listener.await_told(1), ["names: 1"]
        held = listener.mount.keys.stat()
        listener.mount.replace(OLD, (held.st_atime_ns, held.st_mtime_ns))
        yield "the same size and times", listener.mount.keys.stat().st_size, held.st_size
        yield "up in time, too", probe.await_reply(IS_OLD, GRANTED, UP_WITHIN), True
        time.sleep(AWAITED)
        yield "told once more", listener.told_of_keys(), ["names: 1"] * 2


def dangling():
    """..data leads nowhere for a while, and then isn't there: the keys stay, and it is told."""
    with listening(OLD) as listener:
        probe = Probe(listener.path)
        listener.mount.lead_to("..2026_nowhere")
        yield "leads nowhere: told", listener.await_told(1), ["there is no key file"]
        yield "leads nowhere: the keys stay", probe.ask(IS_OLD), GRANTED
        yield "leads nowhere: on a new connection", Probe(listener.path).ask(IS_OLD), GRANTED
        listener.mount.replace(NEW)
        yield "leads to a new secret", probe.await_reply(IS_NEW, GRANTED, UP_WITHIN), True
        yield "which is told", listener.await_told(2)[1:], ["names: 1"]
        (listener.mount.folder / "..data").unlink()
        yield "isn't there: told", listener.await_told(3)[2:], ["there is no key file"]
        yield "isn't there: the keys stay", probe.ask(IS_NEW), GRANTED
        listener.mount.replace(OLD)
        yield "is there again", probe.await_reply(IS_OLD, GRANTED, UP_WITHIN), True
        time.sleep(AWAITED)
        yield "each is told once", listener.told_of_keys(), ["there is no key file", "names: 1"] * 2


def cut_secret():
    """A secret with a fault, and one without a key, aren't taken."""
    with listening(OLD) as listener:
        probe = Probe(listener.path)
        for count, text in enumerate(("key bank\n", "# none\n"), 1):
            listener.mount.replace(text)
            yield "a faulty secret is told", len(listener.await_told(count)), count
            yield "a faulty secret: the keys stay", probe.ask(IS_OLD), GRANTED
        listener.mount.replace(NEW)
        yield "a good one behind them", probe.await_reply(IS_NEW, GRANTED, UP_WITHIN), True


def swapped():
    """Secrets come without a pause: each reply is right under one of two, and the last stays."""
    with listening(OLD) as listener:
        probe, replies = Probe(listener.path), set()
        for number in range(SWAPS):
            listener.mount.replace(OLD if number % 2 else NEW)
            replies.add(probe.ask(IS_OLD))
        yield "swapped: no other reply", replies <= {GRANTED, BAD_SIGNATURE}, True
        listener.mount.replace(NEW)
        yield "swapped: the last is up", probe.await_reply(IS_NEW, GRANTED, UP_WITHIN), True
        yield "swapped: nothing else is told", set(listener.await_told(1)) <= {"names: 1"}, True


def faults():
    """What went otherwise than it must, and how many checks there were."""
    return judged(of_each(replaced, dangling, cut_secret, swapped))
