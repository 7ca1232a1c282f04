"""Files that a daemon reads: made beside their place, asked after by `macaroond check`, and moved over."""
from __future__ import annotations

import contextlib
import os
import pathlib
import subprocess
from typing import Iterator, Optional, Tuple

from .errors import NotTaken, ToolAway, ToolFailed

# Behind the name of a file the ending of the new one. Six letters, as those have that a purge of macaroond removes.
BESIDE = ".fleet_"
# How many seconds a check may take.
PATIENCE = 30


class Target:
    """A file that the daemon reads, and the words of `macaroond check` that look at such a one."""

    def __init__(self, path: str, *check: str) -> None:
        self.path, self.words = pathlib.Path(path), check
        self.seen: Optional[Tuple[int, ...]] = None
        self.held = b""

    def content(self) -> Optional[bytes]:
        """What stands there, or None where nothing does; it is read again only where the file was changed."""
        try:
            told = self.path.stat()
            seen = (told.st_ino, told.st_size, told.st_mtime_ns, told.st_ctime_ns)
            if seen != self.seen:
                self.held, self.seen = self.path.read_bytes(), seen
        except OSError:
            self.seen = None
            return None
        return self.held

    def changed_at(self) -> int:
        """When the file came to its place, in seconds; 0 where there is none."""
        with contextlib.suppress(OSError):
            return int(self.path.stat().st_ctime)
        return 0

    def put(self, text: bytes) -> None:
        """Moves a new file over the old one, once a check has found nothing wrong with it."""
        with self.beside(text) as path:
            self.check(path)
            try:
                os.replace(path, self.path)
                self.sync()
            except OSError as fault:
                raise ToolFailed(f"{self.path}: {fault.strerror}") from fault

    @contextlib.contextmanager
    def beside(self, text: bytes) -> Iterator[str]:
        """A file with this text, for the owner of the folder alone; it is gone behind this, unless it was moved."""
        path = str(self.path) + BESIDE
        try:
            with contextlib.suppress(FileNotFoundError):
                os.unlink(path)
            with open(os.open(path, os.O_WRONLY | os.O_CREAT | os.O_EXCL | os.O_NOFOLLOW, 0o600), "wb") as file:
                if os.geteuid() == 0:
                    owner = self.path.parent.stat()
                    os.fchown(file.fileno(), owner.st_uid, owner.st_gid)
                file.write(text)
                file.flush()
                os.fsync(file.fileno())
            yield path
        except OSError as fault:
            raise ToolFailed(f"{path}: {fault.strerror}") from fault
        finally:
            with contextlib.suppress(OSError):
                os.unlink(path)

    def check(self, path: str) -> None:
        """Has `macaroond check` look at a file; what it prints isn't kept, since it may name keys."""
        program = self.words[0]
        try:
            done = subprocess.run([*self.words, path], stdout=subprocess.DEVNULL, stderr=subprocess.PIPE, timeout=PATIENCE)
        except OSError as fault:
            raise ToolAway(f"{program} check: {fault.strerror}") from fault
        except subprocess.TimeoutExpired as fault:
            raise ToolAway(f"{program} check: it takes more than {PATIENCE} seconds") from fault
        if done.returncode != 0:
            told = done.stderr.decode(errors="replace").strip().splitlines()
            why = next((line for line in told if line.startswith("error: ")), f"error: status {done.returncode}")
            raise NotTaken(f"macaroond check refuses it: {why.removeprefix('error: ').replace(path, str(self.path))}")

    def sync(self) -> None:
        folder = os.open(self.path.parent, os.O_RDONLY | os.O_DIRECTORY)
        try:
            os.fsync(folder)
        finally:
            os.close(folder)
