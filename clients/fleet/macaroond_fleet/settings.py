"""The settings of a member or an operator: one file, of the form that configparser reads."""
from __future__ import annotations

import configparser
import os
import pathlib
import ssl
import stat
from typing import List, NamedTuple, Optional

from .errors import FleetError
from .form import is_name
from .sealing import Identity, certificates_in
from .store import Store, User

# Where they stand if nothing else is said.
DEFAULT = "/etc/macaroond-fleet/fleet.conf"


class Settings(NamedTuple):
    """What the file says of the store and of who asks."""

    fleet: str
    endpoints: List[str]
    authority: str
    user: str
    password_file: str
    operators: str
    identity: Identity
    member: str
    socket: str
    keys: str
    revoked: str
    program: str
    state: str

    def store(self, patience: float = 5.0) -> Store:
        """The store, not asked yet."""
        context = None
        if any(url.startswith("https:") for url in self.endpoints):
            try:
                context = ssl.create_default_context(cafile=self.authority or None)
            except (OSError, ssl.SSLError) as fault:
                raise FleetError(f"{self.authority or 'the authorities of the system'}: {fault.strerror or fault}") from fault
        user = User(self.user, secret_in(self.password_file)) if self.user else None
        return Store(self.endpoints, context, user, patience)

    def operator_certificates(self) -> List[str]:
        """Whose signature is believed of a head."""
        return certificates_of(self.operators)


def certificates_of(path: str) -> List[str]:
    """The certificates of a file, which has one at least."""
    found = certificates_in(read(path))
    if not found:
        raise FleetError(f"{path}: there is no certificate")
    return found


def read_bytes(path: str) -> bytes:
    try:
        return pathlib.Path(path).read_bytes()
    except OSError as fault:
        raise FleetError(f"{path}: {fault.strerror}") from fault


def read(path: str) -> str:
    try:
        return read_bytes(path).decode()
    except UnicodeDecodeError as fault:
        raise FleetError(f"{path}: it isn't UTF-8") from fault


def require_private(path: str) -> None:
    """A secret's file that others may read is a fault of whoever put it there."""
    try:
        mode = os.stat(path).st_mode
    except OSError as fault:
        raise FleetError(f"{path}: {fault.strerror}") from fault
    if mode & (stat.S_IRWXO | stat.S_IWGRP):
        raise FleetError(f"{path}: it has mode {stat.S_IMODE(mode):o}, by which others may use it; chmod 640 mends that")


def secret_in(path: str) -> str:
    require_private(path)
    return read(path).strip()


class Section:
    """What a settings file says; a path in it that doesn't begin with a slash is beside the file."""

    def __init__(self, path: str) -> None:
        parser = configparser.ConfigParser(interpolation=None)
        try:
            parser.read_string(read(path), source=path)
        except configparser.Error as fault:
            raise FleetError(f"{path}: {' '.join(str(fault).split())}") from fault
        if parser.sections() != ["fleet"]:
            raise FleetError(f"{path}: it has one section, [fleet]")
        self.path, self.held, self.folder = path, parser["fleet"], pathlib.Path(path).resolve().parent
        if unknown := [name for name in self.held if name not in WORDS]:
            raise FleetError(f"{path}: there is no `{unknown[0]} =`; known are {', '.join(WORDS)}")

    def text(self, name: str, default: Optional[str] = None) -> str:
        value = self.held.get(name, default)
        if value is None:
            raise FleetError(f"{self.path}: there is no `{name} =`")
        return value

    def file(self, name: str, default: Optional[str] = None) -> str:
        value = self.text(name, default)
        return str(self.folder / value) if value else ""


def settings_in(path: str) -> Settings:
    """The settings of a file; a word that nobody knows is a fault."""
    section = Section(path)
    fleet, user = section.text("fleet", ""), section.text("user", "")
    if not is_name(fleet):
        raise FleetError(f"{path}: `fleet =` needs a name of letters, digits, dots, underscores or dashes")
    endpoints = section.text("endpoints", "").split()
    if not endpoints:
        raise FleetError(f"{path}: there is no `endpoints =`")
    identity = Identity(section.file("certificate"), section.file("key"))
    require_private(identity.key)
    # Both are opened by openssl alone, which tells less of what is wrong.
    read_bytes(identity.key)
    certificates_of(identity.certificate)
    return Settings(
        fleet,
        endpoints,
        section.file("authority", ""),
        user,
        section.file("password_file", None if user else ""),
        section.file("operators"),
        identity,
        section.text("member", ""),
        section.text("socket", "/run/macaroond/socket"),
        section.text("keys", "/etc/macaroond/fleet/keys"),
        section.text("revoked", "/etc/macaroond/fleet/revoked"),
        section.text("program", "macaroond"),
        section.text("state", default_state()),
    )


# What a settings file may say.
WORDS = (
    *("fleet", "endpoints", "authority", "user", "password_file", "operators", "certificate", "key"),
    *("member", "socket", "keys", "revoked", "program", "state"),
)


def default_state() -> str:
    """The folder in which the last serial is kept: systemd's own, or the user's."""
    if given := os.environ.get("STATE_DIRECTORY"):
        return given
    home = os.environ.get("XDG_STATE_HOME") or os.path.expanduser("~/.local/state")
    return os.path.join(home, "macaroond-fleet")
