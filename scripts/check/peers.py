"""Exchanges tokens with libmacaroons, pymacaroons and go-macaroon, both ways, in each form that they have.

They are Debian's packages, as install_peers.sh installs them; a peer that isn't there is told as skipped.
"""
import ctypes
import os
import pathlib
import shutil
import subprocess
import sys

from common import TOP
from common.runs import Case

import request

# Where Debian's packages for Python are seen.
DEBIAN_PYTHON = "/usr/bin/python3"
SECRET = "this is our super secret key; only we should know it"
LOCATION = "http://mybank/"
IDENTIFIER = "we used our secret key"
CAVEATS = ["account = 3735928559", "method = GET"]
ADDED = "ip = 10.0.0.7"


class Pymacaroons:
    """pymacaroons, in Python."""

    name = "pymacaroons"

    def __init__(self):
        import pymacaroons
        from pymacaroons.serializers import BinarySerializer, JsonSerializer

        self.library = pymacaroons
        self.json = JsonSerializer()
        self.binary = BinarySerializer()
        self.forms = ["v1-text", "v2-binary", "v2-text", "v2-json"]

    def mint(self, form):
        version = self.library.MACAROON_V1 if form == "v1-text" else self.library.MACAROON_V2
        token = self.library.Macaroon(location=LOCATION, identifier=IDENTIFIER, key=SECRET, version=version)
        for caveat in CAVEATS:
            token.add_first_party_caveat(caveat)
        if form == "v2-binary":
            return "hex:" + self.binary.serialize_raw(token).hex()
        return token.serialize(self.json) if form == "v2-json" else token.serialize()

    def read(self, form, text):
        if form == "v2-json":
            return self.library.Macaroon.deserialize(text, self.json)
        if form == "v2-binary":
            return self.binary.deserialize_raw(bytes.fromhex(text.removeprefix("hex:")))
        return self.library.Macaroon.deserialize(text)

    def accepts(self, form, text, facts):
        verifier = self.library.Verifier()
        for fact in facts:
            verifier.satisfy_exact(fact)
        try:
            return verifier.verify(self.read(form, text), SECRET)
        except self.library.exceptions.MacaroonException:
            return False


class Libmacaroons:
    """libmacaroons, in C."""

    name = "libmacaroons"

    def __init__(self):
        self.library = ctypes.CDLL("libmacaroons.so.0")
        for function in ("macaroon_create", "macaroon_add_first_party_caveat", "macaroon_deserialize", "macaroon_verifier_create"):
            getattr(self.library, function).restype = ctypes.c_void_p
        self.library.macaroon_serialize_size_hint.restype = ctypes.c_size_t
        self.error = ctypes.byref(ctypes.c_int())
        self.forms = ["v1-text"]

    @staticmethod
    def sized(text):
        return text.encode(), ctypes.c_size_t(len(text.encode()))

    def mint(self, form):
        assert form == "v1-text"
        token = self.library.macaroon_create(*self.sized(LOCATION), *self.sized(SECRET), *self.sized(IDENTIFIER), self.error)
        for caveat in CAVEATS:
            token = self.library.macaroon_add_first_party_caveat(ctypes.c_void_p(token), *self.sized(caveat), self.error)
        size = self.library.macaroon_serialize_size_hint(ctypes.c_void_p(token))
        text = ctypes.create_string_buffer(size)
        if self.library.macaroon_serialize(ctypes.c_void_p(token), text, ctypes.c_size_t(size), self.error) != 0:
            raise SystemExit("libmacaroons doesn't write its token")
        return text.value.decode()

    def accepts(self, form, text, facts):
        assert form == "v1-text"
        token = self.library.macaroon_deserialize(text.encode(), self.error)
        if not token:
            return False
        verifier = ctypes.c_void_p(self.library.macaroon_verifier_create())
        for fact in facts:
            self.library.macaroon_verifier_satisfy_exact(verifier, *self.sized(fact), self.error)
        verdict = self.library.macaroon_verify(verifier, ctypes.c_void_p(token), *self.sized(SECRET), None, ctypes.c_size_t(0), self.error)
        return verdict == 0


class GoMacaroon:
    """go-macaroon, by the program in go_peer."""

    name = "go-macaroon"
    FOLDER = pathlib.Path("/usr/share/gocode")

    def __init__(self):
        if shutil.which("go") is None or not (self.FOLDER / "src" / "gopkg.in" / "macaroon.v2").is_dir():
            raise ImportError("gopkg.in/macaroon.v2")
        self.program = TOP / "bin" / "go_peer"
        self.program.parent.mkdir(exist_ok=True)
        offline = {**os.environ, "GO111MODULE": "off", "GOFLAGS": "", "GOPATH": str(self.FOLDER)}
        subprocess.run(["go", "build", "-o", self.program, "."], cwd=TOP / "scripts" / "check" / "go_peer", env=offline, check=True)
        self.forms = ["v1-text", "v2-binary", "v2-text", "v2-json"]

    def asked(self, *words):
        return subprocess.run([self.program, *words], capture_output=True, text=True, check=True).stdout.rstrip("\n")

    def mint(self, form):
        return self.asked("mint", form, SECRET, LOCATION, IDENTIFIER, *CAVEATS)

    def accepts(self, form, text, facts):
        return self.asked("verify", form, SECRET, text, *facts) == "granted"


def run_by_debian_python():
    """Begins the script again by the Python that sees Debian's packages, where it is another."""
    if sys.executable != DEBIAN_PYTHON and os.access(DEBIAN_PYTHON, os.X_OK):
        os.execv(DEBIAN_PYTHON, [DEBIAN_PYTHON, *sys.argv])


PEERS = [Libmacaroons, Pymacaroons, GoMacaroon]
# What each exchange looks at.
CHECKS = 6


def installed_peers():
    """The peers that are there, and the names of the others."""
    peers, missing = [], []
    for peer in PEERS:
        try:
            peers.append(peer())
        except (OSError, ImportError):
            missing.append(peer.name)
    return peers, missing


def asked(*lines):
    """The pipe's input: the key file, an empty line, the requests."""
    return Case("".join(f"{line}\n" for line in [f"key bank {SECRET.encode().hex()}", "", *lines]))


def cases(peers):
    """A case for each peer and form: a token of ours, then verifies and an attenuate of theirs."""
    made = {}
    for peer in peers:
        for form in peer.forms:
            theirs = peer.mint(form)
            made[f"{peer.name}_{form}"] = asked(
                request.mint(form, "bank", LOCATION, IDENTIFIER, *CAVEATS).hex(),
                request.verify("bank", theirs, 0, *CAVEATS).hex(),
                request.verify("bank", theirs, 0, *CAVEATS[:-1]).hex(),
                request.attenuate(form, theirs, ADDED).hex(),
            )
    return made


def outcome(peer, made):
    """What didn't come out as it should, in words, and how many things were looked at."""
    found = []
    for form in peer.forms:
        lines = made[f"{peer.name}_{form}"].output.splitlines()
        expect(found, len(lines) == 4, f"{peer.name}, {form}: {len(lines)} answers to 4 requests")
        if len(lines) == 4:
            found += exchange_faults(peer, form, *lines)
    return found, CHECKS * len(peer.forms)


def exchange_faults(peer, form, minted, granted, refused, narrowed):
    found = []
    ours, ours_narrowed = (line.partition("token ")[2] for line in (minted, narrowed))
    where = f"{peer.name}, {form}"
    expect(found, granted == "granted", f"{where}: theirs is {granted}")
    expect(found, refused == f"refused 24 {len(CAVEATS) - 1}", f"{where}: theirs without a fact is {refused}")
    expect(found, peer.accepts(form, ours, CAVEATS), f"{where}: they refuse ours")
    expect(found, not peer.accepts(form, ours, CAVEATS[:-1]), f"{where}: they take ours without a fact")
    expect(found, peer.accepts(form, ours_narrowed, [*CAVEATS, ADDED]), f"{where}: they refuse theirs that we narrowed")
    expect(found, not peer.accepts(form, ours_narrowed, CAVEATS), f"{where}: they take what we narrowed without the new fact")
    return found


def expect(found, holds, fault):
    if not holds:
        found.append(fault)
