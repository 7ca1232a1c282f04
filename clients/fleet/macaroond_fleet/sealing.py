"""Signing, and encrypting for many, by `openssl cms` (RFC 5652, RFC 5083): nothing of it is our own.

A certificate is believed because it stands in a file or a signed text that is believed: no authority
is asked, and no date in it is looked at. What is decrypted goes through pipes, and to no file.
"""
from __future__ import annotations

import functools
import hashlib
import pathlib
import re
import subprocess
import tempfile
from typing import List, NamedTuple, Sequence

from .errors import NotTaken, ToolAway, ToolFailed

# How many seconds a run may take.
PATIENCE = 60
CERTIFICATE = re.compile(r"-----BEGIN CERTIFICATE-----[A-Za-z0-9+/=\s]+-----END CERTIFICATE-----\n?")
# Both ends of a key agreement are hashed by SHA-256, where openssl would take SHA-1.
AGREEMENT = ["-keyopt", "ecdh_kdf_md:sha256"]
PADDING = ["-keyopt", "rsa_padding_mode:oaep", "-keyopt", "rsa_oaep_md:sha256"]
FORM = ["-binary", "-inform", "DER", "-outform", "DER"]


class Identity(NamedTuple):
    """A certificate and its private key, by their files."""

    certificate: str
    key: str


def digest_of(data: bytes) -> str:
    return hashlib.sha256(data).hexdigest()


def certificates_in(text: str) -> List[str]:
    """The certificates of a text, each in PEM."""
    return [found.strip() + "\n" for found in CERTIFICATE.findall(text)]


def run(words: Sequence[str], data: bytes) -> bytes:
    """What openssl prints, which is nothing where it fails: what it printed before wasn't checked then."""
    try:
        done = subprocess.run(["openssl", *words], input=data, capture_output=True, timeout=PATIENCE)
    except OSError as fault:
        raise ToolAway(f"openssl: {fault.strerror}") from fault
    except subprocess.TimeoutExpired as fault:
        raise ToolAway(f"openssl {words[0]}: it takes more than {PATIENCE} seconds") from fault
    if done.returncode != 0:
        raise ToolFailed(f"openssl {words[0]}: {reason(done.stderr.decode(errors='replace')) or f'status {done.returncode}'}")
    return done.stdout


def reason(told: str) -> str:
    """What openssl gives last as its reason, without the numbers and places around it; or its first line."""
    return (re.findall(r"error:[^:]*:[^:]*:[^:]*:([^:]*)", told) or told.splitlines() or [""])[-1 if "error:" in told else 0].strip()


def sign(data: bytes, who: Identity) -> bytes:
    """The data with a signature of its own."""
    return run(["cms", "-sign", *FORM, "-nodetach", "-nocerts", "-md", "sha256", "-signer", who.certificate, "-inkey", who.key], data)


def signed(message: bytes, certificates: Sequence[str]) -> bytes:
    """What somebody signed whose certificate is one of these."""
    with tempfile.NamedTemporaryFile("w", suffix=".pem") as file:
        file.write("".join(certificates))
        file.flush()
        try:
            return run(["cms", "-verify", *FORM, "-nointern", "-noverify", "-certfile", file.name], message)
        except ToolFailed as fault:
            raise NotTaken(f"it isn't signed by whom it has to be ({fault})") from fault


def encrypt(data: bytes, certificates: Sequence[str]) -> bytes:
    """The data by AES-256-GCM, under a key that each of these certificates' owners can find."""
    with tempfile.TemporaryDirectory() as folder:
        words: List[str] = []
        for number, text in enumerate(certificates):
            path = pathlib.Path(folder, f"{number}.pem")
            path.write_text(text)
            words += ["-recip", str(path), *(AGREEMENT if is_elliptic(text) else PADDING)]
        return run(["cms", "-encrypt", *FORM, "-aes-256-gcm", *words], data)


def decrypt(sealed: bytes, who: Identity) -> bytes:
    """What was encrypted for this owner of a certificate."""
    return run(["cms", "-decrypt", *FORM, "-recip", who.certificate, "-inkey", who.key], sealed)


@functools.lru_cache(maxsize=None)
def is_elliptic(certificate: str) -> bool:
    """Whether a certificate's key is of an elliptic curve, and not of RSA. Another one can't be encrypted for."""
    told = run(["x509", "-noout", "-text"], certificate.encode()).decode(errors="replace")
    if "id-ecPublicKey" in told:
        return True
    if "rsaEncryption" in told:
        return False
    raise ToolFailed("a certificate's key is neither of an elliptic curve nor of RSA")
