#!/usr/bin/env python3
"""Makes what is given to users of the programs that `make build` left, in dist/: the Debian packages,
of the daemon, of both clients and of macaroond-fleet, or the .tar.gz.

    packaging.py deb
    packaging.py tarball

Both have the same bytes wherever and whenever they are made: their time is SOURCE_DATE_EPOCH, or
that of the head of debian/changelog. Neither needs root or the toolchain. As long as CHANGELOG.md has
something that isn't released, they are of a snapshot: its version sorts behind the last release's and
before the next one's, and has the commit's time and first digits. Its time is the commit's.
"""
import calendar
import email.utils
import gzip
import hashlib
import os
import pathlib
import re
import shutil
import subprocess
import sys
import tarfile
import tempfile
import time

sys.path.insert(0, str(pathlib.Path(__file__).resolve().parents[1]))
from build import build
from build.build import version
from common import TOP

DIST = TOP / "dist"
# What a package is made of.
PARTS = ["Makefile", "VERSION", "README.md", "CHANGELOG.md", "SECURITY.md"]
FOLDERS = ["debian", "packaging", "man", "docs", "examples", "clients", "libexec"]
# What stands in CHANGELOG.md above all that a user notices of the next release.
UNRELEASED = "\n## Not yet released\n"
# The head of debian/changelog of a snapshot.
SNAPSHOT = """macaroond ({version}-1) unstable; urgency=medium

  * What is not yet released; see /usr/share/doc/macaroond/changelog.gz.

 -- Nivoludane maintainers <maintainers@users.noreply.nivoludane.example>  {date}

"""
# Where a .tar.gz that is unpacked for all users lies, and what its unit names.
PREFIX = "/usr/local"


def is_released():
    return UNRELEASED not in (TOP / "CHANGELOG.md").read_text()


def packed_version():
    """The version of what is made, without Debian's own number."""
    return version() if is_released() else snapshot()


def snapshot():
    """The version of what is not yet released, by its commit."""
    seconds, digits = commit()
    return f"{version()}+git{time.strftime('%Y%m%d%H%M%S', time.gmtime(seconds))}.{digits}"


def commit():
    """The time of the commit that is checked out and its first digits, or what stands where a file of a package differs
    from it; where there is no repository the time is that of the last release."""
    digits = build.answer("git", "log", "-1", "--format=%ct %h", "--abbrev=7").split()
    if not digits:
        return released(), build.NO_COMMIT
    changed = build.answer("git", "status", "--porcelain", "--", "crates", "crates.txt", *PARTS, *FOLDERS)
    return int(digits[0]), build.NO_COMMIT if changed else digits[1]


def released():
    """The time at the head of debian/changelog, in seconds since 1970."""
    text = (TOP / "debian" / "changelog").read_text()
    date = re.search(r"^ -- .*>  (.*)$", text, re.MULTILINE)[1]
    return calendar.timegm(email.utils.parsedate_to_datetime(date).utctimetuple())


def moment():
    """The time that stands in what is made, in seconds since 1970."""
    if given := os.environ.get("SOURCE_DATE_EPOCH"):
        return int(given)
    return released() if is_released() else commit()[0]


def stop_unless_built():
    if not (TOP / "libexec" / "macaroond" / "x86-64-v2").exists() or not (TOP / "built" / "macaroond").exists():
        raise SystemExit("macaroond isn't built: run make build first, which proves and builds it")


def lay_out(folder):
    """A folder in it with all that the package is made of."""
    laid = pathlib.Path(folder) / f"macaroond-{packed_version()}"
    laid.mkdir()
    for name in PARTS:
        shutil.copy(TOP / name, laid / name)
    for name in FOLDERS:
        shutil.copytree(TOP / name, laid / name, ignore=shutil.ignore_patterns("__pycache__", "built"))
    if not is_released():
        head_changelog(laid, packed_version())
    return laid


def head_changelog(laid, its_version):
    """Has the packages that are made in a folder be of this version."""
    path = laid / "debian" / "changelog"
    head = SNAPSHOT.format(version=its_version, date=email.utils.formatdate(moment()))
    path.write_text(head + path.read_text())


def packages(laid, words=()):
    """The packages that are made in a folder that was laid out, the daemon's first; the words come before the command."""
    command = [*words, "dpkg-buildpackage", "-b", "-us", "-uc"]
    environment = {**os.environ, "SOURCE_DATE_EPOCH": str(moment()), "LC_ALL": "C.UTF-8"}
    run = subprocess.run(command, cwd=laid, env=environment, umask=0o022, text=True,
                         stdout=subprocess.PIPE, stderr=subprocess.STDOUT)
    if run.returncode != 0:
        raise SystemExit(f"{run.stdout}\ndpkg-buildpackage ended with status {run.returncode}")
    return sorted(laid.parent.glob("*.deb"), key=lambda path: (not path.name.startswith("macaroond_"), path.name))


def installed(folder):
    """What `make install` puts under PREFIX, in a folder of the name that the .tar.gz has."""
    command = ["make", "--silent", "install", f"DESTDIR={folder}", f"PREFIX={PREFIX}"]
    subprocess.run(command, cwd=TOP, check=True, umask=0o022)
    named = pathlib.Path(folder) / f"macaroond-{packed_version()}"
    (pathlib.Path(folder) / PREFIX.lstrip("/")).rename(named)
    shutil.copy(TOP / "packaging" / "macaroond.default", named / "share" / "doc" / "macaroond")
    files = sorted(path for path in named.rglob("*") if path.is_file())
    sums = [f"{hashlib.sha256(path.read_bytes()).hexdigest()}  {path.relative_to(named)}\n" for path in files]
    (named / "SHA256SUMS").write_text("".join(sums))
    return named


def tarball(to):
    """Packs what is installed, each entry with the same owner and time; and its sum beside it."""
    path = pathlib.Path(to) / f"macaroond-{packed_version()}-linux-x86_64.tar.gz"
    with tempfile.TemporaryDirectory() as folder, gzip.GzipFile(path, "wb", mtime=moment()) as packed:
        named = installed(folder)
        with tarfile.open(fileobj=packed, mode="w", format=tarfile.USTAR_FORMAT) as archive:
            for entry in sorted([named, *named.rglob("*")]):
                archive.add(entry, entry.relative_to(folder), recursive=False, filter=plain)
    path.with_name(path.name + ".sha256").write_text(f"{hashlib.sha256(path.read_bytes()).hexdigest()}  {path.name}\n")
    return path


def plain(entry):
    """The entry without what differs from one making to the next."""
    entry.uid = entry.gid = 0
    entry.uname = entry.gname = "root"
    entry.mtime = moment()
    if entry.isdir() or entry.mode & 0o100 == 0:
        entry.mode = 0o755 if entry.isdir() else 0o644
    return entry


def make(what):
    """The paths of the packages or of the .tar.gz, made anew in dist/."""
    stop_unless_built()
    DIST.mkdir(exist_ok=True)
    if what == "tarball":
        return [tarball(DIST)]
    with tempfile.TemporaryDirectory() as folder:
        return [pathlib.Path(shutil.copy(path, DIST)) for path in packages(lay_out(folder))]


if __name__ == "__main__":
    if sys.argv[1:] not in (["deb"], ["tarball"]):
        sys.exit(__doc__)
    print(*(path.relative_to(TOP) for path in make(sys.argv[1])), sep="\n")
