#!/usr/bin/env python3
"""Builds a commit twice, in two folders that share nothing, and compares the bytes of the programs,
the launcher, the packages and the .tar.gz.

    reproduce.py [COMMIT]

Each folder is a clone of this repository at that commit, or at what is checked out; what is changed
and not committed is left out. The toolchain may take over what it has proved of the same texts on
this machine, and compiles anew. It takes two builds' time.
"""
import hashlib
import pathlib
import subprocess
import sys
import tempfile

sys.path.insert(0, str(pathlib.Path(__file__).resolve().parents[1]))
from common import TOP, programs

# What is compared, of each folder.
MADE = ["built/macaroond", "libexec/macaroond/x86-64-*", "dist/*"]


def built(folder, commit):
    """What is made of the commit in a folder: each file's name with the sum of its bytes."""
    subprocess.run(["git", "clone", "--quiet", TOP, folder], check=True)
    subprocess.run(["git", "checkout", "--quiet", commit], cwd=folder, check=True)
    subprocess.run(["make", "--silent", "build"], cwd=folder, check=True)
    subprocess.run(["make", "--silent", "deb", "tarball"], cwd=folder, check=True)
    files = sorted(path for pattern in MADE for path in folder.glob(pattern))
    return {str(path.relative_to(folder)): hashlib.sha256(path.read_bytes()).hexdigest() for path in files}


def main(words):
    programs.stop_without_toolchain()
    named = words[0] if words else "HEAD"
    asked = ["git", "rev-parse", "--verify", named]
    commit = subprocess.run(asked, cwd=TOP, check=True, capture_output=True, text=True).stdout.strip()
    with tempfile.TemporaryDirectory() as one, tempfile.TemporaryDirectory() as other:
        first, second = (built(pathlib.Path(folder) / name, commit) for folder, name in ((one, "one"), (other, "another")))
    for name in sorted({*first, *second}):
        is_same = first.get(name) == second.get(name)
        print(f"{'same  ' if is_same else 'DIFFER'} {first.get(name)} {name}")
    if first != second or not first:
        raise SystemExit(f"two builds of {commit} differ")
    print(f"two builds of {commit} have the same bytes")


if __name__ == "__main__":
    main(sys.argv[1:])
