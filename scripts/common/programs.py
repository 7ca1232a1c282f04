"""The programs in bin/, which programs.txt lists."""
import os
import shutil
import sys

from common import TOP

LIST = TOP / "scripts" / "programs.txt"
# What its launcher starts, at least.
PROVED = TOP / "libexec" / "macaroond" / "x86-64-v2"


def path_of(name):
    """Where the program is once it is built; of macaroond, its launcher."""
    return TOP / ("built" if name == "macaroond" else "bin") / name


def makers():
    """By what `make` builds each program."""
    lines = (line.split() for line in LIST.read_text().splitlines() if not line.startswith("#"))
    return {name: target for target, name, *_ in lines}


def is_there(name):
    """Whether this program was built, and what it starts."""
    return os.access(path_of(name), os.X_OK) and (name != "macaroond" or os.access(PROVED, os.X_OK))


def stop_without_toolchain():
    """Ends the script where the toolchain isn't there."""
    if shutil.which("rt") is None:
        sys.exit("the toolchain's command `rt` isn't on the path (README, *What is trusted*)")


def stop_unless_built(*names):
    """Ends the script where one of these programs isn't there."""
    lacking = [name for name in names if not is_there(name)]
    if lacking:
        targets = " ".join(dict.fromkeys(makers()[name] for name in lacking))
        named = " and no ".join(f"bin/{name}" for name in lacking)
        sys.exit(f"no {named}: run `make {targets}` first, which proves and builds what is missing")
