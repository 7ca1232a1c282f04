"""What linters say of the scripts, the clients and the programs in Go: pyflakes, ShellCheck, gofmt and `go vet`.

All files that git tracks are looked at, but for the sources of earlier releases. A line that imports a
module for what it does says so by `noqa: F401`.
"""
import pathlib
import re
import shutil
import subprocess
import tempfile

from check import clients
from common import TOP

# What earlier releases had stays as it was.
RELEASED = "scripts/check/released/"
SHELL = re.compile(r"#!\s*(/usr)?/bin/(env )?(ba|da)?sh\b")


def tracked():
    """The files that git tracks, or, in a tree without it, all that aren't built."""
    listed = subprocess.run(["git", "ls-files", "-z"], cwd=TOP, capture_output=True, text=True)
    names = listed.stdout.split("\0") if listed.returncode == 0 else map(str, walked())
    return [TOP / name for name in sorted(names) if name and not name.startswith(RELEASED) and (TOP / name).is_file()]


def walked():
    built = {"out", "built", "libexec", "dist", ".git", "bin"}
    paths = (path.relative_to(TOP) for path in TOP.rglob("*"))
    return (path for path in paths if not built & set(path.parts))


def named(ending):
    return [path for path in tracked() if path.suffix == ending]


def shell_scripts():
    """Those whose first line names a shell, and those that others read in."""
    for path in tracked():
        with open(path, "rb") as file:
            if path.suffix == ".sh" or SHELL.match(file.readline(200).decode(errors="replace")):
                yield path


def said(command):
    """What a linter prints where it ends badly, line by line."""
    run = clients.run(command, cwd=TOP)
    return run.stdout.splitlines() if run.returncode else []


def is_told(line):
    """Whether a line of pyflakes stands for a fault: an import for its effect says `noqa: F401`."""
    place = re.match(r"(.+?):(\d+):", line)
    if place is None or "imported but unused" not in line:
        return True
    return "noqa: F401" not in pathlib.Path(place[1]).read_text().splitlines()[int(place[2]) - 1]


def missing(name):
    return [], 0, [f"there is no command `{name}` (scripts/install_peers.sh)"]


def python_faults():
    """What pyflakes says, how many files it read, and what was left out."""
    if shutil.which("pyflakes3") is None:
        return missing("pyflakes3")
    files = named(".py")
    return [line for line in said(["pyflakes3", *files]) if is_told(line)], len(files), []


def shell_faults():
    """The same of ShellCheck."""
    if shutil.which("shellcheck") is None:
        return missing("shellcheck")
    files = list(shell_scripts())
    return said(["shellcheck", "--format=gcc", "--exclude=SC1091", *files]), len(files), []


def programs_in(folder):
    """The words by which Go finds each program of a folder: it is one, or its runners each are, with what they share."""
    return [[path.name, "rows.go"] for path in sorted(folder.glob("*_runner.go"))] or [["."]]


def go_faults():
    """The same of gofmt for all files in Go, and of `go vet` for all programs; the client's own part vets that."""
    if not clients.has_go():
        return [], 0, [clients.NO_GO]
    files = named(".go")
    found = [f"gofmt would change {name}" for name in clients.run(["gofmt", "-l", *files]).stdout.splitlines()]
    folders = sorted({path.parent for path in files} - {clients.GO})
    skipped = [] if clients.has_go_macaroon() else ["go-macaroon isn't installed (scripts/install_peers.sh)"]
    with tempfile.TemporaryDirectory() as room:
        older = clients.go_surroundings(room)
        for folder in [] if skipped else folders:
            how = clients.GO_ALONE if (folder / "go.mod").exists() else older
            runs = [clients.run(["go", "vet", *words], cwd=folder, env=how) for words in programs_in(folder)]
            found += [f"{folder.relative_to(TOP)}: {run.stdout}" for run in runs if run.returncode != 0]
    return found, len(files) + len(folders) * (not skipped), skipped
