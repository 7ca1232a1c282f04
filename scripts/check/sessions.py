#!/usr/bin/env python3
"""The sessions that pages show, run with bin/macaroond: commands, and what each prints.

In a block marked `shell-session` a line that begins with `$ ` is a command, and the lines below it
are what it prints. All such blocks of a page run in one shell, in a folder of their own. Whoever
starts a daemon there waits for it as the page says. In a block marked `python` a session begins
with `>>>`; those of a page are one, beside a daemon that listens at ./socket.
"""
import doctest
import os
import pathlib
import re
import subprocess
import sys
import tempfile

sys.path.insert(0, str(pathlib.Path(__file__).resolve().parents[1]))
from common import TOP
from common.daemon import listening

SHELL = ["README.md", "docs/OPERATING.md", "docs/FORMATS.md", "docs/GATEWAYS.md"]
PYTHON = ["clients/README.md"]
# What a page's shell session finds in its folder.
LENT = ["bin", "examples"]
# How long the sessions of a page may take.
SECONDS = 180


def blocks(page, mark):
    """The page's blocks with this mark behind their first three backquotes."""
    return re.findall(rf"^```{mark}\n(.*?)^```", (TOP / page).read_text(), re.MULTILINE | re.DOTALL)


def steps(page):
    """Each command of the page's shell sessions, with what it is shown to print."""
    text = "".join(blocks(page, "shell-session"))
    parts = re.split(r"^\$ ", text, flags=re.MULTILINE)[1:]
    return [(command, shown) for command, _, shown in (part.partition("\n") for part in parts)]


def script(commands):
    """One shell script of the commands; what each prints goes into a file."""
    lines = ["set -eu", "trap 'kill ${!:-} 2> /dev/null || :' EXIT"]
    for step, command in enumerate(commands):
        lines.append(f"{{ {command}\n}} > printed.{step} 2>&1")
    return "\n".join(lines)


def run(commands, folder):
    """Runs the commands in one shell, in the folder: its status, and what those printed."""
    status = subprocess.run(["sh", "-c", script(commands)], cwd=folder, timeout=SECONDS).returncode
    files = [folder / f"printed.{step}" for step in range(len(commands))]
    return status, [file.read_text() for file in files if file.exists()]


def shell_faults(page):
    """What is printed otherwise than the page shows, and how many commands it has."""
    found = steps(page)
    with tempfile.TemporaryDirectory() as name:
        folder = pathlib.Path(name)
        for lent in LENT:
            (folder / lent).symlink_to(TOP / lent)
        status, printed = run([command for command, _ in found], folder)
    faults = [
        f"`{command}` prints\n{got}where {page} shows\n{shown}"
        for (command, shown), got in zip(found, printed)
        if got != shown
    ]
    return faults + [f"the session of {page} ends with status {status}"] * (status != 0), len(found)


def python_faults(page):
    """What Python prints otherwise than the page shows, and how many statements it has."""
    text = "\n".join(block for block in blocks(page, "python") if block.startswith(">>>"))
    with listening("--workers", "2", stderr=subprocess.DEVNULL) as (socket, _):
        folder = os.path.dirname(socket)
        pathlib.Path(folder, "session").write_text(text)
        environment = {**os.environ, "PYTHONPATH": str(TOP / "clients" / "python")}
        how = {"cwd": folder, "env": environment, "capture_output": True, "text": True}
        run = subprocess.run([sys.executable, "-m", "doctest", "session"], timeout=SECONDS, **how)
    wrong = [] if run.returncode == 0 else [f"{page}: {run.stdout}{run.stderr}"]
    return wrong, len(doctest.DocTestParser().get_examples(text))


def faults():
    """What the pages show otherwise, and how many commands and statements they have."""
    found = [*map(shell_faults, SHELL), *map(python_faults, PYTHON)]
    return [fault for wrong, _ in found for fault in wrong], sum(count for _, count in found)


if __name__ == "__main__":
    told, count = faults()
    print("\n".join(told) or f"sessions: {count} commands print what their pages show")
    sys.exit(1 if told else 0)
