"""The version stands in VERSION; whatever has to repeat it says the same."""
import re
import subprocess

from common import TOP, runs

# Each place, and what surrounds the version there.
PLACES = {
    "crates/mac_commands/src/commands.rt": r'^pub const VERSION: &str = "(.*) \(uncommitted\)";$',
    "debian/changelog": r"\Amacaroond \((.*)-\d+\) ",
    "CHANGELOG.md": r"^## (\S+) \(\d{4}-\d{2}-\d{2}\)$",
}
# What the program says of itself.
TOLD = r"macaroond (\S+) \((?:uncommitted|[0-9a-f]{11})\)\n"


def said(text, pattern):
    """The version that stands first in a text."""
    found = re.search(pattern, text, re.MULTILINE)
    return found[1] if found else "no version"


def faults():
    """Which places tell another version, and how many there are; the program's too, once it is built."""
    due = (TOP / "VERSION").read_text().strip()
    told = {name: said((TOP / name).read_text(), pattern) for name, pattern in PLACES.items()}
    if runs.is_built():
        run = subprocess.run([runs.PROGRAM, "--version"], capture_output=True, text=True)
        told["macaroond --version"] = said(run.stdout, TOLD)
    return [f"{name} tells {it} where VERSION has {due}" for name, it in told.items() if it != due], len(told)
