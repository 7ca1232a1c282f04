"""The manual pages: their marks are right, where groff is there to say so, and they name each subcommand and option."""
import argparse
import re
import shutil
import subprocess
import sys

from common import TOP

FLEET = TOP / "clients" / "fleet"
PAGE, OF_FLEET = TOP / "man" / "macaroond.1", FLEET / "macaroond-fleet.1"
SUBCOMMANDS = ["keygen", "check", "mint", "attenuate", "verify", "inspect", "status", "revoke", "pipe", "serve", "listen", "page"]
STATUSES = ["0", "1", "2", "3", "4"]
# An argument of a subcommand in the sources, and those that aren't told by their names.
ARGUMENT = re.compile(r'\b(?:Argument::\w+\(|alloc,)\s*"([a-z-]+)",')
WITHOUT_NAMES = {"--macaroond", "--name", "--token", *(f"--{name}" for name in SUBCOMMANDS)}


def options():
    """The options that macaroond takes, as its sources have them."""
    sources = "".join(path.read_text() for path in TOP.glob("crates/mac_commands/src/**/*.rt"))
    return {f"--{name}" for name in ARGUMENT.findall(sources)} - WITHOUT_NAMES


def faults():
    """What is wrong with the pages, how many names they are asked for, and what wasn't looked at."""
    text = PAGE.read_text().replace("\\-", "-")
    uses = [f"macaroond {name}" for name in SUBCOMMANDS]
    names = uses + sorted(options())
    missing = [name for name in names if name not in text]
    missing += [f"status {status}" for status in STATUSES if text.count(f".TP\n.B {status}\n") != 2]
    skipped = [] if shutil.which("groff") else ["groff isn't there to read its marks"]
    found = [f"man/macaroond.1 lacks {name}" for name in missing]
    of_fleet = fleet_words()
    page = OF_FLEET.read_text().replace("\\-", "-")
    found += [f"{OF_FLEET.name} lacks {word}" for word in of_fleet if word not in page]
    found += [] if skipped else [*warnings(PAGE), *warnings(OF_FLEET)]
    return found, len(names) + len(STATUSES) + len(of_fleet), skipped


def fleet_words():
    """The subcommands and options of macaroond-fleet."""
    sys.path.insert(0, str(FLEET))
    from macaroond_fleet import command

    commands = next(it for it in command.words()._actions if isinstance(it, argparse._SubParsersAction)).choices
    options = {word for parser in commands.values() for it in parser._actions for word in it.option_strings}
    return sorted({*commands, *options, "--config"} - {"-h", "--help"})


def warnings(page):
    run = subprocess.run(["groff", "-ww", "-man", "-Tutf8", page], capture_output=True, text=True)
    return [f"{page.relative_to(TOP)}: {line}" for line in run.stderr.splitlines()]
