"""A plain Debian 12 without the toolchain, made by mmdebstrap and booted by systemd-nspawn."""
import contextlib
import os
import pathlib
import shutil
import subprocess
import sys

sys.path.insert(0, str(pathlib.Path(__file__).resolve().parents[1]))
from common import runs
from common.daemon import awaited

COMMANDS = {"mmdebstrap": "mmdebstrap", "systemd-nspawn": "systemd-container", "nsenter": "util-linux"}
# How long anything may take, in seconds, on a machine that is busy with other work.
PATIENCE = 120
PLAIN = ("systemd", "python3", "openssl")
PATH = "PATH=/usr/sbin:/usr/bin:/sbin:/bin"


class CannotBe(Exception):
    """This machine can't make or boot a system; the text says why."""


def last_line(text):
    return (text.strip().splitlines() or ["it says nothing"])[-1]


def debian(folder, *more):
    """A plain Debian 12 in a folder, with more packages."""
    if os.geteuid() != 0:
        raise CannotBe("only root can")
    command = ["mmdebstrap", "--quiet", "--mode=root", "--variant=apt", f"--include={','.join((*PLAIN, *more))}", "bookworm", folder]
    made = subprocess.run(command, capture_output=True, text=True)
    if made.returncode != 0:
        raise CannotBe(f"mmdebstrap: {last_line(made.stderr)}")


def until(what, holds):
    """Waits until it holds; that it takes too long is a fault."""
    if not (found := awaited(holds, PATIENCE, pause=0.1)):
        raise TimeoutError(f"{what} takes more than {PATIENCE} seconds")
    return found


class System:
    """A system that has booted from a folder."""

    def __init__(self, folder, container):
        self.folder, self.container = pathlib.Path(folder), container
        try:
            self.leader = until("a first process", self.first_process)
            until("its start", self.has_started)
        except TimeoutError as why:
            raise CannotBe(f"systemd-nspawn: {why}") from why

    def first_process(self):
        if self.container.poll() is not None:
            raise CannotBe(f"systemd-nspawn: {last_line(self.container.stderr.read())}")
        number = self.container.pid
        return pathlib.Path(f"/proc/{number}/task/{number}/children").read_text().split()[:1]

    def has_started(self):
        return self.run("systemctl", "is-system-running").output.strip() in ("running", "degraded")

    def run(self, *words):
        """How a command ends in the system, and what it prints."""
        command = ["nsenter", "--target", self.leader[0], "--all", "--wdns=/", "env", "-i", PATH, *words]
        pipes = {"stdin": subprocess.DEVNULL, "capture_output": True, "text": True}
        told = subprocess.run(command, timeout=PATIENCE, **pipes)
        return runs.Run(told.returncode, told.stdout, told.stderr)

    def did(self, *words):
        """Whether a command did what it should, and else what it prints."""
        told = self.run(*words)
        return told.status == 0 or f"{told.output}{told.error}"

    def says(self, *words):
        """What a command prints, with its faults."""
        told = self.run(*words)
        return (told.output + told.error).strip()

    def path(self, name):
        """The path by which this process reaches a file of the system."""
        return f"/proc/{self.leader[0]}/root{name}"

    def install(self, *packages):
        for package in packages:
            shutil.copy(package, self.folder / "root")
        command = ["DEBIAN_FRONTEND=noninteractive", "apt-get", "-qq", "install", "-y", "--no-install-recommends"]
        return self.did(*command, *(f"/root/{package.name}" for package in packages))

    def group(self, name):
        """The number of a group of the system."""
        return int(self.says("getent", "group", name).split(":")[2])


@contextlib.contextmanager
def booted(folder, *words):
    """A system that is up as long as the block runs, by more words of systemd-nspawn."""
    command = ["systemd-nspawn", "--quiet", "--register=no", "--keep-unit", "--console=pipe", *words, "--boot", "-D", folder]
    pipes = {"stdin": subprocess.DEVNULL, "stdout": subprocess.DEVNULL, "stderr": subprocess.PIPE, "text": True}
    with subprocess.Popen(command, **pipes) as container:
        try:
            yield System(folder, container)
        finally:
            container.terminate()
            with contextlib.suppress(subprocess.TimeoutExpired):
                container.wait(20)
            container.kill()
