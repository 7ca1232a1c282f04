"""The launcher, `make install` and `make uninstall`, and the .tar.gz: what each leaves, and that it runs."""
import hashlib
import os
import pathlib
import resource
import shutil
import signal
import subprocess
import tarfile

from build import build, packaging
from common import TOP
from common.processes import NOBODY
from common.rows import in_folders, judged

import request

LAUNCHER = TOP / "packaging" / "launcher.c"
STRICT = ["cc", "-O2", "-Wall", "-Wextra", "-Wpedantic", "-Werror"]
# A program that tells what it was started with; and one that tells how long a core file of it may be.
STAND_IN = '#!/bin/sh\necho "${0##*/} $$ $WORD $*"\n'
CORE_TELLING = '#!/bin/sh\necho "$(ulimit -S -c) $(ulimit -H -c)"\n'
VERSION = f"macaroond {packaging.version()} ("


def launcher(to, *flags):
    to.parent.mkdir(parents=True)
    subprocess.run([*STRICT, *flags, "-o", to, LAUNCHER], check=True)
    return to


def stand_ins(folder, *levels):
    """Programs that the launcher in folder/bin finds."""
    programs = folder / "libexec" / "macaroond"
    shutil.rmtree(programs, ignore_errors=True)
    programs.mkdir(parents=True)
    for level in levels:
        (programs / level).write_text(STAND_IN)
        (programs / level).chmod(0o755)


def told(path, *words, **how):
    """How a run ends, and what it prints, in which `PID` stands for the number of its process."""
    pipes = {"stdout": subprocess.PIPE, "stderr": subprocess.PIPE, "text": True}
    run = subprocess.Popen([path, *words], env={**os.environ, "WORD": "kept"}, **pipes, **how)
    output, error = run.communicate()
    return run.returncode, (output + error).replace(f" {run.pid} ", " PID ")


def launches(folder):
    """Which program the launcher starts, and how."""
    here = launcher(folder / "here" / "bin" / "macaroond")
    older = launcher(folder / "older" / "bin" / "macaroond", "-D__builtin_cpu_supports(level)=0")
    best = build.NEWER if build.runs_newer() else build.OLDER
    for at in (here, older):
        stand_ins(at.parent.parent, build.OLDER, build.NEWER)
    yield "the one for this processor", told(here, "a", "b c"), (0, f"{best} PID kept a b c\n")
    yield "the one for an older processor", told(older, "x"), (0, f"{build.OLDER} PID kept x\n")
    link = folder / "link"
    link.symlink_to(here)
    yield "by a link", told(link, "x"), (0, f"{best} PID kept x\n")
    yield "by a relative path", told("bin/macaroond", cwd=here.parent.parent), (0, f"{best} PID kept \n")
    stand_ins(here.parent.parent, build.OLDER)
    yield "the only one", told(here), (0, f"{build.OLDER} PID kept \n")
    stand_ins(here.parent.parent)
    looked_for = f"{here.parent}/../libexec/macaroond/{build.OLDER}"
    yield "none", told(here), (3, f"macaroond: {looked_for}: No such file or directory\n")


def without_limits():
    """Has core files be as long as they may be here."""
    hard = resource.RLIM_INFINITY if os.geteuid() == 0 else resource.getrlimit(resource.RLIMIT_CORE)[1]
    resource.setrlimit(resource.RLIMIT_CORE, (hard, hard))


def cores(folder):
    """What the launcher starts leaves no core file, whatever limit it was started with."""
    here = launcher(folder / "bin" / "macaroond")
    stand_ins(folder, build.OLDER)
    (folder / "libexec/macaroond" / build.OLDER).write_text(CORE_TELLING)
    yield "the limit of a core file", told(here, preexec_fn=without_limits), (0, "0 0\n")


def made(target, folder, *words):
    """Runs a target of the Makefile over the folder."""
    command = ["make", "--silent", target, f"DESTDIR={folder}", *words]
    subprocess.run(command, cwd=TOP, check=True, capture_output=True)


def files_in(folder):
    return sorted(str(path.relative_to(folder)) for path in folder.rglob("*") if not path.is_dir())


def page_text(folder, prefix):
    return (folder / prefix / "share/man/man1/macaroond.1").read_text().splitlines()[0]


def installations(folder):
    """What is installed runs and tells its paths, and goes again but for its settings."""
    made("install", folder, "PREFIX=/opt/it", "SYSCONFDIR=/opt/etc")
    status, text = told(folder / "opt/it/bin/macaroond", "--version")
    yield "what is installed runs", (status, text[: len(VERSION)]), (0, VERSION)
    unit = (folder / "opt/it/lib/systemd/system/macaroond.service").read_text()
    paths = "/opt/it/bin/macaroond listen" in unit, "/opt/etc/macaroond/keys" in unit, "/usr/bin" in unit
    yield "the unit's paths", paths, (True, True, False)
    yield "what the unit may start", "ExecPaths=/opt/it/bin/macaroond /opt/it/libexec/macaroond " in unit, True
    yield "and nothing else", "\nNoExecPaths=/\n" in unit, True
    yield "at which ports it may listen", "\nSocketBindDeny=any\n" in unit, True
    modes = {oct(path.stat().st_mode)[-3:] for path in (folder / "opt/it/libexec/macaroond").iterdir()}
    yield "who may read the programs", modes, {"711"}
    page = page_text(folder, "opt/it")
    yield "the page's version", (f'"macaroond {packaging.version()}"' in page, "@" in page), (True, False)
    settings = folder / "opt/etc/default/macaroond"
    settings.write_text("MODE=600\n")
    made("install", folder, "PREFIX=/opt/it", "SYSCONFDIR=/opt/etc")
    yield "settings that were changed", settings.read_text(), "MODE=600\n"
    made("uninstall", folder, "PREFIX=/opt/it", "SYSCONFDIR=/opt/etc")
    yield "what is left", files_in(folder), ["opt/etc/default/macaroond"]


def neighbours(folder):
    """What another process of a daemon's user gets of its memory, where that user isn't the owner of the programs; and
    what a fault that ends the daemon leaves."""
    if os.geteuid() != 0:
        return
    folder.chmod(0o755)
    made("install", folder, "PREFIX=/opt/it", "SYSCONFDIR=/opt/etc")
    mine = folder / "mine"
    mine.mkdir()
    (mine / "keys").write_text(request.key("bank", "a secret") + "\n")
    for path in (mine / "keys", mine):
        path.chmod(0o600 if path != mine else 0o700)
        os.chown(path, NOBODY, NOBODY)
    who = {"user": NOBODY, "group": NOBODY, "extra_groups": []}
    command = [folder / "opt/it/bin/macaroond", "listen", "--socket", "socket", "--keys", "keys"]
    pipes = {"stdout": subprocess.PIPE, "stderr": subprocess.DEVNULL}
    with subprocess.Popen(command, cwd=mine, preexec_fn=without_limits, **pipes, **who) as daemon:
        yield "a daemon of another user", daemon.stdout.readline()[:9], b"listening"
        for name in ("mem", "environ", "maps"):
            found = subprocess.run(["dd", f"if=/proc/{daemon.pid}/{name}", "count=0"], capture_output=True, **who)
            yield f"its neighbour opens {name}", found.returncode, 1
        daemon.send_signal(signal.SIGSEGV)
        daemon.wait()
    yield "what a fault leaves", [name for name in files_in(mine) if "core" in name], []


def sum_of(path):
    return hashlib.sha256(path.read_bytes()).hexdigest()


def tarballs(folder):
    """The .tar.gz has the same bytes when it is made again, its sums are right, and it runs where it is unpacked."""
    paths = []
    for name in ("one", "another"):
        (folder / name).mkdir()
        paths.append(packaging.tarball(folder / name))
    yield "the same .tar.gz again", sum_of(paths[1]), sum_of(paths[0])
    checked = subprocess.run(["sha256sum", "-c", "--quiet", paths[0].name + ".sha256"], cwd=folder / "one", capture_output=True)
    yield "the sum beside it", (checked.returncode, checked.stdout), (0, b"")
    with tarfile.open(paths[0]) as archive:
        archive.extractall(folder)
    unpacked = folder / f"macaroond-{packaging.packed_version()}"
    modes = {oct(path.stat().st_mode)[-3:] for path in (unpacked / "libexec/macaroond").iterdir()}
    yield "who may read the programs of a .tar.gz", modes, {"711"}
    checked = subprocess.run(["sha256sum", "-c", "--quiet", "SHA256SUMS"], cwd=unpacked, capture_output=True)
    yield "the sums in it", (checked.returncode, checked.stdout), (0, b"")
    status, text = told(unpacked / "bin/macaroond", "--version")
    yield "it runs where it is unpacked", (status, text[: len(VERSION)]), (0, VERSION)


def faults():
    """What went otherwise than it must, and how many things were looked at."""
    seen = in_folders(launches, cores, installations, neighbours, tarballs, kind=pathlib.Path)
    return *judged(seen), ["a daemon's neighbours: only root can"] * (os.geteuid() != 0)
