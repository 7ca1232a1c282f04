"""The Debian packages: made twice, as a user that isn't root, with the same bytes; what lintian says of
them, how much of the system the unit leaves to the daemon, what a purge leaves of keys, what an upgrade
keeps, and that both clients are used from where their packages put them."""
import contextlib
import hashlib
import os
import pathlib
import re
import shutil
import subprocess
import tempfile

from build import packaging
from common import TOP
from common.processes import NOBODY

UNITS = "lib/systemd/system"
PYTHON, GO = "usr/lib/python3/dist-packages", "usr/share/gocode/src/macaroond"
NAMES = ["macaroond", "golang-macaroond-dev", "macaroond-fleet", "python3-macaroond"]
# The most that `systemd-analyze security` may find, in tenths; and of an agent, which asks a store over the network.
EXPOSURE, OF_AGENT = 10, 12
COMMANDS = {
    "dpkg-buildpackage": "package dpkg-dev",
    "dh": "package debhelper",
    "lintian": "package lintian",
    "systemd-analyze": "package systemd",
    "cc": "a C compiler",
}


def missing():
    """What isn't there of what this needs."""
    return [f"`{name}` isn't there ({of})" for name, of in COMMANDS.items() if shutil.which(name) is None]


def as_nobody():
    """The words that have a command run as somebody who isn't root."""
    return ["setpriv", f"--reuid={NOBODY}", f"--regid={NOBODY}", "--clear-groups"] if os.geteuid() == 0 else []


def give_away(folder):
    """The folder is nobody's from now on."""
    if os.geteuid() == 0:
        subprocess.run(["chown", "-R", f"{NOBODY}:{NOBODY}", folder], check=True)


def packages_in(folder):
    """The packages that are made in the folder, as somebody who isn't root; the daemon's first."""
    laid = packaging.lay_out(folder)
    give_away(folder)
    return packaging.packages(laid, as_nobody())


def field(path, name):
    """A field of a package."""
    run = subprocess.run(["dpkg-deb", "-f", path, name], capture_output=True, text=True, check=True)
    return run.stdout.strip()


def sorts(one, how, another):
    """Whether Debian sorts two versions so."""
    return subprocess.run(["dpkg", "--compare-versions", one, how, another]).returncode == 0


def lint(path):
    """What lintian says of what is beside the package. Bytes of machine code may look like a word."""
    changes = next(path.parent.glob("*.changes"))
    command = [*as_nobody(), "lintian", "--display-info", "--suppress-tags", "spelling-error-in-binary", changes.name]
    run = subprocess.run(command, cwd=path.parent, capture_output=True, text=True)
    return (run.stdout + run.stderr).splitlines()


def unpacked(path, folder):
    subprocess.run(["dpkg-deb", "-x", path, folder], check=True)
    return pathlib.Path(folder)


def exposure(unit):
    """How exposed the unit is, in tenths: 0 to 100."""
    command = ["systemd-analyze", "security", "--offline=true", "--no-pager", unit]
    run = subprocess.run(command, capture_output=True, text=True)
    found = re.search(r"Overall exposure level for \S+: (\d+)\.(\d)", run.stdout)
    return int(found[1] + found[2]) if found else run.stderr


def verified(unit):
    """What `systemd-analyze verify` says of the words in a unit, but for what isn't installed here."""
    run = subprocess.run(["systemd-analyze", "verify", "--man=no", unit], capture_output=True, text=True)
    aside = ("is not executable", "Unit macaroond.service not found", "RequiresMountsFor")
    return [line for line in run.stderr.splitlines() if unit.name in line and not any(it in line for it in aside)]


def scripts_of(path):
    """The names of the package's maintainer scripts that no POSIX shell reads."""
    with tempfile.TemporaryDirectory() as folder:
        subprocess.run(["dpkg-deb", "-e", path, folder], check=True)
        names = [name for name in ("preinst", "postinst", "prerm", "postrm") if (pathlib.Path(folder) / name).exists()]
        return [name for name in names if subprocess.run(["sh", "-n", pathlib.Path(folder) / name]).returncode]


def stopping(path):
    """What the package's maintainer scripts stop at an upgrade, for which nothing starts it again."""
    with tempfile.TemporaryDirectory() as folder:
        subprocess.run(["dpkg-deb", "-e", path, folder], check=True)
        before = pathlib.Path(folder, "preinst")
        return re.findall(r"deb-systemd-invoke stop (.*?) >", before.read_text()) if before.exists() else []


def ran(script, root, *words, package="macaroond"):
    """What is left in a folder once a maintainer script has run over it, in place of the system's own root."""
    text = (TOP / "debian" / f"{package}.{script}").read_text().replace("#DEBHELPER#", "")
    for name in ("/etc/", "/run/", "/var/"):
        text = text.replace(f" {name}", f" {root}{name}").replace(f"={name}", f"={root}{name}")
    run = subprocess.run(["sh", "-c", text, script, *words], capture_output=True, text=True)
    files = {str(path.relative_to(root)): path.read_text() for path in root.rglob("*") if path.is_file()}
    return run.returncode, files, run.stderr


def purges(folder):
    """A purge leaves no key file of ours, however a run was cut short; what an administrator keeps is his."""
    keys = folder / "etc/macaroond"
    keys.mkdir(parents=True)
    for name in ("keys", "keys.new", "keys.keygen", "keys.Ab12Cd", "keys.of-mine"):
        (keys / name).write_text("key bank 00\n")
    status, files, _ = ran("postrm", folder, "purge")
    yield "what a purge leaves", (status, list(files)), (0, ["etc/macaroond/keys.of-mine"])


def fleet_purges(folder):
    """A purge of macaroond-fleet leaves the files that the daemon's key file leads to, and no others of its agent."""
    for name, what, left in (("led", "a key file that leads there", ["keys", "revoked"]), ("own", "a key file of its own", [])):
        keys, state = folder / name / "etc/macaroond/fleet", folder / name / "var/lib/macaroond-fleet"
        for path in (keys, state):
            path.mkdir(parents=True)
        for path in (keys / "keys", keys / "revoked", keys / "keys.fleet_", state / "shop.taken"):
            path.write_text("key bank 00\n")
        if name == "led":
            (keys / "keys.fleet_").unlink()
            (keys.parent / "keys").symlink_to("fleet/keys")
        status, files, _ = ran("postrm", folder / name, "purge", package="macaroond-fleet")
        found = sorted(it.removeprefix("etc/macaroond/fleet/") for it in files if it != "etc/macaroond/keys")
        yield f"a purge of macaroond-fleet: {what}", (status, found), (0, left)


# Of an installed version its settings, or none, and the mode that an upgrade keeps, or none.
KEPT = {
    "as 0.1.0 has it": ("0.1.0-1", "MODE=660\nIDLE=300\n", "660"),
    "settings that are gone": ("0.1.0-1", None, "660"),
    "settings without a mode": ("0.1.0-1", "IDLE=60\n", "660"),
    "a narrower mode": ("0.1.0-1", "MODE=660\nMODE=600\n", None),
    "a wider mode": ("0.1.0-1", "MODE=666\n", "666"),
    "a later version": ("0.1.0+git20261127091541.14b2606-1", "MODE=660\n", None),
    "no version": ("", None, None),
}


def upgrades(folder):
    """Which mode an upgrade keeps, and that a key file may lead elsewhere still."""
    kept = "etc/systemd/system/macaroond.service.d/from-0.1.0.conf"
    for number, (what, (version, settings, due)) in enumerate(KEPT.items()):
        root = folder / str(number)
        (root / "etc/default").mkdir(parents=True)
        if settings is not None:
            (root / "etc/default/macaroond").write_text(settings)
        status, files, told = ran("preinst", root, "upgrade" if version else "install", *[version] * bool(version))
        mode = re.findall(r"^Environment=MODE=(.*)$", files.get(kept, ""), re.MULTILINE)
        yield f"an upgrade: {what}", (status, mode, bool(told)), (0, [due] * (due is not None), due is not None)
    (folder / "0/etc/macaroond").mkdir()
    (folder / "0/etc/macaroond/keys").symlink_to("/srv/keys")
    (folder / "0" / kept).unlink()
    _, files, _ = ran("preinst", folder / "0", "upgrade", "0.1.0-1")
    yield "a key file that is a link", "\nInaccessiblePaths=\n" in files[kept], True


def fleet(package, folder):
    """The agent's unit, and the command, from their package alone."""
    tree = unpacked(package, folder)
    found = exposure(tree / UNITS / "macaroond-fleet.service")
    yield f"an exposure of the agent of {found} tenths, at most {OF_AGENT}", isinstance(found, int) and found <= OF_AGENT, True
    yield "what systemd says of the agent's unit", verified(tree / UNITS / "macaroond-fleet.service"), []
    started = os.path.realpath(tree / "usr/bin/macaroond-fleet")
    unit = (tree / UNITS / "macaroond-fleet.service").read_text()
    allowed = re.search(r"^ExecPaths=(.*)$", unit, re.MULTILINE)[1].split()
    yield "the unit may start it where it lies", any(started.startswith(f"{tree}{path}/") for path in allowed), True
    run = subprocess.run(["python3", started, "--help"], capture_output=True, text=True)
    yield "macaroond-fleet runs", (run.returncode, run.stdout[:22]), (0, "usage: macaroond-fleet")
    depends = field(package, "Depends").split(", ")
    yield "what it needs", {it.split()[0] for it in depends} >= {"openssl", "python3:any"} or depends, True


def clients(python, go, folder):
    """Both clients, from their packages alone."""
    path = unpacked(python, folder / "python") / PYTHON
    script = "import macaroond, importlib.metadata as told; print(macaroond.__file__, told.version('macaroond'))"
    run = subprocess.run(["python3", "-c", script], env={**os.environ, "PYTHONPATH": path}, capture_output=True, text=True)
    yield "the client for Python", run.stdout, f"{path}/macaroond/__init__.py {packaging.version()}\n"
    if shutil.which("go") is None:
        return
    module = unpacked(go, folder / "go") / GO
    shutil.copytree(TOP / "examples" / "service_go", folder / "service")
    environment = {**os.environ, "GOPROXY": "off", "GOFLAGS": "-mod=mod", "GOTOOLCHAIN": "local"}
    for words in (["mod", "edit", "-replace", f"macaroond={module}"], ["build", "-o", "service", "."]):
        run = subprocess.run(["go", *words], cwd=folder / "service", env=environment, capture_output=True, text=True)
    yield "the client for Go", (run.returncode, run.stderr), (0, "")


def rows(one, another):
    first, second = packages_in(one), packages_in(another)
    sums = [[hashlib.sha256(path.read_bytes()).hexdigest() for path in paths] for paths in (first, second)]
    yield "the same packages again", sums[1], sums[0]
    yield "their names", [field(path, "Package") for path in first], NAMES
    versions = {field(path, "Version") for path in first}
    yield "their version", versions, {f"{packaging.packed_version()}-1"}
    yield "what lintian says", lint(first[0]), []
    yield "scripts that can't be read", [name for path in first for name in scripts_of(path)], []
    yield "what an upgrade stops", [unit for path in first for unit in stopping(path)], []
    tree = unpacked(first[0], f"{another}/tree")
    found = exposure(tree / UNITS / "macaroond.service")
    yield f"an exposure of {found} tenths, at most {EXPOSURE}", isinstance(found, int) and found <= EXPOSURE, True
    for name in ("macaroond.service", "macaroond.socket"):
        yield f"what systemd says of {name}", verified(tree / UNITS / name), []
    run = subprocess.run([tree / "usr/bin/macaroond", "--version"], capture_output=True, text=True)
    yield "its program runs", (run.returncode, run.stdout[:10]), (0, "macaroond ")
    named = dict(zip(NAMES, first))
    yield from fleet(named["macaroond-fleet"], pathlib.Path(another) / "fleet")
    yield from clients(named["python3-macaroond"], named["golang-macaroond-dev"], pathlib.Path(another))


def snapshots():
    """A snapshot sorts behind the last release and one made before it, and before the next release."""
    last, next_one = f"{packaging.version()}-1", f"{packaging.version()}.1-1"
    yield "a snapshot behind its release", sorts(f"{packaging.snapshot()}-1", "gt", last), True
    yield "and before the next one", sorts(f"{packaging.snapshot()}-1", "lt", next_one), True
    earlier = f"{packaging.version()}+git20261124000000.fffffff-1"
    yield "and behind an earlier one", sorts(f"{packaging.snapshot()}-1", "gt", earlier), True


def faults():
    """What is wrong with the package, how many things were looked at, and what can't be."""
    lacking = missing()
    if lacking:
        return [], 0, lacking
    with contextlib.ExitStack() as kept:
        one, another, *folders = (kept.enter_context(tempfile.TemporaryDirectory()) for _ in range(5))
        seen = [*rows(one, another), *snapshots()]
        for made, folder in zip((purges, fleet_purges, upgrades), folders):
            seen += made(pathlib.Path(folder))
    return [f"package: {what}: {got!r} where {due!r} is due" for what, got, due in seen if got != due], len(seen)
