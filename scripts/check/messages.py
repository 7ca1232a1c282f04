"""What `macaroond listen` and `macaroond serve` say where they can't start, or start with a warning: what is wrong,
where, and what to do. Each message of the table in docs/OPERATING.md is provoked here."""
import os
import pathlib
import subprocess

from check.daemon_rows import END_FIRST, EXISTS, NO_SOCKET, TOKEN
from common import KEYS, TOP
from common.daemon import PATIENCE, PROGRAM, command, connected, serve_command
from common.processes import NOBODY, become_nobody
from common.rows import in_folders, judged

PAGE = TOP / "docs" / "OPERATING.md"
NO_FOLDER = "there is no such folder; make it first, or give another path"
NO_PERMISSION = "no permission; let this user write the folder, or give another path"
TOO_LONG = "the path is too long for a socket; give one of 101 bytes at most"
NO_KEYS = "the key file has no key; `macaroond keygen NAME` prints a line for it"
FOLDER = "can't be read: it is a folder; give the path of a file in it"
UNREADABLE = "can't be read: no permission; give it to the daemon's user"
LONG_FILE = "the key file is longer than a key file may be; 16777216 bytes are read"
NO_OUTPUT = "standard output failed; give it a place where the first line can be written"
NO_LINE = "standard output failed; it doesn't say that clients can connect"


def refused(words, **how):
    """The status of a run that doesn't start, and what it says."""
    pipes = {"stdout": subprocess.PIPE, "stderr": subprocess.PIPE, "text": True, "stdin": subprocess.DEVNULL}
    run = subprocess.Popen(words, **{**pipes, **how})
    try:
        _, error = run.communicate(timeout=PATIENCE)
    except subprocess.TimeoutExpired:
        run.kill()
        run.communicate()
        return "it runs on"
    return run.returncode, error


def listen(path, keys=KEYS):
    return command(path, "--workers", "1", keys=keys)


def serve(path, keys=KEYS):
    return serve_command(path, accept=1, workers=1, keys=keys)


def check(_path, keys):
    return [PROGRAM, "check", "--keys", keys]


def mint(_path, keys):
    return [PROGRAM, "mint", "--keys", keys, "--key", "bank", "--identifier", "alice"]


def verify(_path, keys):
    return [PROGRAM, "verify", "--keys", keys, "--key", "bank", TOKEN]


def key_files(folder):
    """A key file that is missing, a folder, not for this user, or too long: a daemon and a command tell it alike."""
    missing, inside, locked, long = (f"{folder}/{name}" for name in ("missing", "inside", "locked", "long"))
    os.mkdir(inside)
    pathlib.Path(locked).write_text("key bank 00\n")
    os.chmod(locked, 0)
    with open(long, "w") as text:
        text.truncate((1 << 24) + 1)
    due = f"error: {missing}: there is no key file; `macaroond keygen NAME --into {missing}` makes one\n"
    for words in (listen, serve, check, mint, verify):
        name, socket = words.__name__, f"{folder}/{words.__name__}"
        yield f"{name}: no key file", refused(words(socket, missing)), (3, due)
        yield f"{name}: a folder", refused(words(socket, inside)), (3, f"error: {inside}: the key file {FOLDER}\n")
        yield f"{name}: a long file", refused(words(socket, long)), (3, f"error: {long}: {LONG_FILE}\n")
        due_locked = f"error: {locked}: the key file {UNREADABLE}\n"
        yield f"{name}: no permission", refused(words(socket, locked), preexec_fn=become_nobody), (3, due_locked)


def lists(folder):
    """A list that is missing, a folder, or not for this user: a daemon and a command tell it alike."""
    missing, inside, locked, keys, theirs = (f"{folder}/{name}" for name in ("missing", "inside", "locked", "keys", "theirs"))
    os.mkdir(inside, 0o700)
    pathlib.Path(locked).write_text("# none\n")
    os.chmod(locked, 0)
    for path in (keys, theirs):
        pathlib.Path(path).write_bytes(KEYS.read_bytes())
        os.chmod(path, 0o600)
    if not os.geteuid():
        os.chown(theirs, NOBODY, NOBODY)
    due = f"error: {missing}: there is no list of tokens that were taken back\n"
    for words in (listen, serve, verify):
        name, asked = words.__name__, [*words(f"{folder}/{words.__name__}", keys), "--revoked"]
        yield f"{name}: no list", refused([*asked, missing]), (3, due)
        yield f"{name}: a folder", refused([*asked, inside]), (3, f"error: {inside}: the list {FOLDER}\n")
        status, error = refused([*words(f"{folder}/{name}", theirs), "--revoked", locked], preexec_fn=become_nobody)
        yield f"{name}: no permission", (status, error.splitlines()[-1:]), (3, [f"error: {locked}: the list {UNREADABLE}"])


def key_lines(folder):
    """A faulty line, and a file without a key."""
    faulty, empty = f"{folder}/faulty", f"{folder}/empty"
    for path, text in ((faulty, "key bank 00\nkey bank\n"), (empty, "# none\n")):
        pathlib.Path(path).write_text(text)
        os.chmod(path, 0o600)
    said = refused(listen(f"{folder}/one", faulty))
    yield "a faulty line", (said[0], said[1].startswith(f"error: {faulty}: line 2: ")), (1, True)
    warning = f"warning: {empty}: {NO_KEYS}\n"
    checked = subprocess.run([PROGRAM, "check", "--keys", empty], capture_output=True, text=True, timeout=PATIENCE)
    yield "check warns of no key", (checked.returncode, checked.stdout, checked.stderr), (0, "", warning)
    pipes = {"stdout": subprocess.PIPE, "stderr": subprocess.PIPE, "text": True}
    for name, words in (("listen", listen), ("serve", serve)):
        with subprocess.Popen(words(f"{folder}/{name}", empty), **pipes) as run:
            run.stdout.readline()
            yield f"{name} warns of no key", run.stderr.readline(), warning
            run.kill()


def paths(folder):
    """A socket's path that can't be taken."""
    file, gone, closed, long = (f"{folder}/{name}" for name in ("file", "gone/socket", "closed/socket", "l" * 120))
    pathlib.Path(file).write_text("")
    os.mkdir(f"{folder}/closed", 0o755)
    os.chmod(folder, 0o755)
    yield "listen: a file", refused(listen(file)), (3, f"error: {file}: {NO_SOCKET}\n")
    yield "serve: a file", refused(serve(file)), (3, f"error: {file}: {EXISTS}\n")
    keys = pathlib.Path(folder, "keys")
    keys.write_bytes(KEYS.read_bytes())
    keys.chmod(0o600)
    if not os.geteuid():
        os.chown(keys, NOBODY, NOBODY)
    for name, words in (("listen", listen), ("serve", serve)):
        yield f"{name}: no folder", refused(words(gone)), (3, f"error: {gone}: {NO_FOLDER}\n")
        yield f"{name}: a long path", refused(words(long)), (3, f"error: {long}: {TOO_LONG}\n")
        status, error = refused(words(closed, keys), preexec_fn=become_nobody)
        yield f"{name}: no permission", (status, error.splitlines()[-1:]), (3, [f"error: {closed}: {NO_PERMISSION}"])


def taken(folder):
    """A path on which somebody listens: a daemon, or another program."""
    path = f"{folder}/taken"
    pipes = {"stdout": subprocess.PIPE, "stderr": subprocess.DEVNULL, "text": True}
    with subprocess.Popen(listen(path), **pipes) as run:
        run.stdout.readline()
        yield "a daemon's", refused(listen(path)), (3, f"error: {path}: process {run.pid} has it; {END_FIRST}\n")
        with connected(path):
            pass
        os.rename(path, f"{folder}/other")
        due = f"error: {folder}/other: somebody listens there; {END_FIRST}\n"
        yield "another's", refused(listen(f"{folder}/other")), (3, due)
        run.kill()


def outputs(folder):
    """Standard output that takes nothing: `serve` ends, and `listen` says so and goes on."""
    path = f"{folder}/full"
    with open("/dev/full", "w") as full:
        yield "a full device", refused(serve(f"{folder}/once"), stdout=full), (3, f"error: {NO_OUTPUT}\n")
        with subprocess.Popen(listen(path), stdout=full, stderr=subprocess.PIPE, text=True) as run:
            yield "listen warns", run.stderr.readline(), f"warning: {NO_LINE}\n"
            with connected(path):
                pass
            run.terminate()
            yield "and goes on to its end", run.wait(PATIENCE), 0


def told(page):
    """Which of the messages the table of the page lacks."""
    texts = (END_FIRST, EXISTS, NO_SOCKET, NO_FOLDER, NO_PERMISSION, TOO_LONG, NO_KEYS, FOLDER, UNREADABLE, LONG_FILE, NO_OUTPUT, NO_LINE)
    return [text for text in texts if text.replace("`", "") not in page.replace("`", "")]


def faults():
    """What went otherwise than it must, and how many checks there were."""
    seen = [("the page's table", told(PAGE.read_text()), [])]
    return judged([*seen, *in_folders(key_files, lists, key_lines, paths, taken, outputs, mode=0o755)])
