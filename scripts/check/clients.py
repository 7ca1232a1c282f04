#!/usr/bin/env python3
"""The clients for Python and Go: their own tests, and what they come to with the real daemon.

    clients.py [REQUESTS]

With the daemon the examples of clients/README.md are run, both example services are asked, what the
Python package says of a token by itself and the table of paths are compared with the daemon's answers,
what the clients say of hostile caveats with the command line, and so many mixed requests (100,000) from 64 threads, tasks and goroutines are compared with what libmacaroons,
pymacaroons and go-macaroon say. Asks for bin/macaroond, or the program that MACAROOND names.
"""
import importlib.util
import os
import pathlib
import re
import shutil
import subprocess
import sys
import tempfile
import urllib.error
import urllib.request

sys.path.insert(0, str(pathlib.Path(__file__).resolve().parents[1]))
from check import client_cases, client_paths, client_tokens, client_words, peers
from common import TOP, programs
from common.daemon import awaited, free_port, listening

PYTHON, GO = TOP / "clients" / "python", TOP / "clients" / "go"
GO_LIBRARIES = pathlib.Path("/usr/share/gocode")
# How many requests each client is compared in, by the gate and else.
FEW, MANY = 3_000, 100_000
NO_GO = "there is no command `go` (scripts/install_peers.sh)"
PYTHON_PATH = {**os.environ, "PYTHONPATH": str(PYTHON)}
# Nothing is looked for in the network, nor in a workspace of the user's.
GO_ALONE = {**os.environ, "GO111MODULE": "on", "GOFLAGS": "", "GOPROXY": "off", "GOWORK": "off"}


def has_go():
    return shutil.which("go") is not None


def has_go_macaroon():
    return has_go() and (GO_LIBRARIES / "src" / "gopkg.in" / "macaroon.v2").is_dir()


def run(command, **how):
    """Runs the command and gives how it ended, with what it printed."""
    return subprocess.run(command, stdout=subprocess.PIPE, stderr=subprocess.STDOUT, text=True, timeout=900, **how)


def python_faults():
    """What fails of the Python client's tests over a scripted server, and of its install; and how many checks there were."""
    tested = run([sys.executable, "-W", "error", "-m", "unittest", "discover", "-t", ".", "-s", "tests"], cwd=PYTHON)
    counted = re.search(r"^Ran (\d+) tests", tested.stdout, re.MULTILINE)
    found = [] if tested.returncode == 0 else [tested.stdout]
    faults, checks, skipped = install_faults()
    return found + faults, checks + (int(counted[1]) if counted else 0), skipped


def install_faults():
    """The package is installed from its folder without a network."""
    if importlib.util.find_spec("pip") is None:
        return [], 0, ["this Python has no pip, so that the install isn't tried"]
    with tempfile.TemporaryDirectory() as folder:
        command = [sys.executable, "-m", "pip", "install", "--quiet", "--no-index", "--target", folder, PYTHON]
        installed = run(command)
        used = run([sys.executable, "-c", "import macaroond.wsgi, macaroond.asgi"], cwd=folder)
        typed = pathlib.Path(folder, "macaroond", "py.typed").exists()
    is_whole = installed.returncode == 0 and used.returncode == 0 and typed
    return [] if is_whole else [installed.stdout + used.stdout], 1, []


def go_faults():
    """What fails of the Go client's tests over a scripted server, and of its form; and how many checks there were."""
    if not has_go():
        return [], 0, [NO_GO]
    unformed = run(["gofmt", "-l", GO, TOP / "scripts" / "check" / "go_client", TOP / "examples" / "service_go"])
    vetted = run(["go", "vet", "./..."], cwd=GO, env=GO_ALONE)
    tested = run(["go", "test", "-count=1", "-v", "./..."], cwd=GO, env=GO_ALONE)
    found = [f"gofmt would change {name}" for name in unformed.stdout.splitlines()]
    found += [tried.stdout for tried in (vetted, tested) if tried.returncode != 0]
    return found, 2 + len(re.findall(r"^--- (?:PASS|FAIL)", tested.stdout, re.MULTILINE)), []


def go_example_faults(folder):
    """What the README's examples of Go print otherwise."""
    program = pathlib.Path(folder) / "examples.test"
    built = run(["go", "test", "-c", "-tags", "daemon", "-o", program, "."], cwd=GO, env=GO_ALONE)
    if built.returncode != 0:
        return [built.stdout], 1
    printed = run([program, "-test.run", "^Example"], cwd=folder)
    return [] if printed.returncode == 0 else [printed.stdout], 1


def status_of(port, path, token=None):
    """The status and the text of a response, waited for while the service comes up."""
    asked = urllib.request.Request(f"http://127.0.0.1:{port}{path}")
    if token is not None:
        asked.add_header("Authorization", f"Bearer {token}")

    def came():
        try:
            with urllib.request.urlopen(asked, timeout=30) as response:
                return response.status, response.read().decode()
        except urllib.error.HTTPError as refused:
            return refused.code, ""
        except urllib.error.URLError:
            return None

    return awaited(came) or (0, "the service doesn't come up")


# What the example services answer to a path and a token, and what they log of it.
SERVICE_ROWS = [
    ("/", None, 200, "anybody may read this\n", None),
    ("/account", None, 401, "", "status=401 reason=no_token"),
    ("/account", "alice", 200, "the account of alice\n", None),
    ("/account", "for all below", 200, "the account of alice\n", None),
    ("/account", "for another path", 403, "", "status=403 reason=24 caveat=0"),
    ("/account?path=/other", "alice", 200, "the account of alice\n", None),
    ("/account", "of another key", 401, "", "status=401 reason=23"),
    ("/account", "!", 401, "", "status=401 reason=19"),
]


def service_faults(command, env, folder):
    """What an example service answers otherwise, and how many requests it was asked."""
    port, path = free_port(), os.path.join(folder, "socket")
    with client_cases.Client(path) as client:
        tokens = {
            None: None,
            "!": "!",
            "alice": client.mint("bank", "alice", caveats=["path = /account", "method = GET"]),
            "for all below": client.mint("bank", "alice", caveats=["path under /"]),
            "for another path": client.mint("bank", "alice", caveats=["path = /other"]),
            "of another key": client.mint("shop", "alice"),
        }
    with open(f"{path}.service", "w") as errors:
        with subprocess.Popen([*command, path, str(port)], env=env, stderr=errors) as service:
            came = [status_of(port, path, tokens[name]) for path, name, _, _, _ in SERVICE_ROWS]
            service.kill()
    told = re.findall(r"^\d{4}[-/]\d\d[-/]\d\d [\d:,]+ macaroon refused: (.+)$", pathlib.Path(errors.name).read_text(), re.MULTILINE)
    seen = [*came, told]
    wanted = [*((row[2], row[3]) for row in SERVICE_ROWS), [row[4] for row in SERVICE_ROWS if row[4]]]
    return [f"{command[-1]}: {got} where {due} is due" for got, due in zip(seen, wanted) if got != due], len(seen)


def services_faults(folder):
    """What the example services answer otherwise, and how many requests they were asked."""
    found, asked = service_faults([sys.executable, str(TOP / "examples" / "service.py")], PYTHON_PATH, folder)
    if not has_go():
        return found, asked
    program = os.path.join(folder, "service")
    built = run(["go", "build", "-o", program, "."], cwd=TOP / "examples" / "service_go", env=GO_ALONE)
    if built.returncode != 0:
        return [*found, built.stdout], asked + 1
    others, more = service_faults([program], None, folder)
    return found + others, asked + more


def go_surroundings(folder):
    """What `go` is run with for a program that has no module of its own: go-macaroon is none at Debian's, so that both
    libraries are found in the older way."""
    sources = pathlib.Path(folder) / "gopath" / "src"
    sources.mkdir(parents=True)
    (sources / "macaroond").symlink_to(GO)
    return {**os.environ, "GO111MODULE": "off", "GOFLAGS": "", "GOPATH": f"{sources.parent}:{GO_LIBRARIES}"}


def go_client(folder):
    """The program in go_client, or what is wrong with it."""
    program = os.path.join(folder, "go_client")
    how = {"cwd": TOP / "scripts" / "check" / "go_client", "env": go_surroundings(folder)}
    built = run(["go", "build", "-o", program, "."], **how)
    return (program, None) if built.returncode == 0 else (None, built.stdout)


def go_mixed_faults(folder, count):
    """What the Go client says otherwise than go-macaroon, and of tokens than the Python one; and how much was compared."""
    program, fault = go_client(folder)
    if fault is not None:
        return [fault], 1
    asked = run([program, "ask", os.path.join(folder, "socket"), str(count)])
    found = asked.stdout.splitlines() or ([] if asked.returncode == 0 else ["go_client failed"])
    tokens = client_tokens.tokens(count)
    told = run([program, "inspect"], input="".join(f"{token.hex()}\n" for token in tokens)).stdout.splitlines()
    pairs = zip(tokens, told, map(client_tokens.said, tokens))
    differing = [f"of {token} Go says {go}, and Python {python}" for token, go, python in pairs if go != python][:10]
    words, more = client_words.go_faults(os.path.join(folder, "socket"), program)
    return found + differing + ([] if len(told) == count else ["go_client broke off"]) + words, 2 * count + more


def mixed_faults(folder, count):
    """What the clients came to otherwise than others' libraries say, how many replies were compared, and what was left out."""
    found = client_cases.libraries()
    faults, checks, skipped = [], 0, []
    if found:
        faults, checks = client_cases.faults(os.path.join(folder, "socket"), count, found)
    if len(found) < 2:
        skipped.append("libmacaroons or pymacaroons isn't installed (scripts/install_peers.sh)")
    if has_go_macaroon():
        others, more = go_mixed_faults(folder, count)
        faults, checks = faults + others, checks + more
    else:
        skipped.append("go-macaroon isn't installed (scripts/install_peers.sh)")
    return faults, checks, skipped


def daemon_faults(count=FEW):
    """What fails with the real daemon, how many checks there were, and what was left out."""
    with listening("--workers", "2", stderr=subprocess.DEVNULL) as (path, _):
        folder = os.path.dirname(path)
        parts = [services_faults(folder), client_tokens.faults(path, count), client_paths.faults(), client_words.faults(path)]
        parts += [go_example_faults(folder)] if has_go() else []
        faults, checks, skipped = mixed_faults(folder, count)
    found = [fault for some, _ in parts for fault in some] + faults
    return found, sum(more for _, more in parts) + checks, skipped


def main(words):
    programs.stop_unless_built("macaroond")
    peers.run_by_debian_python()
    count = int(words[0]) if words else MANY
    parts = {"Python client": python_faults, "Go client": go_faults, "with the daemon": lambda: daemon_faults(count)}
    failed = 0
    for name, part in parts.items():
        faults, checks, skipped = part()
        failed += len(faults)
        print(*(f"FAULT in {name}: {fault}" for fault in faults), sep="\n", end="\n" if faults else "")
        print(*(f"SKIPPED of {name}: {why}" for why in skipped), sep="\n", end="\n" if skipped else "")
        print(f"{name}: {checks - len(faults)} as they must be", flush=True)
    sys.exit(1 if failed else 0)


if __name__ == "__main__":
    main(sys.argv[1:])
