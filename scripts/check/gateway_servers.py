"""What a test of gateways starts: the daemon that they ask, the service behind them, themselves.

Each is asked over plain sockets, so that a request is sent byte for byte as it stands in a row.
"""
import contextlib
import http.server
import os
import pathlib
import shutil
import socket
import subprocess
import sys
import tempfile
import threading
import typing

sys.path.insert(0, str(pathlib.Path(__file__).resolve().parents[1]))
from check import sessions
from check.http_rows import SECRET, v2
from common import TOP
from common.daemon import PATIENCE, Daemon, awaited, connected, free_port, put_keys

import request

FOLDER = TOP / "examples" / "gateways"
# The port of the service behind, in each configuration.
SERVICE_PORT = 18090
# The fact that each configuration tells of its own.
OWN_FACT = "service = demo"


class Gateway(typing.NamedTuple):
    """How a gateway is started, and how long its configuration has it wait for the daemon."""

    program: str
    config: str
    # The port that the configuration has.
    port: int
    words: typing.Sequence[str]
    # The file that says how long, how it says that, and the same for a machine that is busy.
    waits: typing.Tuple[str, str, str]
    # The file in which its log is.
    log: str = "access.log"
    # What is needed besides the program.
    needs: str = ""


GATEWAYS = {
    "nginx": Gateway(
        program="nginx",
        config="nginx.conf",
        port=18080,
        words=["-p", ".", "-c", "nginx.conf", "-g", "daemon off;"],
        waits=("nginx.conf", "timeout 2s", "timeout 100s"),
    ),
    "caddy": Gateway(
        program="caddy",
        config="Caddyfile",
        port=18081,
        words=["run", "--config", "Caddyfile", "--adapter", "caddyfile"],
        waits=("Caddyfile", "timeout 2s", "timeout 100s"),
    ),
    "haproxy": Gateway(
        program="haproxy",
        config="haproxy.cfg",
        port=18082,
        words=["-f", "haproxy.cfg"],
        waits=("macaroon.lua", "timeout = 500", "timeout = 100000"),
        log="said",
    ),
    "apache": Gateway(
        program="apache2",
        config="apache.conf",
        port=18083,
        words=["-d", ".", "-f", "apache.conf", "-DFOREGROUND"],
        waits=("apache.lua", "settimeout(2)", "settimeout(100)"),
        needs="/usr/lib/x86_64-linux-gnu/lua/5.3/socket/unix.so",
    ),
}


def program_of(name):
    """The path of a gateway's program, or None where something of it isn't installed."""
    gateway = GATEWAYS[name]
    if gateway.needs and not os.path.exists(gateway.needs):
        return None
    return shutil.which(gateway.program, path="/usr/sbin:/usr/bin:/sbin:/bin")


def key_file(secret, name="bank"):
    return f"{request.key(name, secret.decode())}\n{request.key('shop', 'shop')}\n"


class Seen(typing.NamedTuple):
    """A request that the service behind was sent."""

    method: str
    target: str
    fields: typing.Sequence[typing.Tuple[str, str]]
    body: bytes

    def values(self, name):
        """The values of a field, whose name may have `_` for `-` as CGI has it."""
        return [value for key, value in self.fields if key.lower().replace("_", "-") == name]


    def told_past(self, lines):
        """Which of a client's fields came here as he sent them, alone or beside the gateway's own words."""
        pairs = [line.partition(": ")[::2] for line in lines]
        return [f"{name}: {text}" for name, text in pairs for value in self.values(name.lower()) if text in value]


class Handler(http.server.BaseHTTPRequestHandler):
    """Notes each request, and answers `hello`."""

    protocol_version = "HTTP/1.1"

    def answer(self):
        if self.headers.get("Transfer-Encoding"):
            body = b"".join(self.chunks())
        else:
            body = self.rfile.read(int(self.headers.get("Content-Length", 0)))
        method, target, _ = self.requestline.split(" ", 2)
        self.server.seen.append(Seen(method, target, self.headers.items(), body))
        self.send_response(200)
        self.send_header("Content-Length", "5")
        self.end_headers()
        if method != "HEAD":
            self.wfile.write(b"hello")

    def chunks(self):
        while count := int(self.rfile.readline(), 16):
            yield self.rfile.read(count)
            self.rfile.readline()
        self.rfile.readline()

    do_GET = do_HEAD = do_POST = do_PUT = do_DELETE = answer

    def log_message(self, *_):
        pass


class Service(http.server.ThreadingHTTPServer):
    """The service behind a gateway."""

    daemon_threads = True

    def __init__(self):
        super().__init__(("127.0.0.1", 0), Handler)
        self.seen = []

    def taken(self):
        """What came since the last look."""
        came, self.seen = self.seen, []
        return came

    def handle_error(self, *_):
        pass


@contextlib.contextmanager
def serving():
    with Service() as service:
        threading.Thread(target=service.serve_forever, daemon=True).start()
        try:
            yield service
        finally:
            service.shutdown()


@contextlib.contextmanager
def running(folder, *command):
    """A gateway's run, which writes what it says into `said`."""
    with (folder / "said").open("w") as said:
        with subprocess.Popen(command, cwd=folder, stdout=said, stderr=said) as run:
            try:
                yield run
            finally:
                run.terminate()


def give_to_workers(folder):
    """Has sockets in the folder be of the group of gateways' workers, as nginx.conf says, where root starts those."""
    if os.geteuid() == 0:
        shutil.chown(folder, group="www-data")
        folder.chmod(0o2750)


@contextlib.contextmanager
def in_folder(*words, revoked=""):
    """A daemon that is started with these words, in a folder that has the configurations, and with a list of tokens
    that were taken back, where one is given."""
    with tempfile.TemporaryDirectory() as where:
        folder = pathlib.Path(where)
        give_to_workers(folder)
        for file in FOLDER.iterdir():
            shutil.copy(file, folder)
        if revoked:
            put_keys(folder / "revoked", revoked)
            words = [*words, "--revoked", "revoked"]
        daemon = Daemon(folder, key_file(SECRET), *words, name="macaroond.socket", cwd=folder)
        try:
            yield daemon.start()
        finally:
            daemon.close()


class Scene(typing.NamedTuple):
    """A gateway at its port, the daemon that it asks, and the service behind it."""

    port: int
    daemon: Daemon
    service: Service


def change(path, old, new):
    """Writes another text in a configuration, which has to have the old one."""
    text = path.read_text()
    if old not in text:
        raise ValueError(f"{path.name} has no {old}")
    path.write_text(text.replace(old, new))


def change_all(path, old, new):
    """The same wherever it stands, be it nowhere."""
    path.write_text(path.read_text().replace(old, new))


# What stands around README's lines for nginx, which name the package's socket and a service of their own.
AROUND_README = """user www-data;
pid nginx.pid;
events {{ }}
http {{
    access_log off;
    client_body_temp_path tmp; proxy_temp_path tmp; fastcgi_temp_path tmp; uwsgi_temp_path tmp; scgi_temp_path tmp;
    server {{
        listen 127.0.0.1:18080;
        {}
    }}
}}
"""


def write_readme(folder):
    """Has nginx be set up by the lines that README shows."""
    [lines] = sessions.blocks("README.md", "nginx")
    lines = lines.replace("/run/macaroond-verify/http", str(folder / "macaroond.http")).replace(":8000", f":{SERVICE_PORT}")
    (folder / "nginx.conf").write_text(AROUND_README.format(lines))


@contextlib.contextmanager
def guarded(name, *further, patient=True, by_readme=False, revoked="", fact=OWN_FACT):
    """A gateway that asks a daemon, and waits for it as its configuration says, or long enough. The daemon has these
    further words, and the gateway tells it a fact of its own."""
    gateway, facts = GATEWAYS[name], "forwarded" if by_readme else "header,forwarded"
    words = ["--http", "unix:macaroond.http", "--http-mode", "660", "--http-facts", facts]
    with in_folder(*words, *further, revoked=revoked) as daemon, serving() as service:
        port, config = free_port(), daemon.folder / gateway.config
        if by_readme:
            write_readme(daemon.folder)
        for file in {gateway.config, gateway.waits[0]} if fact != OWN_FACT else ():
            change_all(daemon.folder / file, OWN_FACT, fact)
        change(config, str(gateway.port), str(port))
        change(config, str(SERVICE_PORT), str(service.server_address[1]))
        if patient:
            file, *texts = gateway.waits
            change(daemon.folder / file, *texts)
        with running(daemon.folder, program_of(name), *gateway.words) as run:
            if not is_answering(port, run):
                said = (daemon.folder / "said").read_text()
                raise RuntimeError(f"{name} doesn't let a good token through: {said[-1_000:]}")
            service.taken()
            yield Scene(port, daemon, service)


def is_answering(port, run):
    """Whether a gateway that has just been started lets a request through, once it is ready."""
    hello = head("/guarded/hello", f"Authorization: Macaroon {v2(b'alice')}")

    def is_let_through():
        with contextlib.suppress(OSError):
            return run.poll() is not None or asked(port, hello)[0] == 200

    return bool(awaited(is_let_through)) and run.poll() is None


def head(target, *fields, method="GET", body=b""):
    """A request, whose connection is to be closed behind its response."""
    lines = [f"{method} {target} HTTP/1.1", *fields]
    if not any(field.startswith("Host:") for field in fields):
        lines.append("Host: example.org")
    if not any(field.startswith("Connection:") for field in fields):
        lines.append("Connection: close")
    if any(field.startswith("Transfer-Encoding:") for field in fields):
        body = b"%x\r\n%s\r\n0\r\n\r\n" % (len(body), body)
    elif body:
        lines.append(f"Content-Length: {len(body)}")
    return "\r\n".join([*lines, "", ""]).encode("latin-1") + body


def connection(where):
    """A connection to a port of this machine, or to a Unix socket."""
    if isinstance(where, int):
        return socket.create_connection(("127.0.0.1", where), PATIENCE)
    return connected(str(where))


def asked(where, text):
    """The status of the response to a request, and its fields, their names in lower case."""
    with connection(where) as stream:
        # A peer may have answered and closed before all of a long request is sent.
        with contextlib.suppress(ConnectionError):
            stream.sendall(text)
        came = b""
        with contextlib.suppress(ConnectionError):
            while piece := stream.recv(65_536):
                came += piece
    lines = came.partition(b"\r\n\r\n")[0].decode("latin-1").split("\r\n")
    if not lines[0].startswith("HTTP/1."):
        return None, {}
    pairs = (line.partition(":") for line in lines[1:])
    return int(lines[0].split()[1]), {name.lower(): value.strip() for name, _, value in pairs}
