"""What Envoy and Traefik are said to send macaroond, and what they are answered.

Neither is in Debian, so none of them is run: a script sends in their place what examples/gateways
should have them send, for each row of the table that they would ask about.
"""
import pathlib
import sys

sys.path.insert(0, str(pathlib.Path(__file__).resolve().parents[1]))
from check.gateway_rows import ROWS, UNASKED
from check.gateway_servers import asked, head, in_folder
from common.daemon import free_port


def tokens_of(row):
    """The values of a row's fields Authorization."""
    pairs = (line.partition(":") for line in row.lines())
    return [value.strip() for name, _, value in pairs if name.lower() == "authorization"]


def host_of(row):
    return next((line[6:] for line in row.lines() if line.startswith("Host: ")), "example.org")


def by_envoy(row):
    """Envoy: the client's method and path behind path_prefix, its Host and its Authorization.

    Of other fields none is sent that the configuration doesn't name. A field that came twice is one
    with a comma.
    """
    fields = [f"Host: {host_of(row)}", "Content-Length: 0", "macaroon-fact: service = demo"]
    fields += ["x-envoy-internal: true", "x-envoy-expected-rq-timeout-ms: 2000"]
    fields += ["x-request-id: 4a1b7c2e-9d3f-4e5a-8b6c-0f1e2d3c4b5a"]
    fields += [f"authorization: {','.join(tokens_of(row))}"] * bool(tokens_of(row))
    return head(f"/verify/bank{row.target}", *fields, method=row.method)


def by_traefik(row):
    """Traefik: GET of the address with its query, and fields of its own about the request.

    Of the client's fields those of authRequestHeaders alone are sent.
    """
    fields = ["Host: 127.0.0.1:18086", "User-Agent: Go-http-client/1.1", "Accept-Encoding: gzip"]
    fields += [f"Authorization: {token}" for token in tokens_of(row)]
    fields += [f"X-Forwarded-Method: {row.method}", f"X-Forwarded-Uri: {row.target}"]
    fields += [f"X-Forwarded-Host: {host_of(row)}", "X-Forwarded-Proto: http"]
    fields += ["X-Forwarded-Port: 80", "X-Forwarded-For: 127.0.0.1"]
    return head("/verify/bank?fact=service+%3D+demo", *fields)


# Each gateway, what it sends for a row, and the sources of facts that the daemon takes then.
SCRIPTED = {"envoy": (by_envoy, "header,forwarded"), "traefik": (by_traefik, "query,forwarded")}


def would_ask(name, row):
    """Whether the gateway would ask about a row, whose client names no field to take out."""
    is_plain = not any(line.startswith("Connection:") for line in row.lines())
    return row.target.startswith("/guarded/") and row.due(name) not in UNASKED and is_plain


def rows(name):
    """Each row that the gateway would ask about: over a Unix socket, or TCP as Traefik does."""
    text_for, sources = SCRIPTED[name]
    port = free_port()
    words = ["--http", f"unix:macaroond.http,127.0.0.1:{port}", "--http-facts", sources]
    with in_folder(*words) as daemon:
        where = daemon.folder / "macaroond.http" if name == "envoy" else port
        for row in ROWS:
            if would_ask(name, row):
                status, fields = asked(where, text_for(row))
                due = row.due(name)
                whose = row.whose if due == 200 else None
                yield row.what, (status, fields.get("macaroon-identifier")), (due, whose)
