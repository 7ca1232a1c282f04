"""The steps of docs/SCALING.md for a fleet by etcd, typed as they stand, in a Debian 12 that has booted: one machine has
etcd over TLS, the operator, and a member of whom packages alone are installed. Then etcd loses all that it had."""
import pathlib

from check import sessions
from check.debian_booted import until

import request

PACKAGES = ["etcd-server", "etcd-client"]
STEPS = sessions.blocks("docs/SCALING.md", "sh")
OPERATOR = "/etc/operator"
GRANTED, NO_KEY, REVOKED = 0, 23, 29
ETCD = "export ETCDCTL_ENDPOINTS=https://etcd-1.example:2379 ETCDCTL_CACERT=/root/ca.pem\n"
ANEW = "etcdctl user add root:secret && etcdctl user grant-role root root\n"
# What an operator writes into the settings, and copies.
VALUES = """sed -i 's,^endpoints =.*,endpoints = https://etcd-1.example:2379,' fleet.conf
cp /root/ca.pem etcd-ca.pem && cp /etc/operator/operator.pem operators.pem
chmod 644 etcd-ca.pem operators.pem
"""


def step(mark, **others):
    """The commands of the step in which this stands, with other words in the place of those that an operator replaces."""
    text = next(block for block in STEPS if mark in block)
    for word, other in {"for name in one two three": "for name in one", "for name in front one two three": "for name in one", **others}.items():
        text = text.replace(word, other)
    return text


def by_operator(text):
    """The commands as the operator's, whose settings aren't in their place here: that has the member's."""
    return text.replace("macaroond-fleet ", f"macaroond-fleet --config {OPERATOR}/fleet.conf ")


def typed(system, script):
    """Whether all commands of a script did what they should, and else what they print."""
    return system.did("bash", "-e", "-c", f"export HOME=/root; cd\n{script}")


def etcd(system):
    """Debian's etcd, as the page has it serve other machines."""
    tls = step("ca.key -out ca.pem", **{"for name in front one two three": "for name in etcd-1.example"})
    put = "install -D -o etcd -m 600 -t /etc/etcd etcd-1.example.crt etcd-1.example.key\n"
    lines = step("ETCD_LISTEN_CLIENT_URLS")
    hosts = "echo 127.0.0.1 localhost etcd-1.example >> /etc/hosts\n"
    yield "etcd", typed(system, f"{hosts}{tls}{put}cat >> /etc/default/etcd <<'END'\n{lines}END\nsystemctl unmask etcd\nsystemctl start etcd"), True


def users(system):
    of_etcd = step("etcdctl auth enable", **{"user add operator": "user add operator:secret", "user add $name": "user add $name:secret"})
    yield "users of etcd", typed(system, f"{ETCD}{ANEW}{of_etcd}"), True


def settings(system):
    own = {"the password of this user of etcd": "secret"}
    operator = step("-subj /CN=$name -keyout", **own, **{"name=one": "name=operator", "/etc/macaroond-fleet": OPERATOR})
    yield "the operator's settings", typed(system, f"mkdir {OPERATOR}\n{operator}sed -i /^member/d fleet.conf\n{VALUES}"), True
    yield "the member's settings", typed(system, step("-subj /CN=$name -keyout", **own) + VALUES), True


def told(system, word):
    """Whether the agent's log has this."""
    return lambda: word in system.says("journalctl", "-u", "macaroond-fleet", "-o", "cat")


def process(system):
    """The agent's state, and its process."""
    return system.says("systemctl", "is-active", "macaroond-fleet"), system.says("systemctl", "show", "-P", "MainPID", "macaroond-fleet")


def rows(system, packages, newer, answer):
    """What came of each step. `answer` has a daemon's reply to a request."""
    yield "packages of a fleet", system.install(*packages), True
    yield "an agent without settings", process(system), ("inactive", "0")
    yield from etcd(system)
    yield from users(system)
    yield from settings(system)
    name = pathlib.Path(system.path("/etc/macaroond/keys")).read_text().split()[1]
    copied = "cp /etc/macaroond/keys keys && cp /etc/macaroond-fleet/one.pem .\n"
    yield "a fleet begins", typed(system, copied + by_operator(step("publish --first --keys keys\n"))), True
    yield "a member starts", typed(system, step("systemctl enable --now macaroond-fleet")), True
    until("a serial that is up", told(system, "is up"))

    def minted(identifier):
        return answer(system, request.mint("v1-text", name, "", identifier))[1:].decode()

    def verdict(token):
        return answer(system, request.verify(name, token, 0))[0]

    old, daily = minted("root"), step("rotate bank", **{"bank": name, "12h": "0s"})
    yield "status, rotate and revoke", typed(system, by_operator(daily)), True
    yield "a token of the old key", verdict(old), NO_KEY
    good, gone = minted("root"), minted("alice:5f2c")
    yield "tokens of the new one", (verdict(good), verdict(gone)), (GRANTED, REVOKED)
    # Its token of etcd is a late one now, by which an etcd that begins anew lets it wait.
    yield "another run of the agent", typed(system, "systemctl restart macaroond-fleet\nsleep 3\nsystemctl stop etcd"), True
    until("that etcd is away is told", told(system, "the files stay as they are"))
    yield "tokens without etcd", (verdict(good), verdict(gone)), (GRANTED, REVOKED)
    yield "an etcd with nothing", typed(system, "rm -r /var/lib/etcd/default\nsystemctl start etcd"), True
    until("that it has no users is told", told(system, "authentication is not enabled"))
    yield from users(system)
    copied = "cp /etc/macaroond/fleet/keys /etc/macaroond/fleet/revoked .\n"
    anew = step("publish --first --keys keys\n", **{"--keys keys": "--keys keys --revoked revoked"})
    yield "a fleet begins anew", typed(system, copied + by_operator(f"{anew}macaroond-fleet revoke {name} root")), True
    yield "both tokens then", (verdict(good), verdict(gone)), (REVOKED, REVOKED)
    first = process(system)
    yield "an upgrade of a member", system.install(*newer), True
    second = process(system)
    yield "another process of the agent", (first[0], second[0], first[1] != second[1]), ("active", "active", True)
    yield "the fleet then", until("a member that is up", lambda: typed(system, by_operator("macaroond-fleet status")) is True), True
