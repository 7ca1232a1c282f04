#!/usr/bin/env bash
# Installs from Debian what the tests of real parts need; where all is there it does nothing.
#
# It has to be run as root to install; as another user it says what is missing, and fails.
set -eu

# Each package, and why it stands here.
list() {
    cat <<'END'
libmacaroons0                   scripts/check/peers.py exchanges tokens with it
python3-pymacaroons             scripts/check/peers.py exchanges tokens with it
golang-go                       builds scripts/check/go_peer, which speaks for go-macaroon, and tests clients/go
golang-gopkg-macaroon.v2-dev    scripts/check/peers.py exchanges tokens with it, by scripts/check/go_peer
gcc                             builds what refuses memory, fails devices and counts (scripts/faults/watch.c)
libc6-dev                       the headers for that
python3-pip                     scripts/check/clients.py installs clients/python with it
python3-pyflakes                scripts/check/linting.py asks it what is wrong with a script
shellcheck                      scripts/check/linting.py asks it the same of a shell's
python3-jsonschema              scripts/vectors/checking.py holds vectors/ against their schema with it
groff-base                      scripts/check/man_page.py looks for its warnings
valgrind                        scripts/measure/instructions.py counts with it
dpkg-dev                        scripts/build/packaging.py makes the package with it
debhelper                       debian/rules says by it how the packages are made
dh-python                       debian/rules says by it how the client for Python is packaged
lintian                         scripts/check/package_runs.py asks it what is wrong with the package
systemd                         scripts/check/package_runs.py asks it what the unit may do
mmdebstrap                      scripts/check/life_cycle.py makes a plain Debian with it
systemd-container               scripts/check/life_cycle.py boots that with it
zsh                             scripts/build/completions.py tries its completion
nginx-light                     scripts/check/gateways.py has it ask macaroond over HTTP
caddy                           scripts/check/gateways.py has it ask macaroond over HTTP
haproxy                         scripts/check/gateways.py has it ask macaroond over HTTP
apache2-bin                     scripts/check/gateways.py has it ask macaroond over HTTP
chromium                        scripts/check/page.py drives the page in it
prometheus                      scripts/check/monitoring.py asks its promtool about alert rules
etcd-server                     scripts/check/fleet.py brings keys to three daemons by it
etcd-client                     scripts/check/fleet.py makes the users of that store by its etcdctl
iproute2                        scripts/check/fleet.py gives each member a host of its own by its `ip`
openssl                         clients/fleet signs and encrypts by it
python3-yaml                    scripts/check/kubernetes.py reads examples/kubernetes by it
lua-socket                      by it Apache asks macaroond (examples/gateways/apache.lua)
END
}

is_installed() {
    [ "$(dpkg-query -W -f='${db:Status-Status}' "$1" 2> /dev/null)" = installed ]
}

missing() {
    list | while read -r package _; do
        is_installed "$package" || echo "$package"
    done
}

# The servers of packages are away at times: three tries.
patiently() {
    "$@" || { sleep 10; "$@"; } || { sleep 60; "$@"; }
}

if ! command -v dpkg-query > /dev/null; then
    echo "install_peers: this is no Debian; the tests need what its packages have:" >&2
    list >&2
    exit 1
fi
wanted=$(missing)
if [ -z "$wanted" ]; then
    exit 0
fi
if [ "$(id -u)" != 0 ]; then
    echo "install_peers: not root; missing are: ${wanted//$'\n'/ }" >&2
    exit 1
fi
export DEBIAN_FRONTEND=noninteractive
# An update fails for a server of other packages too, so the install says whether it sufficed.
patiently apt-get -qq update || echo "install_peers: the lists of packages are old" >&2
mapfile -t packages <<< "$wanted"
patiently apt-get -qq install -y --no-install-recommends "${packages[@]}" > /dev/null
left=$(missing)
if [ -n "$left" ]; then
    echo "install_peers: not installed: ${left//$'\n'/ }" >&2
    exit 1
fi
echo "install_peers: installed ${packages[*]}"
