#!/bin/sh
# The daemon as the sources are now, with no proof: compiled by `rt try`, which stops it at an index out of
# bounds, a sum that wraps and the like. It listens at ./socket with examples/keys, and with these further
# words of `macaroond listen`, until it is interrupted. What it printed is shown where it ends by itself.
set -eu
top=$(cd "$(dirname "$0")/.." && pwd)
# shellcheck source=scripts/common/unproved.sh
. "$top/scripts/common/unproved.sh"
if ! command -v rt > /dev/null; then
    echo "the toolchain's command \`rt\` isn't on the path (README, What is trusted)"
    exit 1
fi
here=$(pwd)
# What a daemon that is killed leaves.
clear() {
    for left in socket socket.lock socket.status socket.status.lock; do
        rm -f "$here/$left"
    done
}
if [ -e socket ]; then
    echo "there is ./socket already: end the daemon that has it, or remove that"
    exit 1
fi
folder=$(mktemp -d)
trap 'rm -rf "$folder"' EXIT
cp "$top/examples/keys" "$folder/keys"
chmod 600 "$folder/keys"
unproved_case "$folder" 1 listen --socket "$here/socket" --keys "$folder/keys" "$@"
echo "UNPROVED: this daemon is compiled from the sources as they are, and no contract of it was checked."
begin=$(date +%s)
run_unproved "$folder" "$top" &
running=$!
trap 'kill $running 2> /dev/null || :; wait $running || :; rm -rf "$folder"; clear' EXIT
trap 'exit 130' INT TERM
if ! await_socket "$running" "$here/socket"; then
    cat "$folder/said"
    exit 1
fi
echo "UNPROVED, listening at ./socket after $(($(date +%s) - begin)) seconds; Ctrl-C ends it"
wait $running || :
cat "$folder/said"
