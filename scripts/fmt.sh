#!/bin/sh
# Lays out the sources of these crates, or of all, and where Go is installed those of its programs. It
# tells which files that changed.
set -eu
cd "$(dirname "$0")/.."
if ! command -v rt > /dev/null; then
    echo "the toolchain's command \`rt\` isn't on the path (README, What is trusted)"
    exit 1
fi
[ $# -gt 0 ] || set -- crates/*/
for crate; do
    crate=crates/$(basename "$crate")
    said=$(cd "$crate" && rt fmt)
    [ -z "$said" ] || echo "$said" | sed "s|^rt: formatted |formatted $crate/|"
done
if command -v gofmt > /dev/null; then
    find bench clients examples scripts -name '*.go' -exec gofmt -l -w {} + | sed 's|^|formatted |'
fi
