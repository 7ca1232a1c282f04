#!/usr/bin/env bash
# Hammers the pool on two processors: a short run within 30 seconds, and one of 1,000,320 posts.
set -eu
cd "$(dirname "$0")/../.."
if [ ! -x bin/try_pool ]; then
    echo "no bin/try_pool: run make build-runs first, which proves and builds it" >&2
    exit 1
fi

# hammer SECONDS ROUNDS POSTS: so many rounds, within so many seconds, put and claim so many posts.
hammer() {
    local told begun=$SECONDS
    told=$(timeout "$1" taskset --cpu-list 0,1 bin/try_pool "hammer:$2") || {
        echo "$2 rounds did not end within $1 seconds" >&2
        exit 1
    }
    echo "$2 rounds: $told, in $((SECONDS - begun)) seconds"
    [ "$told" = "put $3 claimed $3 left 0" ]
}

hammer 30 40 19200
hammer 1800 2084 1000320
