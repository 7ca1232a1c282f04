#!/bin/sh
# What Git asks before a commit, once `make hook` has put it there, in some twenty seconds: that the layout
# of the crates is that of `make fmt`, that the pages that are made of other files are up to date, that all
# wrong bodies still apply, and that no linter has anything to say. `git commit --no-verify` goes past it.
set -eu
cd "$(git rev-parse --show-toplevel)"
changed=$(git diff --cached --name-only --diff-filter=d -- 'crates/*' | cut -d / -f 2 | sort -u)
if [ -n "$changed" ] && command -v rt > /dev/null; then
    # A crate's name has no space.
    # shellcheck disable=SC2086
    formatted=$(scripts/fmt.sh $changed)
    if [ -n "$formatted" ]; then
        echo "$formatted"
        echo "git add these, and commit again"
        exit 1
    fi
fi
# A commit made in a hook's surroundings is not this repository's alone.
unset GIT_INDEX_FILE GIT_DIR
exec scripts/outside.py covering promises costs pages quotes unused "wrong bodies apply" \
    "lint of Python" "lint of shells" "lint of Go"
