# Runs of macaroond with no proof, by the toolchain's `rt try`, for scripts that read this in. Each case of a
# folder is run, in the order of their names; what it prints comes once it has ended.
# shellcheck shell=sh

# A case of a folder: its name, and the words of macaroond, each on a line.
unproved_case() {
    mkdir -p "$1/cases"
    [ -e "$1/cases/$2" ] || : > "$1/cases/$2"
    case_file=$1/cases/$2.args
    shift 2
    printf '%s\n' "$@" > "$case_file"
}

# Runs the cases of a folder in a tree, with what they print in the folder's files `printed` and `said`, until it is told
# to end. An interrupt of the terminal isn't the toolchain's: of two signals it would lose what it has started.
run_unproved() {
    cd "$2/crates/macaroond" || exit 1
    setsid rt try --steps 1 --seconds 86400 --cases "$1/cases" > "$1/printed" 2> "$1/said" &
    trial=$!
    trap 'kill $trial; wait $trial; exit' TERM
    trap '' INT
    wait $trial
}

# Waits until the socket is there, as long as the run is: what the daemon prints comes too late to tell.
await_socket() {
    while [ ! -S "$2" ]; do
        kill -0 "$1" 2> /dev/null || return 1
        sleep 0.1
    done
}
