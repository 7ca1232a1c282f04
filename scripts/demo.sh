#!/bin/sh
# Runs README's sessions step by step and says in words what each does; then `macaroond pipe` prints
# the token of libmacaroons' README. By bin/macaroond where it is built, else the daemon's session
# alone, by an unproved run of the toolchain. It ends with 1 where a step prints otherwise than
# README shows.
set -eu
top=$(cd "$(dirname "$0")/.." && pwd)
folder=$(mktemp -d)
trap 'kill ${!:-} 2> /dev/null || :; rm -rf "$folder"' EXIT
input=$top/crates/macaroond/stdin
. "$top/scripts/common/unproved.sh"

tell() {
    printf '\n%s\n\n' "$*"
}

# What a command of README does.
words() {
    case $1 in
        *" keygen "*) echo "A service makes a key, under the name \`bank\`:" ;;
        *"macaroond mint"*)
            echo "It mints a token for alice. Whoever holds it may use all of the account:" ;;
        *"macaroond attenuate"*)
            echo "Alice narrows it, which takes no key. It may read, and ends with the century:" ;;
        *"macaroond verify"*read*)
            echo "Somebody brings the narrow token to read, and the service says so:" ;;
        *"macaroond verify"*)
            echo "To write is another action. The first caveat, number 0, doesn't hold:" ;;
        *" listen "*) echo "The same by a daemon, which answers over a Unix socket:" ;;
        while*) echo "It prints a line once clients can connect. A script waits for that:" ;;
        "service()"*) echo "A client, in Python:" ;;
        "service mint"*) echo "The daemon mints a token for alice:" ;;
        "service attenuate"*) echo "It narrows it for her:" ;;
        *" owner "*) echo "Whose it is, is told in hexadecimal: alice, at http://mybank/:" ;;
        *" verify "*read*)
            echo "The narrow token is brought to read. A verify tells the moment too:" ;;
        *" verify "*) echo "It is brought to write:" ;;
        kill*) echo "The daemon is stopped:" ;;
        *) echo "Then:" ;;
    esac
}

# The commands of README's sessions, each in a file, and what it prints in another one.
cut_steps() {
    awk -v to="$folder/step" '
        /^```/ { inside = $0 == "```shell-session"; next }
        !inside { next }
        /^\$ / {
            file = sprintf("%s.%02d", to, ++count)
            print substr($0, 3) > file
            printf "" > (file ".due")
            next
        }
        { print > (file ".due") }' "$top/README.md"
}

# Does a step, and shows it with what it prints; of a token that it puts into a file, the file.
do_step() {
    command=$(cat "$1")
    tell "$(words "$command")"
    printf '    $ %s\n' "$command"
    eval "$command" > "$1.came" 2>&1 || :
    sed 's/^/    /' "$1.came"
    # The commands that it runs set these.
    # shellcheck disable=SC2154
    case $command in
        *"> token") sed 's/^/    /' token ;;
        *"> narrow") sed 's/^/    /' narrow ;;
    esac
    if ! cmp -s "$1.due" "$1.came"; then
        echo "README shows otherwise:"
        cat "$1.due"
        [ ! -e said ] || tail -n 20 said
        exit 1
    fi
}

# Without a build the daemon's steps alone are run, by one compilation: it answers the pipe's input
# first, and then listens until the session ends it.
stand_in() {
    tell "macaroond isn't built (make build), so this is a run with no proof, by \`rt try\`." \
        "It is compiled first, in a minute or two."
    cp "$top/examples/keys" keys
    chmod 600 keys
    mkdir bin cases
    cp "$input" cases/1
    unproved_case "$folder" 1 pipe
    unproved_case "$folder" 2 listen --socket "$folder/socket" --keys "$folder/keys"
    cat > bin/macaroond <<END
#!/bin/sh
. "$top/scripts/common/unproved.sh"
run_unproved "$folder" "$top" &
running=\$!
trap 'kill \$running; wait; exit' TERM
await_socket "\$running" "$folder/socket" || exit 1
echo "listening at ./socket:"
wait
END
    chmod +x bin/macaroond
    for step in step.??; do
        case $(cat "$step") in
            *" listen "* | while* | *service* | kill*) ;;
            *) rm "$step" ;;
        esac
    done
}

cd "$folder"
cut_steps
ln -s "$top/examples" examples
if [ -x "$top/built/macaroond" ]; then
    ln -s "$top/bin" bin
    bin/macaroond pipe < "$input" > piped
elif command -v rt > /dev/null; then
    stand_in
    ln -s printed piped
else
    echo "macaroond isn't built, and the toolchain's command \`rt\` is not on the path: without"
    echo "either there is nothing to run. README says which toolchain it is (What is trusted)."
    exit 1
fi
for step in step.??; do
    do_step "$step"
done
tell "\`macaroond pipe\` answers a file: key lines, an empty line, and requests in hexadecimal."
sed 's/^/    /' "$input"
answer=$(grep '^token ' piped)
printf '\n    %s\n\n' "$answer"
if [ "$answer" != "$(cat "$top/crates/macaroond/stdout")" ]; then
    echo "It isn't the token that libmacaroons' README prints for this secret and identifier."
    exit 1
fi
echo "It is the token that libmacaroons' README prints for this secret and identifier."
