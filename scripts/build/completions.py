#!/usr/bin/env python3
"""The completions for bash and zsh, made from what `macaroond --help` says; and whether those in
packaging/ are these, and complete what they should."""
import os
import pathlib
import re
import shutil
import subprocess
import sys
import tempfile
import typing

sys.path.insert(0, str(pathlib.Path(__file__).resolve().parents[1]))
from common import TOP, programs, runs

PACKAGING = TOP / "packaging"
BASH, ZSH = PACKAGING / "macaroond.bash", PACKAGING / "_macaroond"
# What an option takes, by the name that help has for its value. Help says these words too.
CHOICES = {"FORM": ["v1-text", "v2-text", "v2-binary", "v2-json"], "DIGITS": ["600", "660", "666"]}
FILES = {"FILE", "PATH"}
# The option whose value is one of the names in the file of another one.
KEY, KEYS = "--key", "--keys"
# A name of the key file, by its letters alone: a file may come from elsewhere.
NAMES = r"s/^key \([A-Za-z0-9._-]\{1,64\}\) .*/\1/p"


class Option(typing.NamedTuple):
    """An option, the name of its value (empty: it takes none), and what it is for."""

    name: str
    value: str
    about: str

    def choices(self):
        return CHOICES.get(self.value, [])

    def is_repeated(self):
        return "may be given often" in self.about


class Command(typing.NamedTuple):
    """A subcommand, what it does, its options, and the words that it takes without a name, as help has them: one in
    square brackets may be left out."""

    name: str
    about: str
    options: typing.Sequence[Option]
    words: typing.Sequence[str]


def help_of(*words):
    command = [runs.PROGRAM, *words, "--help"]
    return subprocess.run(command, capture_output=True, text=True, check=True).stdout


def section(text, title):
    """The lines of a part of the help, without the blanks in front."""
    found = re.search(rf"^{title}:\n((?:  +.*\n?)*)", text, re.MULTILINE)
    return [line.strip() for line in found[1].splitlines()] if found else []


def options_of(text):
    pattern = re.compile(r"(?:-\w, )?(--[\w-]+)(?: <(\w+)>)?(?:\.\.\.)?\s+(.*)")
    return [Option(*(part or "" for part in pattern.fullmatch(line).groups())) for line in section(text, "Options")]


def commands():
    """Each subcommand, as its help tells it."""
    named = [line.split(maxsplit=1) for line in section(help_of(), "Commands")]
    for name, about in named:
        text = help_of(name)
        words = [re.match(r"<\w+>|\[\w+\]", line)[0] for line in section(text, "Arguments")]
        yield Command(name, about, options_of(text), words)


def distinct(found):
    """Each option once, whatever the subcommands that have it."""
    options = {}
    for option in (option for command in found for option in command.options):
        known = options.setdefault(option.name, option)
        if known.choices() != option.choices() or (known.value in FILES) != (option.value in FILES):
            raise SystemExit(f"{option.name} takes values of two kinds")
        lacking = [word for word in option.choices() if not re.search(rf"\b{word}\b", option.about)]
        if lacking:
            raise SystemExit(f"the help of {option.name} doesn't say {' or '.join(lacking)}")
    return list(options.values())


def bash(found):
    """The completion for bash."""
    options = [option for option in distinct(found) if option.value]
    files = " | ".join(option.name for option in options if option.value in FILES)
    chosen = [f"        {option.name}) words=({' '.join(option.choices())}) ;;" for option in options if option.choices()]
    free = [option.name for option in options if option.value not in FILES and not option.choices() and option.name != KEY]
    each = [f"                    {it.name}) words=({' '.join(option.name for option in it.options)}) ;;" for it in found]
    first = " ".join([*(it.name for it in found), *(option.name for option in options_of(help_of()))])
    return f"""# bash completion for macaroond, made by scripts/build/completions.py

# The names in the key file that the line gives.
_macaroond_key_names() {{
    local index file=
    for ((index = 1; index < COMP_CWORD; index++)); do
        [[ ${{COMP_WORDS[index]}} == {KEYS} ]] && file=${{COMP_WORDS[index + 1]}}
    done
    [[ -f $file && -r $file ]] && LC_ALL=C sed -n '{NAMES}' < "$file" | LC_ALL=C sort -u
}}

_macaroond() {{
    local word=${{COMP_WORDS[COMP_CWORD]}} before=${{COMP_WORDS[COMP_CWORD - 1]}} words=() offered
    COMPREPLY=()
    case $before in
        {files})
            mapfile -t COMPREPLY < <(compgen -f -- "$word")
            compopt -o filenames 2> /dev/null
            return
            ;;
{chr(10).join(chosen)}
        {KEY}) mapfile -t words < <(_macaroond_key_names) ;;
        {" | ".join(free)}) return ;;
        *)
            if ((COMP_CWORD == 1)); then
                words=({first})
            else
                case ${{COMP_WORDS[1]}} in
{chr(10).join(each)}
                esac
            fi
            ;;
    esac
    # What compgen -W is given is expanded: commands in it are run.
    for offered in "${{words[@]}}"; do
        [[ $offered == "$word"* ]] && COMPREPLY+=("$offered")
    done
}}
complete -F _macaroond macaroond
"""


def quoted(text):
    """The text within single quotes, for a description of zsh: its colons and brackets are no signs."""
    return re.sub(r"([][:\\])", r"\\\1", re.sub(r" \[default: .*\]", "", text)).replace("'", "'\\''")


def zsh_option(option):
    action = ""
    if option.value:
        how = "_files" if option.value in FILES else "_macaroond_key_names" if option.name == KEY else ""
        how = f"({' '.join(option.choices())})" if option.choices() else how
        action = f":{option.value.lower()}:{how}"
    return f"'{'*' * option.is_repeated()}{option.name}[{quoted(option.about)}]{action}'"


def zsh_case(command):
    words = [f"'{place}{'::' if word[0] == '[' else ':'}{word[1:-1].lower()}:'" for place, word in enumerate(command.words, 1)]
    lines = " \\\n            ".join([*map(zsh_option, command.options), *words])
    return f"    {command.name})\n        _arguments \\\n            {lines}\n        ;;"


def zsh(found):
    """The completion for zsh."""
    described = "\n".join(f"    '{command.name}:{quoted(command.about)}'" for command in found)
    first = "\n".join(f"    '{option.name}:{quoted(option.about)}'" for option in options_of(help_of()))
    return f"""#compdef macaroond
# zsh completion for macaroond, made by scripts/build/completions.py

local -a commands=(
{described}
)
local -a options=(
{first}
)

# The names in the key file that the line gives.
_macaroond_key_names() {{
    local file=${{opt_args[{KEYS}]}}
    [[ -f $file && -r $file ]] && compadd -- ${{(f)"$(LC_ALL=C sed -n '{NAMES}' < $file | LC_ALL=C sort -u)"}}
}}

if (( CURRENT == 2 )); then
    _describe command commands
    _describe option options
    return
fi

local command=$words[2]
shift words
(( CURRENT-- ))
case $command in
{chr(10).join(map(zsh_case, found))}
esac
"""


def made():
    """Both files, with what they have to hold."""
    found = list(commands())
    return {BASH: bash(found), ZSH: zsh(found)}


# What bash is asked to complete: the words of the line stand in COMP_WORDS.
ASK_BASH = """
source "$1"
shift
COMP_WORDS=("$@")
COMP_CWORD=$(($# - 1))
_macaroond
printf '%s\\n' "${COMPREPLY[@]}"
"""

# Stand-ins for what zsh's completion calls, which print what they are given.
ASK_ZSH = """
_arguments() { print -rl -- "$@" }
_describe() { print -rl -- "${(P)2[@]}" }
file=$1
shift
words=("$@")
CURRENT=$#
complete_it() { source $file }
complete_it
"""


# The same for the names of a key file, which zsh itself finds among the words of the line.
ASK_ZSH_NAMES = """
_arguments() { typeset -gA opt_args=(KEYS $key_file); _macaroond_key_names }
compadd() { print -rl -- "${@[2,-1]}" }
file=$1 key_file=$5
shift
words=("$@")
CURRENT=$#
complete_it() { source $file }
complete_it
""".replace("KEYS", KEYS)


def asked(shell, script, file, words, folder=None):
    """What the shell prints for a line of these words, the last of which is completed."""
    command = [*shell, "-c", script, "ask", file, *words]
    run = subprocess.run(command, capture_output=True, text=True, errors="replace", cwd=folder)
    return sorted(line for line in (run.stdout + run.stderr).splitlines() if line)


# Key files that come from elsewhere, and the names that are completed of each. `MARK` is a file
# that only a command in a name makes.
HOSTILE = {
    "a command": ("key $(touch${IFS}MARK) 00\n", []),
    "backquotes": ("key `touch${IFS}MARK` 00\n", []),
    "a command behind a name": ("key bank;touch${IFS}MARK 00\nkey bank&&touch${IFS}MARK 00\n", []),
    "a command in a value": ("key bank 00ff\nkey ${x:=$(touch${IFS}MARK)} 00\n", ["bank"]),
    "arithmetic": ("key $((a[$(touch${IFS}MARK)])) 00\nkey a[$(touch${IFS}MARK)] 00\n", []),
    "processes": ("key <(touch${IFS}MARK) 00\nkey =(touch${IFS}MARK) 00\n", []),
    "flags of zsh": ("key ${(e):-$(touch${IFS}MARK)} 00\nkey *(e:touch${IFS}MARK:) 00\n", []),
    "globs": ("key * 00\nkey ? 00\nkey [k]eys 00\nkey ~root 00\nkey {a,b} 00\n", []),
    "quotes": ("key 'a 00\nkey \"a 00\nkey $'a' 00\nkey \\a 00\n", []),
    "lines": ("key a\nb 00\nkey bank\r 00\n key shop 00\nkey\tshop 00\n", []),
    "controls": ("key a\x1b[2J 00\nkey \x07 00\nkey a\0b 00\n", []),
    "letters": ("key é 00\nkey \udcff 00\nkey bank 00\n", ["bank"]),
    "options": ("key -n 00\nkey -- 00\nkey -J 00\nkey shop.b_2-x 00\n", ["--", "-J", "-n", "shop.b_2-x"]),
    "lengths": (f"key {'a' * 65} 00\nkey {'b' * 64} 00\nkey  00\nkey c\n", ["b" * 64]),
}


def hostile_rows(shell, ask):
    """What is completed of key files that come from elsewhere, and what commands in them left."""
    for name, (text, due) in HOSTILE.items():
        with tempfile.TemporaryDirectory() as folder:
            keys, mark = pathlib.Path(folder) / "keys", pathlib.Path(folder) / "mark"
            keys.write_bytes(text.replace("MARK", str(mark)).encode("utf-8", "surrogateescape"))
            yield f"{shell}: {name} in a key file", ask(keys, folder), due
            yield f"{shell}: {name} in a key file leaves", sorted(set(os.listdir(folder)) - {"keys"}), []


def bash_rows(found):
    """A line, what is completed there, and what should be."""
    complete = lambda *words: asked(["bash", "--norc"], ASK_BASH, BASH, ["macaroond", *words])
    first = [command.name for command in found] + [option.name for option in options_of(help_of())]
    yield "first word", complete(""), sorted(first)
    for command in found:
        names = sorted(option.name for option in command.options)
        yield f"bash: {command.name} --", complete(command.name, "--"), names
        for option in command.options:
            if option.choices():
                yield f"bash: {option.name}", complete(command.name, option.name, ""), sorted(option.choices())
    with tempfile.TemporaryDirectory() as folder:
        keys = pathlib.Path(folder) / "keys"
        keys.write_text("key bank 00\nkey bank 01\n# key note 02\nkey shop 03\n")
        yield "bash: a file", complete("mint", KEYS, f"{folder}/k"), [str(keys)]
        yield "bash: a key", complete("mint", KEYS, str(keys), KEY, ""), ["bank", "shop"]
        yield "bash: a key's first letter", complete("mint", KEYS, str(keys), KEY, "s"), ["shop"]
        yield "bash: a pattern", complete("mint", KEYS, str(keys), KEY, "*"), []
        yield "bash: a text", complete("mint", "--location", ""), []
        yield "bash: a folder for a key file", complete("mint", KEYS, folder, KEY, ""), []
    yield from hostile_rows("bash", lambda keys, folder: asked(
        ["bash", "--norc"], ASK_BASH, BASH, ["macaroond", "mint", KEYS, keys, KEY, ""], folder))


def zsh_rows(found):
    complete = lambda *words: asked(["zsh", "-f"], ASK_ZSH, ZSH, ["macaroond", *words])
    first = [command.name for command in found] + [option.name for option in options_of(help_of())]
    yield "zsh: first word", sorted(line.split(":")[0] for line in complete("")), sorted(first)
    for command in found:
        names = sorted(option.name for option in command.options)
        told = [re.match(r"\*?(--[\w-]+)\[", line) for line in complete(command.name, "--")]
        yield f"zsh: {command.name}", sorted(match[1] for match in told if match), names
    yield from hostile_rows("zsh", lambda keys, folder: asked(
        ["zsh", "-f"], ASK_ZSH_NAMES, ZSH, ["macaroond", "mint", KEYS, keys, KEY, ""], folder))


def faults():
    """What is otherwise than help says, how many lines were completed, and what wasn't tried."""
    found = list(commands())
    wrong = [f"{file.relative_to(TOP)} isn't what --help says: make completions, after make build"
             for file, text in made().items() if not file.exists() or file.read_text() != text]
    has_zsh = shutil.which("zsh") is not None
    rows = [*bash_rows(found), *(zsh_rows(found) if has_zsh else [])]
    wrong += [f"{what} completes {got} where {due} is due" for what, got, due in rows if got != due]
    return wrong, len(rows) + 2, [] if has_zsh else ["zsh isn't there to read its completion"]


def main():
    programs.stop_unless_built("macaroond")
    for file, text in made().items():
        file.write_text(text)


if __name__ == "__main__":
    main()
