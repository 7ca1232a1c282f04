#!/usr/bin/env python3
"""Reads the machine code by which signatures are compared, in each program of libexec/macaroond/.

    same_code.py [PROGRAM ..]     these programs, which tells how long the comparison is

It is `same` of mac_hmac, a function of its own in each program. It has no branch, no call and no repeated
instruction: so it has one course for all bytes. Asks for objdump and as (package binutils).
"""
import pathlib
import re
import shutil
import subprocess
import sys
import tempfile
import typing

sys.path.insert(0, str(pathlib.Path(__file__).resolve().parents[1]))
from build import build
from common import TOP

SAME = "mac_hmac::signature::same"
HEAD = re.compile(r"^[0-9a-f]+ <(.*)>:$")
LINE = re.compile(r"^\s*[0-9a-f]+:\s+(\S+)(?:\s+(.*?))?\s*$")
LEAVES = ("j", "call", "loop", "ret", "rep", "xbegin")


class Step(typing.NamedTuple):
    """An instruction: its word and what it works on."""

    word: str
    of: str

    def leaves(self):
        """Whether what is run behind it may be something else than the next instruction."""
        return self.word.startswith(LEAVES)


def instructions(program):
    """Those of `same`: none where the program hasn't it as a function of its own."""
    command = ["objdump", "-d", "--no-show-raw-insn", "--section=.text", program]
    printed = subprocess.run(command, stdout=subprocess.PIPE, text=True, errors="replace", check=True).stdout
    within = False
    for line in printed.splitlines():
        if head := HEAD.match(line):
            within = head[1] == SAME
        elif within and (step := LINE.match(line)):
            yield Step(step[1], step[2] or "")


def look(program):
    """What is wrong with how a program compares signatures, and how many instructions that takes."""
    steps = list(instructions(program))
    if not steps:
        return [f"`{SAME}` is no function of its own"], 0
    branches = [f"{step.word} {step.of}".strip() for step in steps if step.leaves() and step.word not in ("ret", "retq")]
    return [f"`{SAME}` may take another course: {it}" for it in branches], len(steps)


# Stand-ins for `same`, and whether they are to be taken.
WHOLE = """
    movdqu (%rdi), %xmm0
    movdqu 16(%rdi), %xmm1
    movdqu (%rsi), %xmm2
    pcmpeqb %xmm0, %xmm2
    movdqu 16(%rsi), %xmm0
    pcmpeqb %xmm1, %xmm0
    pand %xmm2, %xmm0
    pmovmskb %xmm0, %eax
    cmp $0xffff, %eax
    sete %al
    ret
"""
HALVES = """
    movdqu (%rdi), %xmm0
    movdqu (%rsi), %xmm1
    pcmpeqb %xmm0, %xmm1
    pmovmskb %xmm1, %eax
    cmp $0xffff, %eax
    jne .Lother
    movdqu 16(%rdi), %xmm0
    movdqu 16(%rsi), %xmm1
    pcmpeqb %xmm0, %xmm1
    pmovmskb %xmm1, %eax
    cmp $0xffff, %eax
.Lother:
    sete %al
    ret
"""
BYTES = """
    xor %ecx, %ecx
.Lnext:
    mov (%rdi,%rcx), %al
    cmp (%rsi,%rcx), %al
    jne .Lother
    inc %ecx
    cmp $32, %ecx
    jne .Lnext
.Lother:
    sete %al
    ret
"""
LIBRARY_CALL = "mov $32, %edx\n call memcmp\n test %eax, %eax\n sete %al\n ret\n"
STAND_INS = {
    "all bytes": (WHOLE, True),
    "one half and then the other": (HALVES, False),
    "byte by byte": (BYTES, False),
    "by the library": (LIBRARY_CALL, False),
}


def stand_in_faults(folder):
    """Whether the look takes what has one course, and nothing else."""
    for what, (body, is_taken) in STAND_INS.items():
        made = folder / "same.o"
        text = f'.type "{SAME}", @function\n"{SAME}":\n{body}'
        subprocess.run(["as", "-o", made, "-"], input=text, text=True, check=True)
        if (not look(made)[0]) != is_taken:
            yield f"{what}: {'refused' if is_taken else 'taken'}"


def programs():
    return [path for level in (build.OLDER, build.NEWER) if (path := build.PROGRAMS / level).exists()]


def missing():
    return [f"`{name}` isn't there" for name in ("objdump", "as") if shutil.which(name) is None]


def faults():
    """What is wrong, how many looks were taken, and what isn't there."""
    if lacking := missing():
        return [], 0, lacking
    found = [f"{path.relative_to(TOP)}: {it}" for path in programs() for it in look(path)[0]]
    with tempfile.TemporaryDirectory() as folder:
        found += stand_in_faults(pathlib.Path(folder))
    return found, len(programs()) + len(STAND_INS), []


if __name__ == "__main__":
    for path in sys.argv[1:] or programs():
        wrong, count = look(path)
        print(*(f"{path}: {it}" for it in [*wrong, f"{count} instructions"]), sep="\n")
