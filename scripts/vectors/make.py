#!/usr/bin/env python3
"""Makes the vectors anew: vectors/*.json, from the rows of this folder and the answers of `try_cases`.

    make.py           writes the files, and the numbers of new rows into numbers.txt
    make.py --check   writes nothing, and tells what would become another
"""
import json
import pathlib
import sys
import time

sys.path.insert(0, str(pathlib.Path(__file__).resolve().parents[1]))
from common import TOP
from vectors import asking, bound_rows, chain_rows, json_rows, limit_rows, made_rows, packet_rows, reading_rows, rules, third_party_rows
from vectors import v1_rows, v2_rows, verdict_rows
from vectors.rows import LEDGER, numbered, write_ledger

FOLDER = TOP / "vectors"
# Each file, what it is about, and the modules that have its rows.
FILES = {
    "reading": ("Tokens read: each form, each limit, each refusal.", [reading_rows, v1_rows, v2_rows, limit_rows]),
    "json": ("V2 JSON read.", [json_rows]),
    "packets": ("V1 packets and V2 binary, by byte.", [packet_rows]),
    "third_party": ("Third-party caveats, as far as a reader has to recognise them.", [third_party_rows]),
    "chains": ("HMACs, root keys and signatures.", [chain_rows]),
    "making": ("Tokens written and narrowed.", [made_rows]),
    "verdicts": ("Verdicts on tokens, facts and moments.", [verdict_rows]),
    "bounds": ("Caveats that are bounds of time.", [bound_rows]),
}


def asked():
    """The rows of each file; of those that give the same the first."""
    seen, found = set(), {}
    for name, (_, modules) in FILES.items():
        fresh = []
        for row in (row for module in modules for row in module.rows()):
            if row.identity() not in seen:
                fresh.append(row)
            seen.add(row.identity())
        found[name] = fresh
    return found


def lines_of(rows):
    """The cases of all rows, with the places of the rows that each is of."""
    alone = [([at], line) for at, row in enumerate(rows) for line in asking.lines_of(row)]
    return alone + asking.together(rows)


def results(rows):
    """The answer to each row."""
    cases = lines_of(rows)
    answers = asking.answers_of([line for _, line in cases])
    if len(answers) != len(cases):
        raise SystemExit(f"try_cases gave {len(answers)} answers to {len(cases)} cases")
    told = [[] for _ in rows]
    for (places, line), answer in zip(cases, answers):
        if len(places) > 1 or line.startswith("answers "):
            check_together(places, told, answer)
        else:
            told[places[0]].append(answer)
    return [asking.result_of(row, it) for row, it in zip(rows, told)]


def check_together(places, told, answer):
    """What is answered together is what is answered to each alone."""
    if answer != "".join(told[at][0] for at in places):
        raise asking.Disagreement(f"other verdicts together: {answer}")


def object_of(number, row, result):
    """A row as its file has it."""
    made = {"number": number, "kind": row.kind, "about": row.about, "place": rules.place(row.rule), "rule": rules.words(row.rule)}
    if row.own:
        made["own"] = row.own
    if row.known:
        made["known"] = list(row.known)
    return {**made, "given": row.shown(), "result": result}


def text_of(name, objects):
    """A file's text: a row a line."""
    head = json.dumps({"schema": "schema.json", "about": FILES[name][0]})[:-1]
    rows = ",\n".join(json.dumps(it, ensure_ascii=False) for it in objects)
    return f'{head}, "rows": [\n{rows}\n]}}\n'


def made():
    """The text of each file, and the ledger of numbers."""
    files = asked()
    rows = [row for it in files.values() for row in it]
    answers = {row.identity(): result for row, result in zip(rows, results(rows))}
    numbers_of, ledger = numbered(files)
    texts = {}
    for name, found in numbers_of.items():
        texts[name] = text_of(name, [object_of(number, row, answers[row.identity()]) for number, row in found])
    return texts, ledger


def differing(texts, ledger):
    """What the files as they lie there have otherwise."""
    found = [f"vectors/{name}.json is not what make.py makes" for name, text in texts.items() if not has(FOLDER / f"{name}.json", text)]
    lines = "".join(f"{number} {digest}\n" for digest, number in sorted(ledger.items(), key=lambda it: it[1]))
    return found + ([] if has(LEDGER, lines) else ["scripts/vectors/numbers.txt lacks new rows"])


def has(path, text):
    return path.exists() and path.read_text() == text


def main():
    begin = time.monotonic()
    texts, ledger = made()
    if "--check" in sys.argv:
        found = differing(texts, ledger)
        print("\n".join([*found, f"{len(texts)} files made, {len(found)} faults"]))
        sys.exit(1 if found else 0)
    FOLDER.mkdir(exist_ok=True)
    for name, text in texts.items():
        (FOLDER / f"{name}.json").write_text(text)
    write_ledger(ledger)
    print(f"{len(texts)} files of {sum(text.count(chr(10)) - 2 for text in texts.values())} rows, {time.monotonic() - begin:.0f} s")


if __name__ == "__main__":
    main()
