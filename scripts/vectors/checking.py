"""What the gate asks of the vectors: that they are what `try_cases` answers, fit their schema, and that we pass them."""
import json

from vectors import board, make, ours, rows, rules, wrong_readers

MANY = 1_500


def made_faults():
    """The vectors are made anew and compared; and how many rows there are."""
    texts, ledger = make.made()
    found = rules.faults() + make.differing(texts, ledger) + number_faults()
    count = len(board.rows())
    return found + ([] if count >= MANY else [f"there are {count} rows, fewer than {MANY:,}"]), count


def number_faults():
    """Numbers that two rows have, and lines of the ledger out of their order."""
    lines = [line.split() for line in rows.LEDGER.read_text().splitlines()]
    numbers, digests = [int(number) for number, _ in lines], {digest for _, digest in lines}
    found = [] if numbers == list(range(1, len(numbers) + 1)) else ["scripts/vectors/numbers.txt doesn't count from 1 on"]
    return found + ([] if len(digests) == len(lines) else ["scripts/vectors/numbers.txt has a row twice"])


def schema_faults():
    """What in the files doesn't fit vectors/schema.json, by Debian's python3-jsonschema."""
    try:
        import jsonschema
    except ImportError:
        return [], 0, ["python3-jsonschema isn't installed (scripts/install_peers.sh)"]
    schema = json.loads((make.FOLDER / "schema.json").read_text())
    jsonschema.Draft202012Validator.check_schema(schema)
    validator, found = jsonschema.Draft202012Validator(schema), []
    for name in make.FILES:
        content = json.loads((make.FOLDER / f"{name}.json").read_text())
        found += [f"vectors/{name}.json, {error.json_path}: {error.message:.200}" for error in validator.iter_errors(content)][:5]
    others = {path.stem for path in make.FOLDER.glob("*.json")} - {*make.FILES, "schema"}
    return found + [f"vectors/{name}.json is made by nothing" for name in sorted(others)], len(board.rows())


def pipe_faults():
    """What the pipe answers otherwise than the rows say, and how many requests were made."""
    return ours.faults(board.rows())


# The parts of scripts/outside.py, by their names.
PARTS = {
    "vectors": made_faults,
    "schema of vectors": schema_faults,
    "pipe and vectors": pipe_faults,
    "conformance": board.faults,
    "wrong readers": wrong_readers.faults,
}
