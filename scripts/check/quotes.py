"""Code that pages quote stands in what the gate runs."""
import textwrap

from check import sessions
from common import TOP

# The pages on calling a crate, and what they quote.
CALLING = [str(page.relative_to(TOP)) for page in sorted(TOP.glob("crates/*/CALLING.md"))]
ROWS = ["crates/try_cases/src/*.rt"]
# Each page with the language of its blocks, and the files of which one has to have each of them.
SOURCES = {
    **{(page, "rust"): ROWS for page in CALLING},
    ("README.md", "python"): ["examples/service.py"],
    ("docs/FORMATS.md", "python"): ["examples/ask.py"],
    ("crates/mac_loop/PROMISES.md", "rust"): ["crates/mac_loop/src/port.rt"],
    ("clients/README.md", "python"): ["examples/service.py"],
    ("clients/README.md", "go"): ["clients/go/readme_test.go", "examples/service_go/main.go"],
}


def is_quoted(block, text):
    """Whether the text has the block, as it is or inside a function of Go."""
    return block in text or textwrap.indent(block, "\t") in text


def unfound(page, language, sources):
    """The page's blocks that stand in none of these sources, and how many it has.

    Sessions are no quotes.
    """
    texts = [path.read_text() for pattern in sources for path in TOP.glob(pattern)]
    quoted = [block for block in sessions.blocks(page, language) if not block.startswith(">>>")]
    left = [block for block in quoted if not any(is_quoted(block, text) for text in texts)]
    named = f"{page} quotes what stands nowhere:"
    return [f"{named}\n{textwrap.indent(block, '  ')}" for block in left], len(quoted)


def faults():
    """Which quoted blocks stand nowhere, and how many blocks there are."""
    found = [unfound(*page, sources) for page, sources in SOURCES.items()]
    return [fault for faults, _ in found for fault in faults], sum(count for _, count in found)
