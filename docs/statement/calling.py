"""docs/CALLING.md, which is written by hand: each function of crates/callers that it shows stands there so, letter by letter."""

import re

from definitions import TOP, fail

PAGE = TOP / "docs/CALLING.md"
BLOCK = re.compile(r"^```rust\n(.*?)^```", re.MULTILINE | re.DOTALL)
FUNCTION = re.compile(r"^(?:pub(?:\(crate\))? )?fn (\w+)", re.MULTILINE)


def check_shown():
    """It is said of what it shows otherwise, and then nothing is printed or written."""
    sources = "".join(path.read_text() for path in sorted(TOP.glob("crates/callers/src/*.rt")))
    called = set(FUNCTION.findall(sources)) - {"main"}
    for block in BLOCK.findall(PAGE.read_text()):
        for part in re.split(r"\n\n(?=\S)", block.strip()):
            for name in called.intersection(FUNCTION.findall(part)):
                if part not in sources:
                    fail(f"docs/CALLING.md shows `{name}` otherwise than crates/callers has it")
