"""docs/AUDIT.md, which is written by hand: how many lines its files have, where definitions stand in them, and what it quotes."""

import re

from definitions import TOP, fail

GUIDE = TOP / "docs/AUDIT.md"
FILE = re.compile(r"`((?:\w+/)*)(\w+\.(?:antt|rt))`(?:( \(|, )\d+(?=\)| lines))?")
BLOCK = re.compile(r"^```\n(.*?)^```", re.MULTILINE | re.DOTALL)
LINK = re.compile(r"\[`(\w+)`\]\(\.\./crates/([\w/]+\.(?:antt|rt))#L\d+\)")
EXAMPLE = re.compile(r"\| `([^`]+)` \(`(\w+/specs/\w+\.antt)`\) \|")


def lines_of(path):
    """The text of a file of crates/, which has to be there."""
    file = TOP / "crates" / path
    return file.read_text() if file.is_file() else fail(f"docs/AUDIT.md names a file that isn't there: crates/{path}")


def counted(text):
    """The page with the count of each file that it counts. A file without a folder is of the folder named last."""
    folder = ""

    def count(match):
        nonlocal folder
        folder = match[1] or folder
        lines = lines_of(folder + match[2]).count("\n")
        return f"`{match[1]}{match[2]}`" + (f"{match[3]}{lines}" if match[3] else "")

    return FILE.sub(count, text)


def linked(text):
    """The page with the line at which each definition stands that it links to."""

    def link(match):
        name, path = match.groups()
        found = re.search(rf"^(?:abbrev pub|unfoldable pub|pub record|pub fn|fn) {name}\b", lines_of(path), re.MULTILINE)
        if not found:
            fail(f"docs/AUDIT.md links to what crates/{path} doesn't define: {name}")
        return f"[`{name}`](../crates/{path}#L{found.string.count(chr(10), 0, found.start()) + 1})"

    return LINK.sub(link, text)


def guide():
    """The page as it is to be. It is said of what it quotes or links to and no source has, and then nothing is printed or written."""
    text = GUIDE.read_text()
    for quoted, path in EXAMPLE.findall(text):
        if quoted not in lines_of(path):
            fail(f"docs/AUDIT.md quotes what crates/{path} doesn't have: {quoted}")
    sources = "".join(path.read_text() for path in TOP.glob("crates/*/specs/*.antt"))
    for block in BLOCK.findall(text):
        if block not in sources:
            fail(f"docs/AUDIT.md quotes what no file of specs/ has: {block.splitlines()[0]}")
    return linked(counted(text))
