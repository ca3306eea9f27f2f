#!/usr/bin/env python3
"""Compares what the library makes of messages that go to new keys with what docs/FORMAT.md says, by judge.py, and with the program `esdk`.

    resealed.py vectors PROGRAM          every message of vectors/, by every cut and every room, byte by byte
    resealed.py mutants PROGRAM COUNT    altered messages, and such as the new keys refuse
    resealed.py refused PROGRAM          files of new keys that are refused, and what stands behind that
    resealed.py long PROGRAM BYTES       a long message
    ESDK=PROGRAM                         asks that program, too

PROGRAM is that of resealing.c, or the word `python` for bindings/python, which has no `refused`, and whose new messages are opened
by judge.py, since their random bytes are not known. It prints what was wrong, and at the end what was tried. Status: 1 where
something was wrong.
"""

from __future__ import annotations

import collections
import itertools
import json
import pathlib
import random
import sys
import tempfile
from dataclasses import dataclass
from typing import Any

sys.dont_write_bytecode = True

import judge  # noqa: E402
from asked import raw  # noqa: E402
from compare import ESDK, FIRST, SECOND, SIZES, altered, judged_of, key_file, originals, run, vectors, want, words_of, wrong  # noqa: E402
from judge import Given, Judged  # noqa: E402

NEW = ("esdk-vectors", "new", bytes(range(64, 96)))
OTHER = ("others", "new", bytes(range(96, 128)))
LINE = " ".join(("esdk-vectors", "new", NEW[2].hex())).encode()


def file_of(node: dict[str, Any]) -> bytes:
    return json.dumps({"version": 2, "ring": node}).encode()


# Files of new keys: a key line; two keys that wrap and one that doesn't; and two that can't begin a message.
TWO = file_of({"multi": {"generator": raw(NEW), "children": [raw(SECOND, retired=True), raw(OTHER)]}})
RETIRED, NO_GENERATOR = file_of(raw(NEW, retired=True)), file_of({"multi": {"children": [raw(NEW)]}})

# What is met in each run, and in runs of many altered messages.
ALWAYS, ALTERED = {"M10", "M11", "M12", "M13", "M15", "M23", "Q1", "Q5"}, {"M3", "M5", "M9", "M16", "M17", "M18", "M19", "M20", "M22"}


@dataclass
class Asked:
    """A message, what it is opened with, the file of the new keys, the frame length, how the message is passed, and random bytes,
    which the library draws itself where that is said."""

    message: bytes
    given: Given
    file: bytes = LINE
    frame: int = 1000
    way: tuple[int, int, int] = (65536, 65536, 0)
    random: bytes = b""
    draws: bool = False

    def wanted(self) -> Judged:
        return judge.resealed(self.message, self.given, self.file, self.frame, self.random)

    def text(self) -> bytes:
        given, (cut, room, lazy) = self.given, self.way
        drawn = b"" if self.draws else self.random
        line = f"{cut} {room} {lazy} {given.max_keys} {given.max_unit} {int(given.uncommitted)} {self.frame}"
        return f"{line} {len(self.file)} {len(drawn)} {len(self.message)}\n".encode() + self.file + drawn + self.message


def draws(file: bytes) -> int:
    """How many random bytes a message under these keys takes."""
    return 64 + 12 * len(judge.keyrings.active(judge.keyrings.read_tree(file, [])))


def without_context(judged: Judged) -> Judged:
    """Where the new keys refuse, nothing is said of the context."""
    return Judged(judged.code, judged.line, None, judged.text) if judged.code // 1000 == 6 else judged


def of_program(program: str, asked: list[Asked]) -> list[Judged]:
    """What the library says of each; they have their keys and their pairs in common."""
    given = asked[0].given
    with tempfile.TemporaryDirectory() as folder:
        words = [program, "many", key_file(pathlib.Path(folder), given.wrappings), *words_of(given)]
        status, output, report = run(words, b"".join(each.text() for each in asked))
    want("resealing many", (status, report), (0, ""))
    lines = output.decode().split("\n")[:-1]
    want("resealing many: a line for each", len(lines), len(asked))
    return [judged_of(line) for line in lines]


def is_at_once(asked: Asked) -> bool:
    """Whether bindings/python is asked by one call, which gives all or raises."""
    return asked.way[2] == 1


class Slow:
    """A source that gives so many bytes at a time."""

    def __init__(self, held: bytes, size: int) -> None:
        self.left, self.size = held, size

    def read(self, size: int) -> bytes:
        piece, self.left = self.left[: min(size, self.size)], self.left[min(size, self.size) :]
        return piece


def of_python(asked: Asked) -> Judged:
    """What bindings/python says: by one call, or by a stream that is read in rooms."""
    import esdk

    given, (cut, size, _) = asked.given, asked.way
    words: dict[str, Any] = {"allow_uncommitted": given.uncommitted, "frame_length": asked.frame}
    words |= {"encryption_context": given.pairs, "required_encryption_context_keys": given.required}
    words |= {"max_encrypted_data_keys": given.max_keys or None, "max_body_length": given.max_unit or None}
    with tempfile.TemporaryDirectory() as folder:
        words["keyring"] = esdk.Keyring.from_file(key_file(pathlib.Path(folder), given.wrappings))
    words["new_keyring"] = esdk.Keyring(asked.file)
    parts: list[bytes] = []
    try:
        if is_at_once(asked):
            moved, header = esdk.reseal(source=asked.message, **words)
            return Judged(0, "", header.encryption_context, moved)
        stream, room = esdk.stream(mode="r", source=Slow(asked.message, cut), **words), bytearray(size)
        while count := stream.readinto(room):
            parts.append(bytes(room[:count]))
        return Judged(0, "", stream.header.encryption_context, b"".join(parts))
    except esdk.EsdkError as error:
        return Judged(error.code, error.line, None, b"".join(parts))


def is_moved(what: str, asked: Asked, is_: Judged, wanted: Judged) -> None:
    """The same as is wanted, but for what was drawn: it opens under each of the new keys that wrap, to the same text and context."""
    want(f"{what}: the code, the line and the length", (is_.code, is_.line, len(is_.text)), (wanted.code, wanted.line, len(wanted.text)))
    if wanted.code:
        want(f"{what}: no whole message", judge.judge(is_.text, Given([NEW], asked.given.pairs)).code == 0, False)
        return
    old = judge.judge(asked.message, asked.given)
    want(f"{what}: the context that is told", is_.context, old.context)
    want(f"{what}: the frame length", judge.front(is_.text, False).frame, asked.frame)
    want(f"{what}: the stored pairs", judge.front(is_.text, False).stored, judge.front(asked.message, True).stored)
    for key in (NEW, OTHER) if asked.file == TWO else (NEW,):
        came = judge.judge(is_.text, Given([key], asked.given.pairs))
        want(f"{what}: the text and the context", came, Judged(0, "", old.context, old.text))
    want(f"{what}: the old keys", judge.judge(is_.text, Given([FIRST, SECOND], asked.given.pairs)).line, "M15 NoKeyOpens")


def compare(program: str, what: str, asked: list[Asked]) -> collections.Counter[str]:
    """Compares what the library says of each; answers how often each kind was seen."""
    seen: collections.Counter[str] = collections.Counter()
    came = [of_python(each) for each in asked] if program == "python" else of_program(program, asked)
    for at, (each, is_) in enumerate(zip(asked, came)):
        wanted = each.wanted()
        seen[wanted.line.split()[0] if wanted.line else "whole"] += 1
        if program == "python" and is_at_once(each) and wanted.code:
            want(f"{what} {at}", (is_.code, is_.line, is_.text), (wanted.code, wanted.line, b""))
        elif program == "python" or each.draws:
            is_moved(f"{what} {at}", each, is_, wanted)
        else:
            want(f"{what} {at}", without_context(is_), without_context(wanted))
        if ESDK:
            by_program(f"{what} {at}: the program", each, wanted)
    return seen


def by_program(what: str, asked: Asked, wanted: Judged) -> None:
    """What `esdk reseal` says, which has no limit of data keys."""
    given = asked.given
    if given.max_keys:
        return
    with tempfile.TemporaryDirectory() as name:
        folder = pathlib.Path(name)
        (folder / "new").write_bytes(asked.file)
        words = [str(ESDK), "reseal", "--keyring", key_file(folder, given.wrappings), "--to-keyring", str(folder / "new")]
        words += ["--frame", str(asked.frame)]
        words += ["--max-unit", str(given.max_unit)] if given.max_unit else []
        words += ["--allow-uncommitted"] if given.uncommitted else []
        status, moved, report = run([*words, *words_of(given)], asked.message)
    line = report.removeprefix("esdk: ") if status else ""
    code = judge.code_of(line, status * 1000) if status else 0
    is_moved(what, asked, Judged(code, line, None if status else json.loads(report), moved), wanted)


def shown(what: str, seen: collections.Counter[str]) -> str:
    return f"{sum(seen.values())} {what}: " + " ".join(f"{kind}:{number}" for kind, number in sorted(seen.items()))


def ways_of(program: str) -> list[tuple[int, int, int]]:
    """Each cut and each room; from C whole messages by one call, too, in little room and in much."""
    if program == "python":
        return [(1, 65536, 0), (65536, 1, 0), (15, 15, 0), (4095, 4096, 0), (65536, 65536, 0), (65536, 65536, 1)]
    return [*itertools.product(SIZES, SIZES, (0, 1)), (0, 1, 0), (0, 4096, 0), (0, 65536, 0)]


def try_vectors(program: str) -> str:
    some, seen = random.Random(10), collections.Counter[str]()
    for name, message, wrapping, text in vectors():
        given = Given([wrapping])
        asked = []
        for at, way in enumerate(ways_of(program)):
            file = (LINE, TWO)[at % 2]
            frame, drawn = some.choice((1, 1000, 4096, 5000, 70000)), some.randbytes(draws(file))
            asked.append(Asked(message, given, file, frame, way, drawn, draws=at % 5 == 4))
        seen += compare(program, f"{name}, way", asked)
        want(f"{name}: judge.py and the manifest", asked[0].wanted().line == "", text is not None)
    return shown("vectors resealed", seen)


def strange(some: random.Random) -> list[Asked]:
    """Messages that the new keys refuse, and such as have pairs that are only authenticated."""
    plain, pairs = Given([FIRST]), Given([FIRST], {"tenant": "acme", "set": "\u00e9"}, ("tenant",))
    hello = judge.seal(b"hello", plain, 3, some.randbytes(76))
    reserved = judge.seal(b"hello", Given([FIRST], {"aws-crypto-x": ""}), 3, some.randbytes(76))
    public = judge.seal(b"hello", Given([FIRST], {"aws-crypto-public-key": ""}), 3, some.randbytes(76))
    secret = judge.seal(some.randbytes(50), pairs, 7, some.randbytes(76))
    asked = [Asked(hello, plain, file) for file in (LINE, TWO, RETIRED, NO_GENERATOR)]
    asked += [Asked(message, plain) for message in (reserved, public, secret, hello[:-1], b"")]
    asked += [Asked(hello[:-1], plain, RETIRED), Asked(hello, Given([SECOND]), RETIRED)]
    for given in (pairs, Given([FIRST], {"tenant": "acme"}), Given([FIRST], {"tenant": "b"}), Given([FIRST], pairs.pairs, ("set", "tenant"))):
        asked += [Asked(secret, given, TWO, frame) for frame in (1, 10, 50, 4096)]
    asked += [Asked(secret, Given([FIRST], {"set": "b"})), Asked(secret, Given([FIRST], required=("tenant",)))]
    old = judge.seal_1_0(b"hello", Given([FIRST], {"set": "a"}), 2, some.randbytes(76))
    asked += [Asked(old, Given([FIRST], uncommitted=allowed)) for allowed in (False, True)]
    return asked


def groups(asked: list[Asked]) -> list[list[Asked]]:
    """Those that have their keys and their pairs in common."""
    by: dict[str, list[Asked]] = {}
    for each in asked:
        by.setdefault(repr((each.given.wrappings, each.given.pairs, each.given.required)), []).append(each)
    return list(by.values())


def try_mutants(program: str, count: int) -> str:
    some = random.Random(11)
    pool, asked = originals(some), strange(some)
    for _ in range(count):
        message, given = some.choice(pool)
        max_keys, max_unit = some.choice((0, 0, 0, 1)), some.choice((0, 0, 0, 0, 9, 30))
        allowed = given.uncommitted and some.random() < 0.9 or some.random() < 0.1
        given = Given([FIRST], max_keys=max_keys, max_unit=max_unit, uncommitted=allowed)
        asked.append(Asked(altered(message, some) if some.random() < 0.9 else message, given, some.choice((LINE, TWO))))
    for each in asked:
        each.random = some.randbytes(draws(each.file))
        each.way = some.choice(ways_of(program))
        each.frame = some.choice((1, 7, 16, 4096)) if each.frame == 1000 else each.frame
    seen: collections.Counter[str] = collections.Counter()
    for group in groups(asked):
        seen += compare(program, "message", group)
    want("the kinds that were met", ({"whole", *ALWAYS} | (ALTERED if count >= 300 else set())) <= set(seen), True)
    return shown("altered messages", seen)


def refused_files() -> list[bytes]:
    """A file of each kind of refusal, K1 to K8 and K10."""
    deep: dict[str, Any] = raw(NEW)
    for _ in range(9):
        deep = {"multi": {"generator": deep}}
    many = {"multi": {"children": [raw(("a", str(at), NEW[2])) for at in range(65)]}}
    clash = {"multi": {"generator": raw(NEW), "children": [raw(("esdk-vectors", "new", OTHER[2]))]}}
    plug = {"multi": {"generator": raw(NEW), "children": [{"plug": "\u00e9"}]}}
    nodes: list[dict[str, Any]] = [{}, {"raw": {}}, {"multi": {"children": []}}, deep, many, clash, {"plug": "desk"}, plug]
    nodes += [raw(("aws-kms", "a", NEW[2])), raw(("a", "b", b"short"))]
    digits = bytes(32).hex().encode()
    others = [b"", b"{", b"a b", b"a b c", b"aws-kms a " + digits, b"\xff a " + digits, b"{}"]
    return others + [file_of(node) for node in nodes] + [b" " * (1 << 20) + b"x"]


def refusal(file: bytes) -> tuple[int, str]:
    if len(file) > 1 << 20:
        return judge.FILE_FAMILY + 10, "K10 FileTooLong"
    try:
        judge.keyrings.read_tree(file, [])
    except judge.keyrings.Refusal as refused:
        return judge.code_of(str(refused), judge.FILE_FAMILY), str(refused)
    return 0, ""


def try_refused(program: str) -> str:
    files = refused_files()
    wanted = [refusal(file) for file in files]
    with tempfile.TemporaryDirectory() as folder:
        words = [program, "refused", key_file(pathlib.Path(folder), [FIRST])]
        status, output, report = run(words, b"".join(f"{len(file)}\n".encode() + file for file in files))
    want("resealing refused", (status, report), (0, ""))
    lines = [line.split("\t") for line in output.decode().split("\n")[:-1]]
    want("what is said of each file", [(int(code), line) for code, line in lines], wanted)
    kinds = {line.split()[0] for _, line in wanted}
    want("the kinds that were met", kinds, {f"K{number}" for number in (1, 2, 3, 4, 5, 6, 7, 8, 10)})
    return f"{len(files)} files refused"


def try_long(program: str, size: int) -> str:
    some = random.Random(12)
    text, given = some.randbytes(size), Given([FIRST], {"set": "photos"})
    message = judge.seal(text, given, 4096, some.randbytes(76))
    for way in ((65536, 65536, 0), (65536, 4096, 1), *([] if program == "python" else [(0, 65536, 0)])):
        compare(program, "a long message", [Asked(message, given, LINE, 65536, way, some.randbytes(76))])
    return f"{size} bytes of text"


def main() -> None:
    what, program, *more = sys.argv[1:]
    if program != "python":
        program = str(pathlib.Path(program).resolve())
    match what:
        case "vectors":
            said = try_vectors(program)
        case "mutants":
            said = try_mutants(program, int(more[0]))
        case "refused":
            said = try_refused(program)
        case "long":
            said = try_long(program, int(more[0]))
        case _:
            sys.exit(f"resealed.py: {what}")
    print(f"{said}; {len(wrong)} wrong")
    sys.exit(1 if wrong else 0)


if __name__ == "__main__":
    main()
