#!/usr/bin/env python3
"""Compares what the library says of messages that it doesn't open with docs/FORMAT.md, by judge.py, and with the program `esdk`.

    asked.py listings PROGRAM COUNT    the headers of vectors/, fronts of some, and altered ones: what `list` says of them
    asked.py leaves PROGRAM COUNT      messages under keys of a tree, and altered ones: what `audit` says of them
    asked.py ranges python COUNT       ranges of messages, and of altered ones: what `extract` says of them
    ESDK=PROGRAM                       asks that program, too

PROGRAM is that of asking.c, or the word `python` for bindings/python. It prints what was wrong, and at the end what was tried.
Status: 1 where something was wrong.
"""

from __future__ import annotations

import base64
import collections
import json
import pathlib
import random
import sys
import tempfile
from typing import Any

sys.dont_write_bytecode = True

import judge  # noqa: E402
from compare import ESDK, FIRST, SECOND, altered, key_file, originals, run, vectors, want, words_of, wrong  # noqa: E402
from judge import Given, code_of  # noqa: E402

sys.path.insert(0, str(pathlib.Path(__file__).resolve().parents[2] / "bindings/python"))

THIRD = ("esdk-vectors", "third", bytes(range(64, 96)))
FOURTH = ("others", "first", bytes(range(96, 128)))
STRANGER = ("strangers", "first", bytes(range(32, 64)))
GIVEN = {"tenant": "acme"}
MOST_OF_AN_AUDIT = 1000

# What `list` answers: docs/LINES.md.
LISTED = {"told", "M1", "M2", "M3", "M4", "M6", "M7", "M8", "M10", "M23", "M24", "M25", "M26"}

# What is said of a message: the line of its fault, or none, and what is told of it.
Said = tuple[str, Any]


def raw(wrapping: tuple[str, str, bytes], **more: bool) -> dict[str, Any]:
    namespace, name, key = wrapping
    return {"raw": {"namespace": namespace, "name": name, "key": base64.b64encode(key).decode(), **more}}


TREE = {"multi": {"generator": raw(FIRST), "children": [raw(SECOND), {"multi": {"children": [raw(THIRD, retired=True), raw(FOURTH)]}}]}}
RING = json.dumps({"version": 2, "ring": TREE}).encode()


def of_program(words: list[str], messages: list[tuple[bytes, bool]]) -> list[tuple[int, str]]:
    """The code, and what is told, of each message that the program of asking.c is asked about."""
    parts = [f"{int(uncommitted)} {len(message)}\n".encode() + message for message, uncommitted in messages]
    status, output, report = run(words, b"".join(parts))
    want(f"asking {words[1]}", (status, report), (0, ""))
    lines = [line.split("\t") for line in output.decode().split("\n")[:-1]]
    want(f"asking {words[1]}: a line for each", len(lines), len(messages))
    return [(int(code), told) for code, told in lines]


def of_python(ask: Any, none: Any) -> Said:
    """What bindings/python says. Its line has the fault's number and name, and no more."""
    import esdk

    try:
        return "", ask()
    except esdk.MessageError as error:
        want("the line of a code", code_of(error.line), error.code)
        return error.line, none


def compare(program: str, what: str, is_: list[Any], wanted: list[Said], of_esdk: list[Said]) -> collections.Counter[str]:
    """Compares what the library said of each message; answers how often each kind was seen."""
    want(f"{what}: one for each", len(is_), len(wanted))
    for at, ((line, told), came) in enumerate(zip(wanted, is_)):
        name = " ".join(line.split()[:2])
        expected = (name if program == "python" else code_of(line) if line else 0, told)
        want(f"{what} {at}", came, expected)
    for at, (said, of_judge) in enumerate(zip(of_esdk, wanted)):
        want(f"{what} {at}: the program", said, of_judge)
    return collections.Counter(line.split()[0] if line else "told" for line, _ in wanted)


def shown(what: str, seen: collections.Counter[str]) -> str:
    return f"{sum(seen.values())} {what}: " + " ".join(f"{kind}:{number}" for kind, number in sorted(seen.items()))


# ---- listings


def long_headers(some: random.Random) -> list[bytes]:
    """One with a long context, and one with many data keys, which ends behind 65,536 bytes."""
    many = [("esdk-vectors", f"{at:05}" * 200, bytes(32)) for at in range(100)]
    givens = [Given([FIRST], {"k": "x" * 60000}), Given(many)]
    return [judge.seal(b"hello", given, 4096, some.randbytes(64 + 12 * len(given.wrappings))) for given in givens]


def set_at(message: bytes, at: int, field: bytes) -> bytes:
    return message[:at] + field + message[at + len(field) :]


def faulty(message: bytes, old: bytes) -> list[bytes]:
    """Altered fields of a header of format 2.0, and of one of format 1.0, which ends with the frame length."""
    frame, end = len(judge.front(message, False).body) - 36, len(judge.front(old, True).body)
    fields = [(0, b"\x03"), (1, b"\x05"), (35, b"\0\1"), (35, bytes(4)), (frame - 1, b"\x03"), (frame, bytes(4))]
    olds = [(1, b"\x81"), (2, b"\x05"), (end - 9, b"\x01"), (end - 5, b"\x0d"), (end - 4, bytes(4))]
    too_long = set_at(message[:37], 35, b"\0\0") + b"\xff\xff" + 300 * judge.messages.sized(bytes(65535))
    return [set_at(message, *each) for each in fields] + [set_at(old, *each) for each in olds] + [too_long]


def headers(count: int) -> list[tuple[bytes, bool]]:
    some = random.Random(5)
    pool = [message for message, _ in originals(some)]
    all_ = [message for _, message, _, _ in vectors()] + pool + long_headers(some) + faulty(pool[0], pool[12])
    for message in (pool[0], pool[8], pool[12]):
        all_ += [message[:end] for end in range(judge.front(message, True).length() + 2)]
    both = [(message, uncommitted) for message in all_ for uncommitted in (False, True)]
    return both + [(altered(some.choice(pool), some), some.random() < 0.5) for _ in range(count)]


def list_of_esdk(message: bytes, uncommitted: bool) -> Said:
    assert ESDK is not None
    status, listing, report = run([ESDK, "list", *(["--allow-uncommitted"] if uncommitted else [])], message)
    return report.removeprefix("esdk: ") if status else "", listing


def try_listings(program: str, count: int) -> str:
    asked = headers(count)
    wanted = [judge.listed(message, uncommitted) for message, uncommitted in asked]
    if program == "python":
        import esdk

        is_ = [of_python(lambda: esdk.list_header(*each).encode(), b"") for each in asked]
    else:
        is_ = [(code, bytes.fromhex(told)) for code, told in of_program([program, "list"], asked)]
    seen = compare(program, "listing", is_, wanted, [list_of_esdk(*each) for each in asked] if ESDK else [])
    want("the kinds that were met", set(seen), LISTED)
    return shown("listings", seen)


# ---- leaves


def sealed(some: random.Random, wrappings: list[Any], pairs: dict[str, str], required: tuple[str, ...] = ()) -> bytes:
    given = Given(wrappings, pairs, required)
    return judge.seal(b"hello", given, 4096, some.randbytes(64 + 12 * len(wrappings)))


def forged(some: random.Random) -> bytes:
    """The first entry opens to another message's data key, and the second to this one's."""
    given, message_id = Given([FIRST, SECOND], GIVEN), some.randbytes(32)
    stored, ivs = given.pair_bytes(), [some.randbytes(12), some.randbytes(12)]
    keys = [some.randbytes(32), some.randbytes(32)]
    others, own = (judge.keyrings.wrap_all(given.tree(), ivs, key, stored) for key in keys)
    return judge.messages.locked_header(message_id, stored, {}, [others[0], own[1]], 4096, keys[1])


def asked_about(count: int) -> list[bytes]:
    some = random.Random(6)
    keys = [FIRST, SECOND, THIRD, FOURTH, STRANGER]
    pool = [sealed(some, [key for at, key in enumerate(keys) if bits >> at & 1], GIVEN) for bits in range(1, 32)]
    pool += [sealed(some, [SECOND, FOURTH], {"set": "photos", **GIVEN}, ("tenant",)), sealed(some, [THIRD], {}), forged(some)]
    faulty = [
        sealed(some, [FIRST], {"tenant": "other"}),
        sealed(some, [FIRST], {"aws-crypto-public-key": "x"}),
        sealed(some, [FIRST], {"k": "x" * 65520}),
        judge.seal_1_0(b"hello", Given([FIRST], GIVEN), 4096, some.randbytes(76)),
        b"",
    ]
    whole = [message for _, message, _, _ in vectors()]
    return pool + faulty + whole + [altered(some.choice(pool), some) for _ in range(count)]


def leaves_of_esdk(asked: list[bytes]) -> list[Said]:
    """What the lines of audits say, of so many messages each as one may have."""
    said = []
    for front in range(0, len(asked), MOST_OF_AN_AUDIT):
        with tempfile.TemporaryDirectory() as name:
            said += audited(pathlib.Path(name), asked[front : front + MOST_OF_AN_AUDIT])
    return said


def audited(folder: pathlib.Path, asked: list[bytes]) -> list[Said]:
    for at, message in enumerate(asked):
        (folder / f"{at}.esdk").write_bytes(message)
    (folder / "ring").write_bytes(RING)
    messages = [{"from": str(folder / f"{at}.esdk"), "given": GIVEN} for at in range(len(asked))]
    audit = {"version": 1, "keyring": str(folder / "ring"), "messages": messages}
    (folder / "audit").write_text(json.dumps(audit))
    status, output, report = run([str(ESDK), "audit", "--jobs", str(folder / "audit")], b"")
    want("an audit", (status, report), (7, ""))
    return [leaves_of(line) for line in output.decode().split("\n")[: len(asked)]]


def leaves_of(line: str) -> Said:
    _, _, said = line.split(" ", 2)
    word, _, numbers = said.partition(" ")
    if word != "opened-by":
        return said, []
    return "", [] if numbers == "none" else [int(number) for number in numbers.split()]


def try_leaves(program: str, count: int) -> str:
    asked, tree = asked_about(count), judge.keyrings.read_tree(RING, [])
    wanted = [judge.openers(message, tree, GIVEN) for message in asked]
    if program == "python":
        import esdk

        ring = esdk.Keyring(RING)
        is_ = [of_python(lambda: ring.openers(message, GIVEN), []) for message in asked]
    else:
        with tempfile.NamedTemporaryFile() as file:
            pathlib.Path(file.name).write_bytes(RING)
            lines = of_program([program, "openers", file.name, *words_of(Given([], GIVEN))], [(message, False) for message in asked])
        is_ = [(code, [int(number) for number in told.split(",")[:-1]]) for code, told in lines]
    seen = compare(program, "leaves", is_, wanted, leaves_of_esdk(asked) if ESDK else [])
    want("the kinds that were met", {"told", "M10", "M11", "M12", "M14", "M23"} <= set(seen), True)
    want("the leaves that were met", {at for _, leaves in wanted for at in leaves}, {1, 2, 3, 4})
    return shown("messages", seen)


# ---- ranges

# A message, a file of its keys, and a range.
Range = tuple[bytes, str, int, int]


def asked_ranges(folder: pathlib.Path, count: int) -> list[Range]:
    some = random.Random(9)
    pool = []
    for at, (message, given) in enumerate(originals(some)):
        (folder / str(at)).mkdir()
        pool.append((message, key_file(folder / str(at), given.wrappings)))
    whole = [each for each in pool for _ in range(8)]
    other = [(altered(message, some), ring) for message, ring in some.choices(pool, k=count)]
    return [(*each, some.randrange(60), some.randrange(70)) for each in whole + other]


def range_of_esdk(folder: pathlib.Path, asked: Range) -> Said:
    """What `extract` says; of a range that a fault ends it writes what stands before that, which doesn't count here."""
    message, ring, at, count = asked
    (folder / "message").write_bytes(message)
    words = [str(ESDK), "extract", "--keyring", ring, "--from", str(folder / "message"), "--at", str(at), "--count", str(count)]
    status, text, report = run(words, b"")
    return (report.removeprefix("esdk: "), b"") if status else ("", text)


def range_by_judge(asked: Range) -> Said | None:
    """The part of the text of a message that is whole, where the range begins in it; of no other."""
    message, _, at, count = asked
    said = judge.judge(message, Given([FIRST, SECOND]))
    return None if said.line or at >= len(said.text) else ("", said.text[at : at + count])


def try_ranges(program: str, count: int) -> str:
    import esdk

    want("who is asked", program, "python")
    with tempfile.TemporaryDirectory() as name:
        folder = pathlib.Path(name)
        asked = asked_ranges(folder, count)
        rings = {ring: esdk.Keyring.from_file(ring) for _, ring, _, _ in asked}

        def of(message: bytes, ring: str, at: int, count: int) -> Said:
            return of_python(lambda: esdk.decrypt_range(source=message, keyring=rings[ring], at=at, count=count), b"")

        is_ = [of(*each) for each in asked]
        by_esdk = [range_of_esdk(folder, each) for each in asked] if ESDK else []
    for at, (came, each) in enumerate(zip(is_, asked)):
        by_judge = range_by_judge(each)
        if by_judge is not None:
            want(f"range {at}", came, by_judge)
    for at, ((line, text), came) in enumerate(zip(by_esdk, is_)):
        want(f"range {at}: the program", came, (" ".join(line.split()[:2]), text))
    seen = collections.Counter(line.split()[0] if line else "told" for line, _ in is_)
    want("the kinds that were met", {"told", "M10", "M15", "M16", "M17", "M18", "M20", "M23"} <= set(seen), True)
    return shown("ranges", seen)


def main() -> None:
    what, program, count = sys.argv[1:]
    if program != "python":
        program = str(pathlib.Path(program).resolve())
    match what:
        case "listings":
            said = try_listings(program, int(count))
        case "leaves":
            said = try_leaves(program, int(count))
        case "ranges":
            said = try_ranges(program, int(count))
        case _:
            sys.exit(f"asked.py: {what}")
    print(f"{said}; {len(wrong)} wrong")
    sys.exit(1 if wrong else 0)


if __name__ == "__main__":
    main()
