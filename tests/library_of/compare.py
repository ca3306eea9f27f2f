#!/usr/bin/env python3
"""Compares what the program of messages.c does with what docs/FORMAT.md says, by judge.py, and with the program `esdk`.

    compare.py vectors PROGRAM          every message of vectors/, by every cut and every room
    compare.py sealed PROGRAM           messages of given random bytes, byte by byte
    compare.py mutants PROGRAM COUNT    altered messages: the code, the line, the context and the text
    compare.py long PROGRAM BYTES       a long text, both ways
    ESDK=PROGRAM                        asks that program, too

It prints what was wrong, and at the end what was tried. Status: 1 where something was wrong.
"""

from __future__ import annotations

import base64
import collections
import itertools
import json
import os
import pathlib
import random
import subprocess
import sys
import tempfile
from typing import Any

sys.dont_write_bytecode = True

from judge import Given, Judged, judge, seal, seal_1_0  # noqa: E402

VECTORS = pathlib.Path(__file__).resolve().parents[2] / "vectors"
SIZES = (1, 15, 4095, 4096, 65536)
ESDK = os.environ.get("ESDK")
ONE, TWO = (number.to_bytes(4, "big") for number in (1, 2))
FINAL = b"\xff\xff\xff\xff"
FIRST = ("esdk-vectors", "first", bytes(range(32)))
SECOND = ("esdk-vectors", "second", bytes(range(128, 160)))
wrong: list[str] = []


def want(what: str, is_: object, wanted: object) -> None:
    if is_ != wanted:
        wrong.append(what)
        print(f"WRONG: {what}:\n  {str(is_)[:300]}\n  is wanted: {str(wanted)[:300]}")


def key_file(folder: pathlib.Path, wrappings: list[tuple[str, str, bytes]]) -> str:
    """A keyring file of these keys: the first makes the data key."""
    nodes: list[Any] = [
        {"raw": {"namespace": namespace, "name": name, "key": base64.b64encode(key).decode()}}
        for namespace, name, key in wrappings
    ]
    ring = nodes[0] if len(nodes) == 1 else {"multi": {"generator": nodes[0], "children": nodes[1:]}}
    file = folder / "keyring.json"
    file.write_text(json.dumps({"version": 1, "ring": ring}, separators=(",", ":")))
    return str(file)


def words_of(given: Given) -> list[str]:
    pairs = [f"{key}{':' if key in given.required else ''}={value}" for key, value in given.pairs.items()]
    return pairs + [f"{key}:" for key in given.required if key not in given.pairs]


def run(words: list[str], text: bytes) -> tuple[int, bytes, str]:
    ran = subprocess.run(words, input=text, capture_output=True, check=False)
    return ran.returncode, ran.stdout, ran.stderr.decode(errors="replace").strip()


Message = tuple[bytes, Given, tuple[int, int, int]]


def opened(program: str, messages: list[Message]) -> list[Judged]:
    """What the library says of each: a message, its limits, and its cut, its room and whether it is lazy. They have their
    keys and their pairs in common."""
    given = messages[0][1]
    parts = []
    for message, limits, (cut, room, lazy) in messages:
        line = f"{cut} {room} {lazy} {limits.max_keys} {limits.max_unit} {int(limits.uncommitted)} {len(message)}\n"
        parts.append(line.encode() + message)
    with tempfile.TemporaryDirectory() as folder:
        words = [program, "many", key_file(pathlib.Path(folder), given.wrappings), *words_of(given)]
        status, output, report = run(words, b"".join(parts))
    want("messages many", (status, report), (0, ""))
    lines = output.decode().split("\n")[:-1]
    want("messages many: a line for each", len(lines), len(messages))
    return [judged_of(line) for line in lines]


def judged_of(line: str) -> Judged:
    code, said, context, text = line.split("\t")
    pairs = None
    if context != "-":
        words = [bytes.fromhex(word).decode() for pair in context.split(",")[:-1] for word in pair.split("=")]
        pairs = dict(zip(words[::2], words[1::2]))
        want("the order of the pairs", list(pairs), sorted(pairs, key=str.encode))
    return Judged(int(code), said, pairs, bytes.fromhex(text))


def vectors() -> list[tuple[str, bytes, tuple[str, str, bytes], bytes | None]]:
    """The tests of the manifest: the message's name and bytes, its key, and its text, or None where it is refused."""

    def named(address: str) -> bytes:
        return (VECTORS / address.removeprefix("file://")).read_bytes()

    keys = json.loads(named("keys.json"))["keys"]
    tests = []
    for test in json.loads(named("manifest.json"))["tests"].values():
        one = test["master-keys"][0]
        wrapping = (one["provider-id"], keys[one["key"]]["key-id"], base64.b64decode(keys[one["key"]]["material"]))
        text = test["result"].get("output")
        name = test["ciphertext"].rpartition("/")[2]
        tests.append((name, named(test["ciphertext"]), wrapping, text and named(text["plaintext"])))
    return tests


def try_vectors(program: str) -> str:
    tried = 0
    for name, message, wrapping, text in vectors():
        given = Given([wrapping])
        wanted = judge(message, given)
        # The manifest says which are whole, and judge.py only why the others aren't.
        said = wanted.text if wanted.code == 0 else None
        want(f"{name}: judge.py and the manifest", said, text)
        ways = list(itertools.product(SIZES, SIZES, (0, 1)))
        for way, is_ in zip(ways, opened(program, [(message, given, way) for way in ways])):
            want(f"{name} by {way}", is_, wanted)
        tried += len(ways)
    return f"{tried} openings of vectors"


def try_sealed(program: str) -> str:
    tried, some = 0, random.Random(3)
    contexts = [
        Given([FIRST]),
        Given([FIRST, SECOND], {"b": "2", "a": "1", "\u00e9": "\u4e16"}),
        Given([FIRST], {"set": "a", "tenant": "acme"}, ("tenant",)),
    ]
    for given, frame, size in itertools.product(contexts, (1, 16, 4096), (0, 1, 15, 16, 17, 4096, 9000)):
        if size // frame > 5000:
            continue
        text, drawn = some.randbytes(size), some.randbytes(64 + 12 * len(given.wrappings))
        wanted = seal(text, given, frame, drawn)
        want("judge.py opens what it seals", judge(wanted, given), Judged(0, "", given.pairs, text))
        with tempfile.TemporaryDirectory() as name:
            folder = pathlib.Path(name)
            (folder / "random").write_bytes(drawn)
            for cut, room, lazy in ((65536, 65536, 0), (1, 4096, 1), (4096, 1, 0), (4095, 15, 0)):
                words = [str(cut), str(room), str(lazy), str(frame), str(folder / "random"), *words_of(given)]
                is_ = run([program, "seal", key_file(folder, given.wrappings), *words], text)
                want(f"{size} bytes in frames of {frame} by {cut} and {room}", is_, (0, wanted, ""))
                tried += 1
        tried += try_pairs(program, wanted, given, text)
    return f"{tried} messages sealed and opened"


def try_pairs(program: str, message: bytes, given: Given, text: bytes) -> int:
    """A message with the pairs that it was sealed with, and with another value of each."""
    tried = 1
    want("it is opened with its pairs", opened(program, [(message, given, (65536, 65536, 0))])[0], Judged(0, "", given.pairs, text))
    for key in given.pairs:
        other = Given(given.wrappings, {**given.pairs, key: "other"}, given.required)
        want(f"another value of {key}", opened(program, [(message, other, (65536, 65536, 0))])[0], judge(message, other))
        tried += 1
    return tried


def originals(some: random.Random) -> list[tuple[bytes, Given]]:
    """The messages that are altered."""
    plain, two = Given([FIRST]), Given([FIRST, SECOND])
    stored = Given([FIRST, SECOND], {"set": "photos", "\u00e9": "", "": "x"})
    old = Given([FIRST], {"set": "photos"}, uncommitted=True)

    made: list[tuple[bytes, Given]] = []

    def text(size: int) -> bytes:
        return some.randbytes(size)

    def drawn(given: Given) -> bytes:
        return some.randbytes(64 + 12 * len(given.wrappings))

    for given in (plain, two, stored):
        for size, frame in ((0, 4096), (40, 10), (35, 16), (9, 1)):
            made.append((seal(text(size), given, frame, drawn(given)), given))
    for size, frame in ((40, 10), (0, 5), (50, 0), (0, 0)):
        made.append((seal_1_0(text(size), old, frame, drawn(old)), old))
    for name, message, _, whole in vectors():
        if whole is not None and (len(message) < 600 or name == "single-block"):
            made.append((message, plain))
    return made


def altered(message: bytes, some: random.Random) -> bytes:
    """A message with one thing altered, more often near its front."""
    at = some.randrange(len(message)) if some.random() < 0.6 else some.randrange(min(len(message), 60))
    other = some.randrange(at, len(message) + 1)
    match some.randrange(9):
        case 0:
            return message[:at] + bytes([message[at] ^ (1 << some.randrange(8))]) + message[at + 1 :]
        case 1:
            return message[:at] + some.randbytes(1) + message[at + 1 :]
        case 2:
            return message[:at] + message[at + 1 :]
        case 3:
            return message[:at] + some.randbytes(some.randrange(1, 5)) + message[at:]
        case 4:
            return message[:at]
        case 5:
            return message + some.randbytes(some.randrange(1, 40))
        case 6:
            return message[:other] + message[at:other] + message[other:]
        case 7:
            return message[:at] + some.choice([b"\0\0", b"\xff\xff", bytes(4), FINAL, ONE]) + message[at + 4 :]
    return aimed(message, some)


def aimed(message: bytes, some: random.Random) -> bytes:
    """A field of the body set to another number: the 16 bytes of a tag and what stands before them are met more often so."""
    at = len(message) - some.choice([16, 17, 20, 24, 36, 40, 56, 58, 60])
    if at < 0:
        return b""
    return message[:at] + some.choice([FINAL, TWO, some.randbytes(4)]) + message[at + 4 :]


def mutants(count: int) -> list[tuple[bytes, Given]]:
    some = random.Random(1)
    made, pool = [], originals(some)
    for _ in range(count):
        message, given = some.choice(pool)
        max_keys, max_unit = some.choice((0, 0, 0, 1)), some.choice((0, 0, 0, 0, 9, 30))
        allowed = given.uncommitted and some.random() < 0.9 or some.random() < 0.1
        given = Given([FIRST], max_keys=max_keys, max_unit=max_unit, uncommitted=allowed)
        made.append((altered(message, some) if some.random() < 0.97 else message, given))
    return made


def program_says(message: bytes, given: Given, ring: str) -> Judged:
    """What `esdk` says; what it writes and tells is the library's text and line, its status the code's family."""
    assert ESDK is not None
    words = [ESDK, "decrypt", "--keyring", ring]
    words += ["--max-keys", str(given.max_keys)] if given.max_keys else []
    words += ["--max-unit", str(given.max_unit)] if given.max_unit else []
    words += ["--allow-uncommitted"] if given.uncommitted else []
    status, text, report = run(words, message)
    if status == 0:
        return Judged(0, "", json.loads(report), text)
    return Judged(status * 1000, report.removeprefix("esdk: "), None, text)


def try_mutants(program: str, count: int) -> str:
    some = random.Random(2)
    all_ = mutants(count)
    ways = [(some.choice(SIZES), some.choice(SIZES), some.randrange(2)) for _ in all_]
    came = opened(program, [(message, given, way) for (message, given), way in zip(all_, ways)])
    seen = collections.Counter(is_.line.split()[0] if is_.line else "whole" for is_ in came)
    with tempfile.TemporaryDirectory() as folder:
        ring = key_file(pathlib.Path(folder), [FIRST])
        for at, ((message, given), is_) in enumerate(zip(all_, came)):
            want(f"altered message {at}", is_, judge(message, given))
            if ESDK:
                says = program_says(message, given, ring)
                want(f"altered message {at}: the program's line and text", (is_.line, is_.text), (says.line, says.text))
                want(f"altered message {at}: its status", is_.code // 1000, says.code // 1000)
    if count >= 2000:
        want("the kinds of fault that were met", len(seen) >= 20, True)
    return f"{count} altered messages: " + " ".join(f"{kind}:{number}" for kind, number in sorted(seen.items()))


def try_long(program: str, size: int) -> str:
    """Without the program both ways by judge.py, with it by the program."""
    some = random.Random(4)
    text, given = some.randbytes(size), Given([FIRST], {"set": "photos"})
    with tempfile.TemporaryDirectory() as name:
        folder = pathlib.Path(name)
        ring = key_file(folder, given.wrappings)
        status, message, report = run([program, "seal", ring, "65536", "65536", "0", "4096", "-", "set=photos"], text)
        want("a long text is sealed", (status, report), (0, ""))
        if ESDK:
            want("the program opens it", run([ESDK, "decrypt", "--keyring", ring], message), (0, text, '{"set":"photos"}'))
            other = run([ESDK, "encrypt", "--keyring", ring, "set=photos"], text)[1]
        else:
            want("judge.py opens it", judge(message, given) == Judged(0, "", given.pairs, text), True)
            other = seal(text, given, 4096, some.randbytes(76))
        for cut, room in ((65536, 65536), (4095, 65536), (65536, 4096)):
            is_ = run([program, "open", ring, str(cut), str(room), "0"], other)
            want(f"a long message is opened by {cut} and {room}", is_, (0, text, ""))
    return f"{size} bytes both ways, by {'the program' if ESDK else 'judge.py'}"


def main() -> None:
    what, program, *more = sys.argv[1:]
    program = str(pathlib.Path(program).resolve())
    match what:
        case "vectors":
            said = try_vectors(program)
        case "sealed":
            said = try_sealed(program)
        case "mutants":
            said = try_mutants(program, int(more[0]))
        case "long":
            said = try_long(program, int(more[0]))
        case _:
            sys.exit(f"compare.py: {what}")
    print(f"{said}; {len(wrong)} wrong")
    sys.exit(1 if wrong else 0)


if __name__ == "__main__":
    main()
