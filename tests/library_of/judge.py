"""What docs/FORMAT.md says of a message, and the message of a text: by the judge of the cases (cases/), which is written from that
page over the package `cryptography`, and shares nothing with the library.

A wrapping key is (namespace, name, key); a context is a dict from texts to texts.
"""

from __future__ import annotations

import importlib.util
import pathlib
import sys
from collections.abc import Callable
from dataclasses import dataclass, field
from types import ModuleType
from typing import TypeVar

sys.dont_write_bytecode = True
CASES = pathlib.Path(__file__).resolve().parents[2] / "cases"
sys.path.insert(0, str(CASES))

import audits  # noqa: E402
import contexts  # noqa: E402
import endings  # noqa: E402
import keyrings  # noqa: E402
import messages  # noqa: E402

# The number behind the letter is the code's: of a message's fault, of a keyring file's, and of a request's.
MESSAGE_FAMILY, FILE_FAMILY, REQUEST_FAMILY = 1000, 3000, 6000
Answer = TypeVar("Answer")


def judge_of_cases() -> ModuleType:
    """The module of the cases that has the listing, whose name is this one's, too."""
    spec = importlib.util.spec_from_file_location("judge_of_cases", CASES / "judge.py")
    assert spec is not None and spec.loader is not None
    module = importlib.util.module_from_spec(spec)
    spec.loader.exec_module(module)
    return module


listing = judge_of_cases().listing


@dataclass
class Given:
    """What an opening is given, or the pairs and the required keys of a message that is sealed."""

    wrappings: list[tuple[str, str, bytes]]
    pairs: dict[str, str] = field(default_factory=dict)
    required: tuple[str, ...] = ()
    max_keys: int = 0
    max_unit: int = 0
    uncommitted: bool = False

    def pair_bytes(self) -> dict[bytes, bytes]:
        return {key.encode(): value.encode() for key, value in self.pairs.items()}

    def required_bytes(self) -> set[bytes]:
        return {key.encode() for key in self.required}

    def raw_keys(self) -> list[keyrings.Raw]:
        return [keyrings.Raw(namespace.encode(), name.encode(), key) for namespace, name, key in self.wrappings]

    def tree(self) -> keyrings.Multi:
        first, *others = self.raw_keys()
        return keyrings.Multi(first, others)


@dataclass
class Judged:
    """What is said of a message: the context once its header is unlocked, and the text that is released."""

    code: int = 0
    line: str = ""
    context: dict[str, str] | None = None
    text: bytes = b""


def unlocked(header: messages.Header, given: Given) -> tuple[bytes, dict[str, str]]:
    """The data key, and the whole context."""
    only, whole = contexts.joined(header.stored, given.pair_bytes(), given.required_bytes())
    data_key = keyrings.open_first(given.tree(), header.entries, whole)
    if data_key is None:
        raise messages.Fault("M15 NoKeyOpens")
    messages.check_lock(header, only, data_key)
    return data_key, {key.decode(): value.decode() for key, value in whole.items()}


def judge(message: bytes, given: Given) -> Judged:
    judged, left, parts = Judged(), messages.Bytes(message), []
    limits = messages.Limits(given.max_keys or None, given.max_unit or None, given.uncommitted)
    try:
        header = messages.read_header(left, limits)
        data_key, judged.context = unlocked(header, given)
        for content in messages.units(left, header, data_key, limits.max_unit):
            parts.append(content)
    except messages.Fault as fault:
        judged.line = str(fault)
    except messages.Going:
        judged.line = "M10 Truncated"
    if judged.line:
        judged.code = code_of(judged.line)
    judged.text = b"".join(parts)
    return judged


def code_of(line: str, family: int = MESSAGE_FAMILY) -> int:
    """The code of a line of this family."""
    return family + int(line.split()[0][1:])


def answered(ask: Callable[[], Answer], none: Answer) -> tuple[str, Answer]:
    """An answer behind no line, or none behind the line of the fault."""
    try:
        return "", ask()
    except messages.Fault as fault:
        return str(fault), none
    except messages.Going:
        return "M10 Truncated", none


def front(message: bytes, uncommitted: bool) -> messages.Header:
    """The header that a message begins with."""
    return messages.read_header(messages.Bytes(message), messages.Limits(uncommitted=uncommitted))


def listed(message: bytes, uncommitted: bool) -> tuple[str, bytes]:
    """The line of a fault, or the listing."""
    return answered(lambda: listing(front(message, uncommitted)).encode(), b"")


def openers(message: bytes, tree: keyrings.Multi, pairs: dict[str, str]) -> tuple[str, list[int]]:
    """The line of a fault, or the numbers of the leaves that open it, each by itself."""
    given = {key.encode(): value.encode() for key, value in pairs.items()}
    return answered(lambda: audits.openers(tree, front(message, False), given), [])


def wrapped_by(given: Given, random: bytes) -> tuple[bytes, list[messages.Entry]]:
    """The data key, and its entries: the random bytes of a message are its id, the data key, and an IV of each wrapping."""
    return random[32:64], keyrings.wrap_all(given.tree(), ivs_of(random), random[32:64], given.pair_bytes())


def ivs_of(random: bytes) -> list[bytes]:
    return [random[at : at + 12] for at in range(64, len(random), 12)]


def resealed(message: bytes, given: Given, file: bytes, frame: int, random: bytes) -> Judged:
    """What is said of a message that goes to the keys of this file. What comes out is the new message; where the old one has a
    fault, the new header and all frames but the last."""
    judged = judge(message, given)
    if judged.context is None:
        return judged
    text, judged.text = judged.text, b""
    tree = keyrings.read_tree(file, [])
    whole = {key.encode(): value.encode() for key, value in judged.context.items()}
    stored = messages.read_header(messages.Bytes(message), messages.Limits(uncommitted=given.uncommitted)).stored
    only = {key: whole[key] for key in whole if key not in stored}
    try:
        contexts.refuse_request(whole, set(only), tree)
    except endings.Ended as ended:
        return Judged(code_of(ended.line, REQUEST_FAMILY), ended.line, judged.context)
    message_id, data_key = random[:32], random[32:64]
    entries = keyrings.wrap_all(tree, ivs_of(random), data_key, whole)
    header = messages.locked_header(message_id, stored, only, entries, frame, data_key)
    frames = messages.framed_units(data_key, message_id, frame, text)
    judged.text = header + b"".join(frames[:-1] if judged.line else frames)
    return judged


def seal(text: bytes, given: Given, frame: int, random: bytes) -> bytes:
    """The message of these random bytes."""
    message_id = random[:32]
    data_key, entries = wrapped_by(given, random)
    required, pairs = given.required_bytes(), given.pair_bytes()
    stored = {key: value for key, value in pairs.items() if key not in required}
    only = {key: pairs[key] for key in required}
    header = messages.locked_header(message_id, stored, only, entries, frame, data_key)
    return header + b"".join(messages.framed_units(data_key, message_id, frame, text))


def seal_1_0(text: bytes, given: Given, frame: int, random: bytes) -> bytes:
    """The same of format 1.0; a frame length of 0 makes a single block."""
    message_id, suite = random[:16], messages.UNCOMMITTED
    data_key, entries = wrapped_by(given, random)
    header = messages.legacy_header(message_id, given.pair_bytes(), {}, entries, frame, data_key, random[16:28])
    if frame:
        return header + b"".join(messages.framed_units(data_key, message_id, frame, text, suite))
    return header + messages.single_block(data_key, message_id, random[:12], text, suite)
