"""Seals, opens and reseals messages of the AWS Encryption SDK's format, by libesdk, whose sessions are proved.

    ring = esdk.Keyring.from_file("backups.key")
    message, _ = esdk.encrypt(source=b"hello", keyring=ring, encryption_context={"set": "photos"})
    text, header = esdk.decrypt(source=message, keyring=ring)
    header.encryption_context

    new, _ = esdk.reseal(source=message, keyring=ring, new_keyring=esdk.Keyring.from_file("new.key"))

    with open("a", "rb") as source, open("a.esdk", "wb") as sink:
        with esdk.stream(mode="e", source=source, keyring=ring) as message:
            for piece in message:
                sink.write(piece)

What a stream of a text gave counts only once its end was reached without an exception. Of a context, compare what a
header says with what you expect: a message of another context under the same key opens as well. The words of the
functions are those of the AWS Encryption SDK for Python, where that has them. What the library refuses is an
EsdkError, with `code` and `line`.
"""

from __future__ import annotations

import base64
import json
import os
import pathlib
from collections.abc import Iterable, Mapping
from typing import Any, Optional, Union

from ._library import NOTHING as _NOWHERE
from ._library import Lent
from ._ranges import Message, take
from ._session import ANY_LENGTH, WHOLE, Session, Sessions, Span, listing
from ._session import span as _span
from ._stream import Header, Pieces, Stream
from .errors import (
    CallError,
    EsdkError,
    KeyringError,
    MemoryRanOut,
    MessageError,
    NotFinished,
    OutsideError,
    RequestError,
)

__all__ = [
    "CallError",
    "EsdkError",
    "Header",
    "Keyring",
    "KeyringError",
    "MemoryRanOut",
    "MessageError",
    "NotFinished",
    "OutsideError",
    "RequestError",
    "Span",
    "Stream",
    "decrypt",
    "decrypt_range",
    "encrypt",
    "list_header",
    "reseal",
    "span",
    "stream",
]

# No range begins behind so many bytes, or has more.
_MOST_RANGE = 2**62
# The bytes of a frame, and the required keys, where none are named.
_FRAME = 4096
_NO_KEYS: tuple[str, ...] = ()


class Keyring:
    """The bytes of a keyring file, which was found right: a key line, or JSON.

    For `encrypt` and `decrypt` of what is short it keeps sessions of the library, which are freed with it.
    """

    def __init__(self, file: Any) -> None:
        """Raises KeyringError where the file is refused."""
        self._file = bytes(file)
        self._sessions = Sessions(self._file)
        self._sessions.give_back(self._sessions.take())

    @classmethod
    def from_file(cls, path: Union[str, os.PathLike[str]]) -> Keyring:
        return cls(pathlib.Path(path).read_bytes())

    @classmethod
    def raw_aes(cls, *, key_namespace: str, key_name: str, wrapping_key: bytes) -> Keyring:
        """A keyring of one key of 32 bytes."""
        key = base64.b64encode(wrapping_key).decode()
        node = {"raw": {"namespace": key_namespace, "name": key_name, "key": key}}
        return cls(json.dumps({"version": 1, "ring": node}, separators=(",", ":")).encode())

    def openers(self, message: Any, encryption_context: Optional[Mapping[str, str]] = None) -> list[int]:
        """The numbers of the leaves that open a message, each by itself, when these pairs are given.

        A leaf is a raw key of the file. They are numbered from 1, a generator before the children, as the program's
        `audit` does it; retired ones open, too. `message` is bytes-like, and only its header is read, which mostly is
        in its first 65,536 bytes: where it isn't, that is 1010. A message of format 1.0 is 1023.
        """
        session = self._sessions.take()
        try:
            session.context(_pairs(encryption_context), ())
            with Lent(message) as lent:
                return session.openers(*lent)
        finally:
            self._sessions.give_back(session)

    def __reduce__(self) -> Any:
        """A copy has the file, and sessions of its own."""
        return type(self), (self._file,)

    def __repr__(self) -> str:
        return "<esdk.Keyring>"


def stream(
    *,
    mode: str,
    source: Any,
    keyring: Keyring,
    new_keyring: Optional[Keyring] = None,
    encryption_context: Optional[Mapping[str, str]] = None,
    required_encryption_context_keys: Iterable[str] = _NO_KEYS,
    frame_length: int = _FRAME,
    source_length: Optional[int] = None,
    max_encrypted_data_keys: Optional[int] = None,
    max_body_length: Optional[int] = None,
    allow_uncommitted: bool = False,
) -> Stream:
    """A file object: in mode "e" of the message of the source, in mode "d" of the text of that message, and in mode "r"
    of a new message of its text, under the keys of `new_keyring`.

    `source` is bytes-like, and isn't to be changed meanwhile, or a file object: what has `read` is read from where it
    stands, to where that gives b"". In modes "e" and "r": `frame_length` is 1 to 4,294,967,295. In mode "e" with
    `source_length` no longer text is taken, but shorter text is. In modes "d" and "r":
    `max_encrypted_data_keys` and `max_body_length`, the most bytes of a frame or a single block, are those of the message
    that is read, and `allow_uncommitted` opens messages of format 1.0, too. A key that is required isn't stored in a
    message that is sealed; whoever opens or reseals it gives its pair. Messages of strangers want both limits.
    """
    if mode not in ("e", "encrypt", "d", "decrypt", "r", "reseal"):
        raise ValueError(f'the mode is "e", "d" or "r", and not {mode!r}')
    mode = mode[0]
    context = _pairs(encryption_context)
    session = Session(keyring._file)
    try:
        _begin(
            session,
            mode,
            context,
            new_keyring,
            required_encryption_context_keys,
            frame_length,
            source_length,
            max_encrypted_data_keys,
            max_body_length,
            allow_uncommitted,
        )
        if mode == "e":
            # What the message begins with waits, and a call that takes nothing says so.
            session.take(_NOWHERE, 0)
        return Stream(session, Pieces(source), context if mode == "e" else None)
    except BaseException:
        session.close()
        raise


def encrypt(*, source: Any, keyring: Keyring, **words: Any) -> tuple[bytes, Header]:
    """The message of a text, and its header. The words are those of `stream`."""
    if type(source) is bytes and len(source) <= WHOLE:
        return _at_once("e", source, keyring, words)
    with stream(mode="e", source=source, keyring=keyring, **words) as message:
        return message.read(), message.header


def decrypt(*, source: Any, keyring: Keyring, **words: Any) -> tuple[bytes, Header]:
    """The whole text of a message, and its header, or an exception. The words are those of `stream`."""
    if type(source) is bytes and len(source) <= WHOLE:
        return _at_once("d", source, keyring, words)
    with stream(mode="d", source=source, keyring=keyring, **words) as text:
        return text.read(), text.header


def reseal(*, source: Any, keyring: Keyring, new_keyring: Keyring, **words: Any) -> tuple[bytes, Header]:
    """The message of the same text under the keys of `new_keyring`, and its header, or an exception.

    The keys of `keyring` open the message that is the source, with the pairs that are given. The new message has its
    whole context: pairs that it stores are stored, and those that are only authenticated stay so. Its message id, its
    data key and its frames are new. The words are those of `stream`.
    """
    words["new_keyring"] = new_keyring
    if type(source) is bytes and len(source) <= WHOLE:
        return _at_once("r", source, keyring, words)
    with stream(mode="r", source=source, keyring=keyring, **words) as message:
        return message.read(), message.header


def decrypt_range(
    *,
    source: Any,
    keyring: Keyring,
    at: int,
    count: int,
    encryption_context: Optional[Mapping[str, str]] = None,
    required_encryption_context_keys: Iterable[str] = _NO_KEYS,
    allow_uncommitted: bool = False,
) -> bytes:
    """`count` bytes of a message's text from byte `at` on, as far as there are any.

    `source` is bytes-like, or a file object with `seek`, in which the message begins where it stands; it stands there again
    afterwards. The header is read and the frames that hold the range.
    Each of these is opened after its tag was found right; of the others nothing is said, nor whether the message is
    whole. A range that begins at the end of the text or behind it is b"", or 1010 or 1018. It is all in memory: ask for
    parts of a long one.
    """
    at, count = _number("at", at, 0, _MOST_RANGE), _number("count", count, 0, _MOST_RANGE)
    session = keyring._sessions.take()
    try:
        session.context(_pairs(encryption_context), required_encryption_context_keys)
        return take(session, Message(source), at, count, bool(allow_uncommitted))
    finally:
        keyring._sessions.give_back(session)


def span(message: Any, at: int, count: int, allow_uncommitted: bool = False) -> Span:
    """Which bytes of a message hold `count` bytes of its text from byte `at` on, by the header that it begins with.

    It wants no key, and so nothing of it is authenticated. `message` is bytes-like, and only its header is read, as by
    `list_header`. `decrypt_range` calls it, and reads these bytes.
    """
    at, count = _number("at", at, 0, _MOST_RANGE), _number("count", count, 1, _MOST_RANGE)
    with Lent(message) as lent:
        return _span(*lent, bool(allow_uncommitted), at, count)


def list_header(message: Any, uncommitted: bool = False) -> str:
    """The listing of the header that a message begins with: the lines that the program's `list` prints.

    It wants no key, and so nothing of it is authenticated; its texts may hold characters that steer a terminal.
    `message` is bytes-like. What stands behind the header isn't judged, and needn't be there: the first 65,536 bytes of
    a message mostly have it; where they don't, that is 1010. With `uncommitted` headers of format 1.0 are listed, too.
    """
    with Lent(message) as lent:
        return listing(*lent, bool(uncommitted))


def _at_once(mode: str, source: bytes, keyring: Keyring, words: dict[str, Any]) -> tuple[bytes, Header]:
    """What a stream of these words gives in all, by one call of the library."""
    given = _pairs(words.pop("encryption_context", None)) if words else {}
    session = keyring._sessions.take()
    try:
        _begin(session, mode, given, **words)
        whole = session.whole(source, opens=mode == "d")
        context = given if mode == "e" else session.whole_context()
    finally:
        keyring._sessions.give_back(session)
    assert context is not None
    return whole, Header(context)


def _begin(
    session: Session,
    mode: str,
    context: dict[str, str],
    /,
    new_keyring: Optional[Keyring] = None,
    required_encryption_context_keys: Iterable[str] = _NO_KEYS,
    frame_length: int = _FRAME,
    source_length: Optional[int] = None,
    max_encrypted_data_keys: Optional[int] = None,
    max_body_length: Optional[int] = None,
    allow_uncommitted: bool = False,
) -> None:
    """Begins a message by the words of `stream`."""
    if (new_keyring is None) == (mode == "r"):
        raise TypeError("new_keyring has the keys that a message is resealed under, and no other mode has it")
    if context or required_encryption_context_keys is not _NO_KEYS:
        session.context(context, required_encryption_context_keys)
    max_keys, max_unit, length = 0, 0, ANY_LENGTH
    if max_encrypted_data_keys is not None:
        max_keys = _number("max_encrypted_data_keys", max_encrypted_data_keys, 1, 65535)
    if mode != "e" and max_body_length is not None:
        max_unit = _number("max_body_length", max_body_length, 1, 2**64 - 1)
    if mode == "d":
        session.open(max_keys, max_unit, bool(allow_uncommitted))
        return
    if frame_length is not _FRAME:
        frame_length = _number("frame_length", frame_length, 1, 2**32 - 1)
    if new_keyring is not None:
        session.reseal(new_keyring._file, frame_length, max_keys, max_unit, bool(allow_uncommitted))
        return
    if source_length is not None:
        length = _number("source_length", source_length, 0, ANY_LENGTH - 1)
    session.seal(frame_length, length, max_keys)


def _pairs(given: Optional[Mapping[str, str]]) -> dict[str, str]:
    """Its own copy. A list of pairs may have a key twice, of which `dict` would keep the last."""
    if given is None:
        return {}
    if type(given) is not dict and not isinstance(given, Mapping):
        raise TypeError(f"an encryption context is a mapping of keys to values, and not of type {type(given).__name__}")
    return dict(given)


def _number(name: str, value: int, least: int, most: int) -> int:
    """ctypes would cut a number that is too large."""
    if not isinstance(value, int) or not least <= value <= most:
        raise ValueError(f"{name} is a number from {least} to {most}, and not {value!r}")
    return value
