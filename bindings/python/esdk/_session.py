"""A handle of the library, and those that a keyring keeps for its next messages."""

from __future__ import annotations

import ctypes
from collections.abc import Iterable, Mapping
from ctypes import addressof, byref, c_size_t
from dataclasses import dataclass
from typing import Any, Optional

from ._library import NOTHING, Handle, Lent, load
from .errors import error_of

_library = load()
# Of each short message: here they are found sooner than in the library.
_again, _close, _pairs = _library.esdk_again, _library.esdk_close, _library.esdk_pairs
_seal, _open, _whole = _library.esdk_seal, _library.esdk_open, _library.esdk_whole

# The longest line has a key of 65,535 bytes in it, and each of these may be written as six.
_MOST_OF_LINE = 524288
# A session's own room. Each text of a pair fits into it, and mostly what comes of a source of `WHOLE` bytes.
_ROOM = 1 << 17
# The most bytes of a source that one call of the library takes whole.
WHOLE = 1 << 16
# So many sessions of a keyring are kept for its next messages.
_MOST_KEPT = 16
# A keyring file's tree has no more leaves.
_MOST_LEAVES = 64
ANY_LENGTH = 2**64 - 1


class Session:
    """A keyring file's tree, and a message. Each call raises what the library answers."""

    def __init__(self, file: Any) -> None:
        self._handle = Handle()
        self._at = addressof(self._handle)
        self._written, self._waits = c_size_t(), c_size_t()
        self._written_at, self._waits_at = addressof(self._written), addressof(self._waits)
        self._room: Any = None
        self._room_at = 0
        # So many bytes of it are text of a message that was opened.
        self._text_in_room = 0
        self._freed = False
        try:
            with Lent(file) as lent:
                self._judge(_library.esdk_new(self._at, *lent))
        except BaseException:
            self.close()
            raise

    def close(self) -> None:
        """Frees what the library holds. It may be called again."""
        if not self._freed:
            self._freed = True
            _close(self._at)

    def __del__(self) -> None:
        # Where __init__ failed early there is no handle; where the interpreter ends, no library.
        if not getattr(self, "_freed", True) and _close is not None:
            self.close()

    def again(self) -> bool:
        """Sets it up for another message, with nothing left of the last one. False where that can't be done."""
        self._waits.value = 0
        if self._text_in_room:
            self._room.raw = bytes(self._text_in_room)
            self._text_in_room = 0
        return not _again(self._at)

    def _judge(self, code: int) -> None:
        if code:
            raise error_of(code, self._line())

    def _line(self) -> str:
        room = ctypes.create_string_buffer(256)
        count = _library.esdk_error(self._at, room, len(room))
        if count > len(room):
            room = ctypes.create_string_buffer(min(count, _MOST_OF_LINE))
            count = min(_library.esdk_error(self._at, room, len(room)), len(room))
        return room.raw[:count].decode("utf-8", "replace")

    def context(self, pairs: Mapping[str, str], required: Iterable[str]) -> None:
        for key, value in pairs.items():
            one, other = bytes(key.encode()), bytes(value.encode())
            self._judge(_library.esdk_pair(self._at, one, len(one), other, len(other)))
        for key in required:
            one = bytes(key.encode())
            self._judge(_library.esdk_require(self._at, one, len(one)))

    def seal(self, frame_length: int, length: int, max_keys: int) -> None:
        """Begins a message that is sealed. What it begins with waits, and `waits` doesn't know of it yet."""
        code = _seal(self._at, frame_length, length, max_keys)
        if code:
            self._judge(code)

    def open(self, max_keys: int, max_unit: int, uncommitted: bool) -> None:
        code = _open(self._at, max_keys, max_unit, uncommitted)
        if code:
            self._judge(code)

    def reseal(self, file: bytes, frame_length: int, max_keys: int, max_unit: int, uncommitted: bool) -> None:
        """Begins a message that is opened, and sealed anew under the keys of this file. Nothing of that waits yet."""
        code = _library.esdk_reseal(self._at, file, len(file), frame_length, max_keys, max_unit, uncommitted)
        self._judge(code)

    def feed(self, address: Any, count: int, room: int = NOTHING, size: int = 0) -> None:
        """Takes a piece. The room, which lies apart from it, gets what it gives; what has no room waits."""
        self._judge(_library.esdk_feed(self._at, address, count, room, size, self._written_at, self._waits_at))

    def finish(self, room: int = NOTHING, size: int = 0) -> None:
        """Says that no byte follows. The room gets what that gives; what has no room waits."""
        self._judge(_library.esdk_finish(self._at, room, size, self._written_at, self._waits_at))

    def take(self, address: Any, room: int) -> int:
        """Hands out of what waits, and answers how many bytes that were."""
        self._judge(_library.esdk_take(self._at, address, room, self._written_at, self._waits_at))
        return self._written.value

    def whole(self, source: bytes, opens: bool) -> bytes:
        """What a whole text or a whole message gives; where that is refused, nothing of it. `opens`: that is a text."""
        room = self._room or self.room()
        code = _whole(self._at, source, len(source), self._room_at, _ROOM, self._written_at, self._waits_at)
        if code:
            self._judge(code)
        written, waits = self._written.value, self._waits.value
        if opens:
            self._text_in_room = _ROOM if waits else written
        front: bytes = room[:written]
        return front + self._rest() if waits else front

    def _rest(self) -> bytes:
        """All that waits."""
        room, parts = self.room(), []
        while self._waits.value:
            parts.append(room[: self.take(room, _ROOM)])
        return b"".join(parts)

    def room(self) -> Any:
        """Its own room, which is no caller's. A slice of it is bytes."""
        if self._room is None:
            self._room = ctypes.create_string_buffer(_ROOM)
            self._room_at = addressof(self._room)
        return self._room

    @property
    def written(self) -> int:
        """How many bytes the last call handed out."""
        return self._written.value

    @property
    def waits(self) -> int:
        """How many bytes wait behind the last call."""
        return self._waits.value

    def whole_context(self) -> Optional[dict[str, str]]:
        """The context of the message that is opened or resealed, once its header was unlocked."""
        count = _pairs(self._at)
        if count < 0:
            return None
        return {self._text(_library.esdk_pair_key, at): self._text(_library.esdk_pair_value, at) for at in range(count)}

    def _text(self, function: Any, at: int) -> str:
        room = self._room or self.room()
        count: int = function(self._at, at, room, _ROOM)
        text: bytes = room[:count]
        return text.decode()

    def openers(self, address: Any, count: int) -> list[int]:
        """The leaves that open a message, each by itself, with the pairs that were put. It stays set up."""
        numbers, whole = (ctypes.c_uint32 * _MOST_LEAVES)(), c_size_t()
        self._judge(_library.esdk_openers(self._at, address, count, numbers, _MOST_LEAVES, byref(whole)))
        return numbers[: whole.value]

    def range(self, front: Any, offset: int, part: Any, ends: bool, uncommitted: bool, at: int, count: int) -> bytes:
        """So many bytes of a message's text from one on, as far as there are any. It stays set up."""
        room, written = ctypes.create_string_buffer(count + 1), c_size_t()
        with Lent(front) as first, Lent(part) as second:
            code = _library.esdk_range(
                self._at, *first, offset, *second, ends, uncommitted, at, room, count, byref(written)
            )
        self._judge(code)
        return room.raw[: written.value]


class Sessions:
    """The sessions of a keyring file. Whoever takes one has it alone until it is given back, once."""

    def __init__(self, file: bytes) -> None:
        self._file = file
        self._kept: list[Session] = []

    def take(self) -> Session:
        """A session that is set up."""
        try:
            return self._kept.pop()
        except IndexError:
            return Session(self._file)

    def give_back(self, session: Session) -> None:
        """Keeps it for another message, where few are kept and it can be set up again; else frees it."""
        if len(self._kept) < _MOST_KEPT and session.again():
            self._kept.append(session)
        else:
            session.close()


@dataclass(frozen=True)
class Span:
    """Which bytes of a message hold a range of its text, by its header.

    `header_length` is how many bytes the header has with its tag, and `frame_length` how many of the text a frame has, 0
    for a single block. The bytes stand from `offset` on, `size` of them, or as many as the message has.
    """

    header_length: int
    frame_length: int
    offset: int
    size: int


def span(address: Any, length: int, uncommitted: bool, at: int, count: int) -> Span:
    """Which bytes hold so many of the text from one on, of a message that begins so."""
    header, frame, offset, size = ctypes.c_uint64(), ctypes.c_uint32(), ctypes.c_uint64(), ctypes.c_uint64()
    code = _library.esdk_span(
        address, length, uncommitted, at, count, byref(header), byref(frame), byref(offset), byref(size)
    )
    if code:
        raise error_of(code, "")
    return Span(header.value, frame.value, offset.value, size.value)


def listing(address: Any, count: int, uncommitted: bool) -> str:
    """The listing of the header that a message begins with."""
    size, whole = 4096, c_size_t()
    while True:
        room = ctypes.create_string_buffer(size)
        code = _library.esdk_list(address, count, uncommitted, room, size, byref(whole))
        if code:
            raise error_of(code, "")
        if whole.value <= size:
            return room.raw[: whole.value].decode()
        size = whole.value
