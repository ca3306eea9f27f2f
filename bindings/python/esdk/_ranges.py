"""A range of a message's text, of which no more is read than the header and the frames that hold it."""

from __future__ import annotations

import io
from typing import Any, Optional

from ._library import Lent
from ._session import Session, Span
from ._session import span as span_of
from ._stream import came
from .errors import MessageError

# The header of a message is mostly in so many bytes.
_FRONT = 1 << 16
_TRUNCATED = 1010
# No message has so much text, and so many bytes more in frames of one byte can be counted.
_MOST_TEXT = 1 << 57


class Message:
    """A message that is read in parts: what is bytes-like, or a file object with `seek`."""

    def __init__(self, source: Any) -> None:
        self._file: Any = source if hasattr(source, "seek") else None
        self._all = memoryview(source).cast("B") if self._file is None else None
        self._begin = 0 if self._file is None else self._go_to(0, io.SEEK_CUR)

    def _go_to(self, offset: int, whence: int) -> int:
        """Where it stands then, which the `seek` of an mmap doesn't say."""
        place: Optional[int] = self._file.seek(offset, whence)
        return int(self._file.tell()) if place is None else place

    def read(self, offset: int, size: int) -> bytes:
        """So many bytes from an offset on, or as many as there are."""
        if self._all is not None:
            return bytes(self._all[offset : offset + size])
        end = self._go_to(0, io.SEEK_END)
        left = min(size, end - self._begin - offset)
        if left > 0:
            self._go_to(self._begin + offset, io.SEEK_SET)
        parts = []
        while left > 0 and (piece := came(self._file.read(left))):
            parts.append(piece)
            left -= len(piece)
        return b"".join(parts)

    def leave(self) -> None:
        """Has the file stand where the message begins, for the next range."""
        if self._file is not None:
            self._go_to(self._begin, io.SEEK_SET)

    def front(self, at: int, count: int, uncommitted: bool) -> tuple[bytes, Span]:
        """Bytes that it begins with and that have its header, and where the range stands."""
        size = _FRONT
        while True:
            front = self.read(0, size)
            try:
                with Lent(front) as lent:
                    return front, span_of(*lent, uncommitted, at, count)
            except MessageError as error:
                # There may be more of the header, and it ends.
                if error.code != _TRUNCATED or len(front) < size:
                    raise
                size *= 4


def take(session: Session, message: Message, at: int, count: int, uncommitted: bool) -> bytes:
    """The range, of a message whose pairs the session was given."""
    try:
        front, span = message.front(at, min(max(count, 1), _MOST_TEXT), uncommitted)
        part = message.read(span.offset, span.size)
    finally:
        message.leave()
    # The part has no more bytes of the text than of the message.
    most = min(count, max(len(part), 1))
    return session.range(front, span.offset, part, len(part) < span.size, uncommitted, at, most)
