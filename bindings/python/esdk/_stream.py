"""A message that is sealed, opened or resealed as it is read."""

from __future__ import annotations

import io
import os
import threading
from collections.abc import Iterator
from dataclasses import dataclass
from typing import Any, Optional

from ._library import NOTHING, Lent, unfilled
from ._session import Session
from .errors import EsdkError, NotFinished

PIECE = 1 << 16


@dataclass(frozen=True)
class Header:
    """What a message's header says. Of one that is opened or resealed, compare the context with what you expect."""

    encryption_context: dict[str, str]


class Pieces:
    """Pieces of a file object, or of bytes in memory, which aren't copied."""

    def __init__(self, source: Any) -> None:
        self._read = getattr(source, "read", None)
        self._all: Optional[memoryview] = None
        if self._read is None:
            if isinstance(source, str):
                raise TypeError("a source is bytes-like or a file object, and this is a str: encode it")
            self._all = memoryview(source).cast("B")
            # It stays where it is as long as the memoryview is there.
            with Lent(self._all) as (self._address, self._left):
                pass

    def forget(self) -> None:
        """Lets go of the source: a bytearray may change its length again."""
        self._all, self._read, self._left = None, None, 0

    def next(self) -> tuple[Any, int]:
        """The next piece, by its address or itself, and its length; an empty one at the end alone."""
        if self._read is None:
            address, count = self._address, min(self._left, PIECE)
            self._address, self._left = address + count, self._left - count
            return address, count
        try:
            piece = came(self._read(PIECE))
        except StopIteration as error:
            # A loop over the stream would take it for the end.
            raise RuntimeError("the source raised StopIteration, and gave no end") from error
        return piece, len(piece)


def came(piece: Any) -> bytes:
    """What a file object's `read` gave."""
    if piece is None:
        raise BlockingIOError("the source has no bytes now, and isn't at its end")
    held: bytes = piece if type(piece) is bytes else memoryview(piece).tobytes()
    return held


class Stream(io.RawIOBase):
    """A file object to read a message from that is sealed or resealed, or a text from that is opened.

    **What is read of a text counts only once the end was reached**: once `read` gave b"", or the loop over the stream
    ended, with no exception. Each part of the text was found right before it is handed out; that it is whole, only
    the end says. A `with` that is left before that, and by no exception, raises NotFinished; `close` doesn't.

    Where the message has a fault, the text of the frames before it is handed out, and then MessageError is raised, by
    each later call as well. `read()` of everything gives all or raises. Any other exception within a call ends the
    stream, too, but for BlockingIOError out of `header`, of `read` of a size or of the loop, behind which one may go on: the
    other calls, and io.BufferedReader, lose what they took before it. Of a message that is resealed the same holds; what
    was read of one with a fault is no whole message.

    One thread uses it at a time, for a whole call, and another one gets a RuntimeError. So does the child of a fork: both
    processes would seal under one key with the same IVs. It isn't copied. The source isn't closed.
    """

    def __init__(self, session: Session, pieces: Pieces, context: Optional[dict[str, str]]) -> None:
        """The context is that of a message that is sealed; else the message that is read has one."""
        super().__init__()
        self._in_use = threading.Lock()
        self._process = os.getpid()
        self._session = session
        self._context = context
        self._said_end = False
        self._at_end = False
        self._fault: Optional[BaseException] = None
        self._pieces = pieces

    def readable(self) -> bool:
        return True

    def readinto(self, room: Any) -> int:
        """Fills the room, and less of it only at the end or before a fault. 0 says that the end was reached."""
        with Lent(room, writable=True) as (address, size), self._used(goes_on=False):
            return self._put(address, size, own=False) if size else 0

    def _put(self, address: int, size: int, own: bool) -> int:
        """Fills a room of some bytes: a stream's own, or a caller's."""
        try:
            count = self._fill(address, size, own)
        except BlockingIOError:
            raise
        except BaseException as fault:
            # Bytes may be lost between two calls here: so there is no way to the end any more.
            self._fault = fault
            raise
        self._at_end = count == 0
        return count

    def _fill(self, address: int, size: int, own: bool) -> int:
        if self._fault is not None and not isinstance(self._fault, EsdkError):
            # What waits stands behind bytes that are lost.
            raise self._fault
        count = 0
        while count < size:
            if self._session.waits:
                count += self._session.take(address + count, size - count)
                continue
            try:
                # A caller's room may be the source, which no call reads while it writes there.
                more = self._goes_on(address + count, size - count) if own else self._goes_on()
            except BlockingIOError:
                if count == 0:
                    raise
                break
            if more is None:
                break
            count += more
        if count == 0 and self._fault is not None:
            raise self._fault
        return count

    def readall(self) -> bytes:
        """All that follows, or the exception."""
        with self._used(goes_on=False):
            return b"".join(iter(lambda: self._part(PIECE), b""))

    def read(self, size: Optional[int] = -1) -> bytes:
        """So many bytes, or fewer at the end or before a fault; all of them where no size is given."""
        if size is None or size < 0:
            return self.readall()
        with self._used():
            parts: list[bytes] = []
            while size > 0:
                wanted = min(size, PIECE)
                try:
                    part = self._part(wanted)
                except (EsdkError, BlockingIOError):
                    # The next call raises it.
                    if parts:
                        break
                    raise
                parts.append(part)
                size -= len(part)
                if len(part) < wanted:
                    break
            return b"".join(parts)

    def readline(self, size: Optional[int] = -1) -> bytes:
        """A line, or so many bytes of it, byte by byte: io.BufferedReader over a stream is sooner done."""
        with self._used(goes_on=False):
            return self._line(size)

    def readlines(self, hint: Optional[int] = -1) -> list[bytes]:
        """Lines, where a loop over the stream has pieces: all of them, or those with so many bytes."""
        lines: list[bytes] = []
        count, most = 0, hint if hint and hint > 0 else float("inf")
        with self._used(goes_on=False):
            while count < most and (line := self._line(-1)):
                lines.append(line)
                count += len(line)
        return lines

    def _line(self, size: Optional[int]) -> bytes:
        line = bytearray()
        while (size is None or size < 0 or len(line) < size) and line[-1:] != b"\n" and (byte := self._part(1)):
            line += byte
        return bytes(line)

    def _part(self, size: int) -> bytes:
        """So many bytes, or fewer."""
        part, address = unfilled(size)
        count = self._put(address, size, own=True)
        return part if count == size else part[:count]

    def __iter__(self) -> Iterator[bytes]:
        return self

    def __next__(self) -> bytes:
        """A piece of at most 65,536 bytes, and not a line: io.BufferedReader over a stream gives lines."""
        with self._used():
            piece = self._part(PIECE)
        if not piece:
            raise StopIteration
        return piece

    @property
    def header(self) -> Header:
        """What the header says. A message that is opened or resealed is read as far as that wants; nothing counts by it."""
        if self._context is not None:
            return Header(dict(self._context))
        with self._used():
            context = self._session.whole_context()
            while context is None and self._goes_on() is not None:
                context = self._session.whole_context()
            if context is None:
                assert self._fault is not None
                raise self._fault
            return Header(context)

    def _used(self, goes_on: bool = True) -> _Use:
        """`goes_on`: nothing is lost where the source has no bytes for now."""
        if self.closed:
            raise ValueError("the stream is closed")
        if self._process != os.getpid():
            raise RuntimeError("the stream is that of the process which forked")
        return _Use(self, goes_on)

    def _goes_on(self, room: int = NOTHING, size: int = 0) -> Optional[int]:
        """One call of the library, with the next piece or with the end; None where nothing is left to be called.

        It answers how many bytes of the room were filled, also where the call was refused. The others wait.
        """
        if self._said_end or self._fault is not None:
            return None
        piece, count = self._pieces.next()
        try:
            if count:
                self._session.feed(piece, count, room, size)
            else:
                self._said_end = True
                self._session.finish(room, size)
        except EsdkError as fault:
            self._fault = fault
        return self._session.written

    def close(self) -> None:
        """Frees what the library holds, keys among it. It says nothing of what was read."""
        if not self.closed:
            with _Use(self, goes_on=True):
                self._session.close()
                self._pieces.forget()
                super().close()

    def __reduce_ex__(self, protocol: Any) -> Any:
        raise TypeError("a stream isn't copied: both would take bytes of one session")

    def __enter__(self) -> Stream:
        if self.closed:
            raise ValueError("the stream is closed")
        return self

    def __exit__(self, kind: Any, *_: object) -> None:
        left_early = not (self.closed or self._at_end)
        self.close()
        if left_early and kind is None:
            raise NotFinished("the end of the stream wasn't reached: what was read of it counts for nothing")


class _Use:
    """A call. It keeps a second thread out, which would be inside the library with the same handle or take bytes from its
    middle, and ends the stream where an exception leaves it: what it took on its way is lost.
    """

    def __init__(self, stream: Stream, goes_on: bool) -> None:
        self._stream = stream
        self._goes_on = goes_on

    def __enter__(self) -> None:
        if not self._stream._in_use.acquire(blocking=False):
            raise RuntimeError("the stream is in another call")

    def __exit__(self, kind: Any, fault: Optional[BaseException], *_: object) -> None:
        if not isinstance(fault, (BlockingIOError, type(None))):
            self._stream._fault = fault
        elif fault is not None and not self._goes_on:
            self._stream._fault = NotFinished("the source had no bytes within a call, which lost what it had read")
        self._stream._in_use.release()
