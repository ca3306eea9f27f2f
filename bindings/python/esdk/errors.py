"""What the library answers, as exceptions."""

from __future__ import annotations

# The codes of which the library tells no line: those of a header, of `openers` and of a range, and of family 2. esdk.h says more.
_LINES = {
    1001: "M1 BadVersion",
    1002: "M2 UnsupportedSuite",
    1003: "M3 BadContext",
    1004: "M4 NoDataKeys",
    1006: "M6 BadContentType",
    1007: "M7 BadFrameLength",
    1008: "M8 HeaderTooLong",
    1010: "M10 Truncated",
    1011: "M11 ReservedKey",
    1012: "M12 ContextMismatch",
    1013: "M13 MissingRequired",
    1014: "M14 ContextTooLong",
    1015: "M15 NoKeyOpens",
    1016: "M16 Commitment",
    1017: "M17 HeaderTag",
    1018: "M18 WrongSequence",
    1019: "M19 FinalTooLong",
    1020: "M20 UnitTag",
    1021: "M21 BlockTooLong",
    1023: "M23 Uncommitted",
    1024: "M24 BadType",
    1025: "M25 BadReserved",
    1026: "M26 BadIvLength",
    2001: "there is no session",
    2002: "the call doesn't fit",
    2003: "the session has ended",
    2004: "a key or a value isn't UTF-8",
    2005: "a frame length of 0",
    2006: "another number of random bytes is wanted",
    2009: "no message has such a range",
    2010: "bytes of the message are wanted that weren't passed",
    4004: "X4 EntropyFault",
    4005: "X5 KeyringFault",
    5000: "Memory",
}


class EsdkError(Exception):
    """`code` is the library's number, such as 1020, and `line` the program's line, such as `M20 UnitTag 3`.

    The line of `list_header`, of `openers`, of `span` and of `decrypt_range` is without what stands behind the name: `M1 BadVersion`.
    """

    def __init__(self, code: int, line: str) -> None:
        super().__init__(code, line)
        self.code = code
        self.line = line

    def __str__(self) -> str:
        return self.line


class MessageError(EsdkError):
    """The message has a fault, or no key opens it: M1 to M26."""


class CallError(EsdkError):
    """What was passed doesn't fit. Where that comes, this package has a fault."""


class KeyringError(EsdkError):
    """The keyring file is refused: K1 to K10."""


class OutsideError(EsdkError):
    """No random bytes came, or a keyring failed: X4, X5."""


class MemoryRanOut(EsdkError, MemoryError):
    """Memory ran out."""


class RequestError(EsdkError):
    """The request, or the text, is refused: Q1 to Q10."""


class NotFinished(Exception):
    """A `with` was left before the stream's end was reached, or a call lost what it had read: what was read counts for
    nothing.
    """


_FAMILIES = {
    1: MessageError,
    2: CallError,
    3: KeyringError,
    4: OutsideError,
    5: MemoryRanOut,
    6: RequestError,
}


def error_of(code: int, line: str) -> EsdkError:
    """The exception of a code, and of the session's line where it has one."""
    return _FAMILIES.get(code // 1000, EsdkError)(code, line or _LINES.get(code, f"code {code}"))
