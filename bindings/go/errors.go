package esdk

import (
	"errors"
	"fmt"
)

// Error is a refusal: the library's number, such as 1020, and the program's line, such as `M20 UnitTag 3`; that of ListHeader,
// of Openers, of FindSpan and of Range is without what stands behind the name.
type Error struct {
	Code int
	Line string
}

func (e *Error) Error() string { return "esdk: " + e.Line }

// Kind is what the number says first: 1 the message, 2 the call, 3 the keyring file, 4 what lies outside, 5 memory, 6 the request.
func (e *Error) Kind() int { return e.Code / 1000 }

// ErrNotFinished is what Close of a Writer answers where Finish didn't end without an error.
var ErrNotFinished = errors.New("esdk: the message wasn't finished: what was written counts for nothing")

// ErrClosed is what a call answers behind Close.
var ErrClosed = errors.New("esdk: closed")

// ErrFinished is what a call answers behind Finish.
var ErrFinished = errors.New("esdk: finished")

// Of these codes the library tells no line.
var toldByNone = map[int]string{
	1001: "M1 BadVersion",
	1002: "M2 UnsupportedSuite",
	1003: "M3 BadContext",
	1004: "M4 NoDataKeys",
	1006: "M6 BadContentType",
	1007: "M7 BadFrameLength",
	1008: "M8 HeaderTooLong",
	1010: "M10 Truncated",
	1011: "M11 ReservedKey",
	1012: "M12 ContextMismatch",
	1013: "M13 MissingRequired",
	1014: "M14 ContextTooLong",
	1015: "M15 NoKeyOpens",
	1016: "M16 Commitment",
	1017: "M17 HeaderTag",
	1018: "M18 WrongSequence",
	1019: "M19 FinalTooLong",
	1020: "M20 UnitTag",
	1021: "M21 BlockTooLong",
	1023: "M23 Uncommitted",
	1024: "M24 BadType",
	1025: "M25 BadReserved",
	1026: "M26 BadIvLength",
	2009: "no message has such a range",
	2010: "bytes of the message are wanted that weren't passed",
	4004: "X4 EntropyFault",
	4005: "X5 KeyringFault",
	5000: "Memory",
}

func errorOf(code int, line string) *Error {
	if line == "" {
		line = toldByNone[code]
	}
	if line == "" {
		line = fmt.Sprintf("code %d", code)
	}
	return &Error{code, line}
}
