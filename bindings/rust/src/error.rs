//! What the library answers.

use std::fmt;
use std::io;

/// A refusal: the library's number, such as 1020, and the program's line, such as `M20 UnitTag 3`; that of `list_header`,
/// of `openers`, of `span` and of `range` is without what stands behind the name.
#[derive(Clone, Debug, PartialEq, Eq)]
pub struct Error {
    code: i32,
    line: String,
}

/// Codes of which the library tells no line.
const TOLD_BY_NONE: [(i32, &str); 31] = [
    (1001, "M1 BadVersion"),
    (1002, "M2 UnsupportedSuite"),
    (1003, "M3 BadContext"),
    (1004, "M4 NoDataKeys"),
    (1006, "M6 BadContentType"),
    (1007, "M7 BadFrameLength"),
    (1008, "M8 HeaderTooLong"),
    (1010, "M10 Truncated"),
    (1011, "M11 ReservedKey"),
    (1012, "M12 ContextMismatch"),
    (1013, "M13 MissingRequired"),
    (1014, "M14 ContextTooLong"),
    (1015, "M15 NoKeyOpens"),
    (1016, "M16 Commitment"),
    (1017, "M17 HeaderTag"),
    (1018, "M18 WrongSequence"),
    (1019, "M19 FinalTooLong"),
    (1020, "M20 UnitTag"),
    (1021, "M21 BlockTooLong"),
    (1023, "M23 Uncommitted"),
    (1024, "M24 BadType"),
    (1025, "M25 BadReserved"),
    (1026, "M26 BadIvLength"),
    (2005, "a frame length of 0"),
    (Error::OTHER_ABI, "the library is of another ABI"),
    (2008, "the processor isn't an x86-64-v2 one"),
    (2009, "no message has such a range"),
    (2010, "bytes of the message are wanted that weren't passed"),
    (4004, "X4 EntropyFault"),
    (4005, "X5 KeyringFault"),
    (5000, "Memory"),
];

/// What the number says first: the thousands of a code.
#[derive(Clone, Copy, Debug, PartialEq, Eq)]
#[non_exhaustive]
pub enum Kind {
    /// The message has a fault, or no key opens it: M1 to M26.
    Message,
    /// What was passed doesn't fit, such as a frame length of 0.
    Call,
    /// The keyring file is refused: K1 to K10.
    Keyring,
    /// No random bytes came, or a keyring failed: X4, X5.
    Outside,
    /// Memory ran out.
    Memory,
    /// The request, or the text, is refused: Q1 to Q10.
    Request,
}

impl Error {
    pub(crate) const NOT_NOW: i32 = 2002;
    pub(crate) const OTHER_ABI: i32 = 2007;

    pub(crate) fn new(code: i32, line: String) -> Error {
        if !line.is_empty() {
            return Error { code, line };
        }
        let line = TOLD_BY_NONE.iter().find(|(told, _)| *told == code);
        let line = line.map_or_else(|| format!("code {code}"), |(_, line)| line.to_string());
        Error { code, line }
    }

    pub fn code(&self) -> i32 {
        self.code
    }

    pub fn line(&self) -> &str {
        &self.line
    }

    pub fn kind(&self) -> Kind {
        match self.code / 1000 {
            1 => Kind::Message,
            3 => Kind::Keyring,
            4 => Kind::Outside,
            5 => Kind::Memory,
            6 => Kind::Request,
            _ => Kind::Call,
        }
    }

    /// The refusal inside of an error that a reader or a writer of this crate gave.
    pub fn of(error: &io::Error) -> Option<&Error> {
        error.get_ref()?.downcast_ref()
    }
}

impl fmt::Display for Error {
    fn fmt(&self, f: &mut fmt::Formatter<'_>) -> fmt::Result {
        f.write_str(&self.line)
    }
}

impl std::error::Error for Error {}

impl From<Error> for io::Error {
    fn from(error: Error) -> io::Error {
        let kind = match error.kind() {
            Kind::Message => io::ErrorKind::InvalidData,
            Kind::Memory => io::ErrorKind::OutOfMemory,
            Kind::Outside => io::ErrorKind::Other,
            _ => io::ErrorKind::InvalidInput,
        };
        io::Error::new(kind, error)
    }
}
