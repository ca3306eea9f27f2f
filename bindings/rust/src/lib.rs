//! Seals, opens and reseals messages of the AWS Encryption SDK's format, by libesdk, whose sessions are proved.
//!
//! ```no_run
//! use esdk::{Keyring, Opening, Sealing};
//!
//! let ring = Keyring::from_file("backups.key")?;
//! let message = Sealing::new().pair("set", "photos").all(&ring, b"hello")?;
//! let (text, context) = Opening::new().all(&ring, &message)?;
//! assert!(text == b"hello" && context["set"] == "photos");
//! # Ok::<(), std::io::Error>(())
//! ```
//!
//! `reader` and `writer` are for what is longer than memory, and `Resealing` moves a message to new keys. Of a context, compare what comes back with what you expect:
//! a message of another context under the same key opens as well. What stands in this crate isn't proved.

mod error;
mod ranges;
mod raw;
mod resealing;
mod session;
mod streams;

pub use error::{Error, Kind};
pub use resealing::Resealing;
pub use streams::{Reader, Writer};

use session::Session;
use std::collections::BTreeMap;
use std::fmt;
use std::io::{self, Read, Seek, Write};
use std::path::Path;

/// Pairs of keys and values.
pub type Context = BTreeMap<String, String>;

/// The bytes of a keyring file, which was found right: a key line, or JSON.
#[derive(Clone)]
pub struct Keyring(Vec<u8>);

impl Keyring {
    pub fn new(file: Vec<u8>) -> Result<Keyring, Error> {
        Session::new(&file)?;
        Ok(Keyring(file))
    }

    pub fn from_file(path: impl AsRef<Path>) -> io::Result<Keyring> {
        Ok(Keyring::new(std::fs::read(path)?)?)
    }

    /// The numbers of the leaves that open a message, each by itself, when these pairs are given.
    ///
    /// A leaf is a raw key of the file. They are numbered from 1, a generator before the children, as the program's `audit`
    /// does it; retired ones open, too. Of the message only its header is read, as by `list_header`; one of format 1.0 is 1023.
    pub fn openers(&self, message: &[u8], given: &[(&str, &str)]) -> Result<Vec<u32>, Error> {
        let mut session = Session::new(&self.0)?;
        for (key, value) in given {
            session.pair(key, value)?;
        }
        session.openers(message)
    }
}

/// The listing of the header that a message begins with: the lines that the program's `list` prints.
///
/// It wants no key, and so nothing of it is authenticated; its texts may hold characters that steer a terminal. What stands
/// behind the header isn't judged, and needn't be there: the first 65,536 bytes of a message mostly have it; where they don't,
/// that is 1010. With `uncommitted` headers of format 1.0 are listed, too.
pub fn list_header(message: &[u8], uncommitted: bool) -> Result<String, Error> {
    session::listing(message, uncommitted)
}

/// Which bytes of a message hold a range of its text, by its header.
#[derive(Clone, Copy, Debug, PartialEq, Eq)]
pub struct Span {
    /// How many bytes the header has, with its tag.
    pub header_length: u64,
    /// How many bytes of text a frame has; 0 for a single block.
    pub frame_length: u32,
    /// Where the first byte stands that is wanted.
    pub offset: u64,
    /// How many are wanted, or as many as the message has.
    pub size: u64,
}

/// Which bytes of a message hold `count` bytes of its text from byte `at` on, by the header that it begins with.
///
/// It wants no key, and so nothing of it is authenticated. Only the header is read, as by `list_header`. `Opening::range` calls
/// it, and reads these bytes.
pub fn span(message: &[u8], at: u64, count: u64, uncommitted: bool) -> Result<Span, Error> {
    session::span(message, uncommitted, at, count)
}

impl fmt::Debug for Keyring {
    /// It shows no key.
    fn fmt(&self, f: &mut fmt::Formatter<'_>) -> fmt::Result {
        f.write_str("Keyring")
    }
}

/// Pairs, in the order in which they were given, and required keys.
#[derive(Clone, Debug, Default)]
struct Request {
    pairs: Vec<(String, String)>,
    required: Vec<String>,
}

impl Request {
    fn session(&self, ring: &Keyring) -> Result<Session, Error> {
        let mut session = Session::new(&ring.0)?;
        for (key, value) in &self.pairs {
            session.pair(key, value)?;
        }
        for key in &self.required {
            session.require(key)?;
        }
        Ok(session)
    }
}

/// How a message is sealed: in frames of 4,096 bytes unless it is said otherwise.
#[derive(Clone, Debug)]
pub struct Sealing {
    request: Request,
    frame_length: u32,
    length: u64,
    max_keys: u16,
}

impl Default for Sealing {
    fn default() -> Sealing {
        Sealing { request: Request::default(), frame_length: 4_096, length: raw::ANY_LENGTH, max_keys: 0 }
    }
}

impl Sealing {
    pub fn new() -> Sealing {
        Sealing::default()
    }

    /// A pair of the encryption context, which the header stores for anyone to read.
    pub fn pair(mut self, key: &str, value: &str) -> Sealing {
        self.request.pairs.push((key.into(), value.into()));
        self
    }

    /// The pair of this key isn't stored: whoever opens the message has to give it.
    pub fn require(mut self, key: &str) -> Sealing {
        self.request.required.push(key.into());
        self
    }

    /// The bytes of a frame; 0 is refused.
    pub fn frame_length(mut self, bytes: u32) -> Sealing {
        self.frame_length = bytes;
        self
    }

    /// No longer text is taken.
    pub fn length(mut self, most: u64) -> Sealing {
        self.length = most;
        self
    }

    /// No more encrypted data keys are written; 0 is no limit.
    pub fn max_keys(mut self, most: u16) -> Sealing {
        self.max_keys = most;
        self
    }

    fn session(&self, ring: &Keyring) -> Result<Session, Error> {
        let mut session = self.request.session(ring)?;
        session.seal(self.frame_length, self.length, self.max_keys)?;
        Ok(session)
    }

    /// Reads the message of a text.
    pub fn reader<R: Read>(&self, ring: &Keyring, text: R) -> Result<Reader<R>, Error> {
        Ok(Reader::new(self.session(ring)?, text))
    }

    /// Writes the message of what is written to it.
    pub fn writer<W: Write>(&self, ring: &Keyring, message: W) -> Result<Writer<W>, Error> {
        Ok(Writer::new(self.session(ring)?, message))
    }

    /// The message of a text.
    pub fn all(&self, ring: &Keyring, text: &[u8]) -> io::Result<Vec<u8>> {
        let mut message = Vec::new();
        self.reader(ring, text)?.read_to_end(&mut message)?;
        Ok(message)
    }
}

/// How a message is opened: without limits, and of format 2.0 alone, unless it is said otherwise.
#[derive(Clone, Debug, Default)]
pub struct Opening {
    request: Request,
    max_keys: u16,
    max_unit: u64,
    uncommitted: bool,
}

impl Opening {
    pub fn new() -> Opening {
        Opening::default()
    }

    /// A pair that is given: where the message stores it, its value has to be this.
    pub fn pair(mut self, key: &str, value: &str) -> Opening {
        self.request.pairs.push((key.into(), value.into()));
        self
    }

    /// This key has to be among the pairs that are given.
    pub fn require(mut self, key: &str) -> Opening {
        self.request.required.push(key.into());
        self
    }

    /// The most encrypted data keys that the message may have; 0 is no limit.
    pub fn max_keys(mut self, most: u16) -> Opening {
        self.max_keys = most;
        self
    }

    /// The most bytes of a frame or a single block, for which memory is taken; 0 is no limit.
    pub fn max_unit(mut self, most: u64) -> Opening {
        self.max_unit = most;
        self
    }

    /// Opens messages of format 1.0, too, which don't commit to their data key.
    pub fn allow_uncommitted(mut self) -> Opening {
        self.uncommitted = true;
        self
    }

    fn session(&self, ring: &Keyring) -> Result<Session, Error> {
        let mut session = self.request.session(ring)?;
        session.open(self.max_keys, self.max_unit, self.uncommitted)?;
        Ok(session)
    }

    /// Reads the text of a message. It counts once `read` gave 0.
    pub fn reader<R: Read>(&self, ring: &Keyring, message: R) -> Result<Reader<R>, Error> {
        Ok(Reader::new(self.session(ring)?, message))
    }

    /// Writes the text of the message that is written to it. It counts once `finish` gave Ok.
    pub fn writer<W: Write>(&self, ring: &Keyring, text: W) -> Result<Writer<W>, Error> {
        Ok(Writer::new(self.session(ring)?, text))
    }

    /// The whole text of a message, and its whole context.
    pub fn all(&self, ring: &Keyring, message: &[u8]) -> io::Result<(Vec<u8>, Context)> {
        let mut text = Vec::new();
        let mut reader = self.reader(ring, message)?;
        reader.read_to_end(&mut text)?;
        Ok((text, reader.context().unwrap_or_default()))
    }

    /// `count` bytes of a message's text from byte `at` on, as far as there are any. Of the source, in which the message begins
    /// where it stands, the header is read and the frames that hold the range.
    ///
    /// Each of these is opened after its tag was found right; of the others nothing is said, nor whether the message is whole. A
    /// range that begins at the end of the text or behind it is empty, or 1010 or 1018. The limits of this opening don't count.
    pub fn range<R: Read + Seek>(&self, ring: &Keyring, message: R, at: u64, count: u64) -> io::Result<Vec<u8>> {
        ranges::take(&mut self.request.session(ring)?, message, self.uncommitted, at, count)
    }
}
