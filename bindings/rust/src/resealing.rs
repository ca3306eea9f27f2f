//! A message that goes to new keys.

use crate::session::Session;
use crate::{Context, Error, Keyring, Opening, Reader, Writer};
use std::io::{self, Read, Write};

/// How a message is resealed: opened under one keyring, and sealed anew under another, in frames of 4,096 bytes unless it is
/// said otherwise.
///
/// The new message has the text of the old one and its whole context: pairs that it stores are stored, and those that are only
/// authenticated stay so. Message id, data key and frames are new. What is read or written of it counts only once the end was
/// reached without an error, as of every message.
#[derive(Clone, Debug)]
pub struct Resealing {
    opening: Opening,
    frame_length: u32,
}

impl Default for Resealing {
    fn default() -> Resealing {
        Resealing { opening: Opening::default(), frame_length: 4_096 }
    }
}

impl Resealing {
    pub fn new() -> Resealing {
        Resealing::default()
    }

    /// How the old message is opened: pairs that are given, required keys, and limits.
    pub fn opening(mut self, opening: Opening) -> Resealing {
        self.opening = opening;
        self
    }

    /// The bytes of a frame of the new message; 0 is refused.
    pub fn frame_length(mut self, bytes: u32) -> Resealing {
        self.frame_length = bytes;
        self
    }

    fn session(&self, old: &Keyring, new: &Keyring) -> Result<Session, Error> {
        let opening = &self.opening;
        let mut session = opening.request.session(old)?;
        session.reseal(&new.0, self.frame_length, opening.max_keys, opening.max_unit, opening.uncommitted)?;
        Ok(session)
    }

    /// Reads the new message of an old one. Its `context` is the whole context of both.
    pub fn reader<R: Read>(&self, old: &Keyring, new: &Keyring, message: R) -> Result<Reader<R>, Error> {
        Ok(Reader::new(self.session(old, new)?, message))
    }

    /// Writes the new message of the old one that is written to it.
    pub fn writer<W: Write>(&self, old: &Keyring, new: &Keyring, message: W) -> Result<Writer<W>, Error> {
        Ok(Writer::new(self.session(old, new)?, message))
    }

    /// The new message of an old one, and the whole context of both.
    pub fn all(&self, old: &Keyring, new: &Keyring, message: &[u8]) -> io::Result<(Vec<u8>, Context)> {
        let mut moved = Vec::new();
        let mut reader = self.reader(old, new, message)?;
        reader.read_to_end(&mut moved)?;
        Ok((moved, reader.context().unwrap_or_default()))
    }
}
