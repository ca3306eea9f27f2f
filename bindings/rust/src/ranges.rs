//! A range of a message's text, of which no more is read than the header and the frames that hold it.

use crate::Span;
use crate::error::Error;
use crate::session::{Parts, Session, span};
use std::io::{self, Read, Seek, SeekFrom};

/// The header of a message is mostly in so many bytes.
const FRONT: u64 = 65_536;

/// No message has so much text, and so many bytes more in frames of one byte can be counted.
const MOST_TEXT: u64 = 1 << 57;

const TRUNCATED: i32 = 1010;

/// A message that begins where its source stood.
struct Message<R> {
    source: R,
    begin: u64,
}

impl<R: Read + Seek> Message<R> {
    /// So many bytes from an offset on, or as many as there are.
    fn read(&mut self, offset: u64, size: u64) -> io::Result<Vec<u8>> {
        let mut bytes = Vec::new();
        self.source.seek(SeekFrom::Start(self.begin.saturating_add(offset)))?;
        self.source.by_ref().take(size).read_to_end(&mut bytes)?;
        Ok(bytes)
    }

    /// Bytes that it begins with and that have its header, and where the range stands.
    fn front(&mut self, uncommitted: bool, at: u64, count: u64) -> io::Result<(Vec<u8>, Span)> {
        let mut size = FRONT;
        loop {
            let front = self.read(0, size)?;
            match span(&front, uncommitted, at, count) {
                Ok(span) => return Ok((front, span)),
                // There may be more of the header, and it ends.
                Err(error) if error.code() == TRUNCATED && front.len() as u64 == size => size *= 4,
                Err(error) => return Err(error.into()),
            }
        }
    }
}

/// The range, of a message whose pairs the session was given.
pub(crate) fn take<R: Read + Seek>(
    session: &mut Session,
    mut source: R,
    uncommitted: bool,
    at: u64,
    count: u64,
) -> io::Result<Vec<u8>> {
    let begin = source.stream_position()?;
    let mut message = Message { source, begin };
    let (front, span) = message.front(uncommitted, at, count.clamp(1, MOST_TEXT))?;
    let part = message.read(span.offset, span.size)?;
    // The part has no more bytes of the text than of the message.
    let most = count.min(part.len().max(1) as u64) as usize;
    let ends = (part.len() as u64) < span.size;
    let parts = Parts { front: &front, offset: span.offset, part: &part, ends };
    session.range(&parts, uncommitted, at, most).map_err(|error: Error| error.into())
}
