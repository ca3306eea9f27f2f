//! A message that is sealed, opened or resealed as it is read, or as it is written.

use crate::error::Error;
use crate::session::Session;
use crate::Context;
use std::io::{self, ErrorKind, Read, Write};

const PIECE: usize = 65_536;

/// Why no more comes.
enum Stop {
    End,
    Refused(Error),
    Outside(ErrorKind),
}

/// Reads a message that is sealed or resealed, or a text that is opened, of what is read from a source.
///
/// **What is read of a text counts only once `read` gave 0**, which says that the message was whole. Each part of the
/// text was found right before it is handed out. At a fault the text of the frames before it is handed out, and then
/// each call gives the error. What the source answers ends the stream, too, but for `Interrupted` and `WouldBlock`, and so
/// does its panic.
pub struct Reader<R> {
    session: Session,
    source: R,
    piece: Vec<u8>,
    stop: Option<Stop>,
}

impl<R: Read> Reader<R> {
    pub(crate) fn new(session: Session, source: R) -> Reader<R> {
        Reader { session, source, piece: vec![0; PIECE], stop: None }
    }

    /// The whole context of a message that is opened or resealed, once its header was read; None before, and of one that is
    /// sealed.
    pub fn context(&mut self) -> Option<Context> {
        self.session.context()
    }

    /// The source, behind what was read of it.
    pub fn into_source(self) -> R {
        self.source
    }

    /// One call of the library, with the next piece or with the end.
    fn step(&mut self) -> io::Result<()> {
        // This stays where the source panics: what it gave is lost.
        self.stop = Some(Stop::Outside(ErrorKind::Other));
        let count = match self.source.read(&mut self.piece) {
            Ok(count) => count,
            Err(error) => {
                self.stop = match error.kind() {
                    ErrorKind::Interrupted | ErrorKind::WouldBlock => None,
                    kind => Some(Stop::Outside(kind)),
                };
                return Err(error);
            }
        };
        let piece = &self.piece[..count];
        let done = if count == 0 { self.session.finish() } else { self.session.feed(piece) };
        self.stop = match done {
            Err(error) => Some(Stop::Refused(error)),
            Ok(()) if count == 0 => Some(Stop::End),
            Ok(()) => None,
        };
        Ok(())
    }
}

impl<R: Read> Read for Reader<R> {
    fn read(&mut self, room: &mut [u8]) -> io::Result<usize> {
        if room.is_empty() {
            return Ok(0);
        }
        loop {
            if self.session.waits() {
                return Ok(self.session.take(room));
            }
            match &self.stop {
                None => self.step()?,
                Some(Stop::End) => return Ok(0),
                Some(Stop::Refused(error)) => return Err(error.clone().into()),
                Some(Stop::Outside(kind)) => return Err((*kind).into()),
            }
        }
    }
}

/// Writes into a sink the message of what is written to it, or the text, or the new message, of the message that is.
///
/// **What is in the sink counts only once `finish` gave Ok.** Without it a message that is sealed isn't whole, and of a
/// text nobody said that it is. After an error, or a panic of the sink, each call gives an error.
pub struct Writer<W> {
    session: Session,
    sink: W,
    room: Vec<u8>,
    stop: Option<Stop>,
}

impl<W: Write> Writer<W> {
    pub(crate) fn new(session: Session, sink: W) -> Writer<W> {
        Writer { session, sink, room: vec![0; PIECE], stop: None }
    }

    /// The whole context of a message that is opened or resealed, once its header was written; None before, and of one that
    /// is sealed.
    pub fn context(&mut self) -> Option<Context> {
        self.session.context()
    }

    /// Says that nothing follows, and flushes the sink.
    pub fn finish(&mut self) -> io::Result<()> {
        self.goes_on()?;
        self.stop = Some(Stop::End);
        let done = self.session.finish();
        self.put(done)?;
        self.flush()
    }

    /// The sink, with what was written into it, which is nothing whole where `finish` didn't give Ok.
    pub fn into_sink(self) -> W {
        self.sink
    }

    fn goes_on(&self) -> io::Result<()> {
        match &self.stop {
            None => Ok(()),
            Some(Stop::End) => Err(io::Error::new(ErrorKind::InvalidInput, "the stream was finished")),
            Some(Stop::Refused(error)) => Err(error.clone().into()),
            Some(Stop::Outside(kind)) => Err((*kind).into()),
        }
    }

    /// Puts what waits into the sink, and then answers what the library did.
    fn put(&mut self, done: Result<(), Error>) -> io::Result<()> {
        // This stays where the sink panics: what it was to take is lost.
        let stop = self.stop.replace(Stop::Outside(ErrorKind::Other));
        while self.session.waits() {
            let count = self.session.take(&mut self.room);
            if let Err(error) = self.sink.write_all(&self.room[..count]) {
                self.stop = Some(Stop::Outside(error.kind()));
                return Err(error);
            }
        }
        self.stop = stop;
        done.map_err(|error| {
            self.stop = Some(Stop::Refused(error.clone()));
            error.into()
        })
    }
}

impl<W: Write> Write for Writer<W> {
    fn write(&mut self, piece: &[u8]) -> io::Result<usize> {
        self.goes_on()?;
        let piece = &piece[..piece.len().min(PIECE)];
        let done = self.session.feed(piece);
        self.put(done)?;
        Ok(piece.len())
    }

    /// Flushes the sink. Of what was written here, a frame that isn't full stays behind until `finish`.
    fn flush(&mut self) -> io::Result<()> {
        match self.stop {
            None | Some(Stop::End) => self.sink.flush(),
            _ => self.goes_on(),
        }
    }
}
