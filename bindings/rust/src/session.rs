//! One handle of the library.
//!
//! Each call in `unsafe` meets what esdk.h asks of a caller: the handle was all zero, and only the library wrote it since;
//! it is moved, and never copied, and `&mut self` keeps a second call out. A slice's pointer isn't null, and what the
//! library writes is borrowed as `&mut`, so that nothing overlaps it. `esdk_check` is called first.

use crate::error::Error;
use crate::raw::{self, Handle};
use crate::{Context, Span};
use std::process;

/// The longest text of a pair.
const MOST_OF_TEXT: usize = 65_535;

/// The most leaves of a keyring file's tree.
const MOST_LEAVES: usize = 64;

/// What a message begins with, and what it has at an offset; whether it ends behind that.
pub(crate) struct Parts<'a> {
    pub(crate) front: &'a [u8],
    pub(crate) offset: u64,
    pub(crate) part: &'a [u8],
    pub(crate) ends: bool,
}

pub(crate) struct Session {
    handle: Handle,
    waits: usize,
    /// The process that made it. A fork would seal under the same key, with the same IVs.
    process: u32,
}

// SAFETY: nothing in a handle belongs to a thread, so that it may go to another one between two calls (esdk.h, "What a caller
// owes", 1). That is proved of the library (docs/PROOFS.md, "The library for other languages").
unsafe impl Send for Session {}

impl Drop for Session {
    fn drop(&mut self) {
        unsafe { raw::esdk_close(&mut self.handle) }
    }
}

impl Session {
    pub(crate) fn new(file: &[u8]) -> Result<Session, Error> {
        check()?;
        let mut session = Session { handle: Handle::new(), waits: 0, process: process::id() };
        let code = unsafe { raw::esdk_new(&mut session.handle, file.as_ptr(), file.len()) };
        session.judge(code)?;
        Ok(session)
    }

    fn judge(&mut self, code: i32) -> Result<(), Error> {
        if code == 0 {
            return Ok(());
        }
        Err(Error::new(code, self.line()))
    }

    fn line(&mut self) -> String {
        let mut room = vec![0; 256];
        loop {
            let count = unsafe { raw::esdk_error(&mut self.handle, room.as_mut_ptr(), room.len()) };
            if count <= room.len() {
                return String::from_utf8_lossy(&room[..count]).into_owned();
            }
            room.resize(count, 0);
        }
    }

    pub(crate) fn pair(&mut self, key: &str, value: &str) -> Result<(), Error> {
        let code = unsafe {
            raw::esdk_pair(&mut self.handle, key.as_ptr(), key.len(), value.as_ptr(), value.len())
        };
        self.judge(code)
    }

    pub(crate) fn require(&mut self, key: &str) -> Result<(), Error> {
        let code = unsafe { raw::esdk_require(&mut self.handle, key.as_ptr(), key.len()) };
        self.judge(code)
    }

    pub(crate) fn seal(&mut self, frame: u32, length: u64, max_keys: u16) -> Result<(), Error> {
        let code = unsafe { raw::esdk_seal(&mut self.handle, frame, length, max_keys) };
        self.judge(code)?;
        // What the message begins with waits, and this says how much.
        self.take(&mut []);
        Ok(())
    }

    pub(crate) fn open(&mut self, max_keys: u16, max_unit: u64, uncommitted: bool) -> Result<(), Error> {
        let code = unsafe { raw::esdk_open(&mut self.handle, max_keys, max_unit, uncommitted) };
        self.judge(code)
    }

    /// What is fed is a message, and what it gives a new one under the keys of this file.
    pub(crate) fn reseal(
        &mut self,
        file: &[u8],
        frame: u32,
        max_keys: u16,
        max_unit: u64,
        uncommitted: bool,
    ) -> Result<(), Error> {
        let code = unsafe {
            raw::esdk_reseal(&mut self.handle, file.as_ptr(), file.len(), frame, max_keys, max_unit, uncommitted)
        };
        self.judge(code)
    }

    fn is_own(&self) -> Result<(), Error> {
        if self.process == process::id() {
            return Ok(());
        }
        Err(Error::new(Error::NOT_NOW, "the session is that of the process which forked".into()))
    }

    /// Takes the whole piece; what it gives waits.
    pub(crate) fn feed(&mut self, piece: &[u8]) -> Result<(), Error> {
        self.is_own()?;
        let (mut none, mut written) = ([], 0);
        let code = unsafe {
            raw::esdk_feed(
                &mut self.handle,
                piece.as_ptr(),
                piece.len(),
                none.as_mut_ptr(),
                0,
                &mut written,
                &mut self.waits,
            )
        };
        self.judge(code)
    }

    /// Says that no byte follows; what that gives waits.
    pub(crate) fn finish(&mut self) -> Result<(), Error> {
        self.is_own()?;
        let (mut none, mut written) = ([], 0);
        let code = unsafe {
            raw::esdk_finish(&mut self.handle, none.as_mut_ptr(), 0, &mut written, &mut self.waits)
        };
        self.judge(code)
    }

    /// Hands out of what waits, and answers how many bytes.
    pub(crate) fn take(&mut self, room: &mut [u8]) -> usize {
        let mut written = 0;
        unsafe {
            raw::esdk_take(
                &mut self.handle,
                room.as_mut_ptr(),
                room.len(),
                &mut written,
                &mut self.waits,
            );
        }
        written
    }

    pub(crate) fn waits(&self) -> bool {
        self.waits > 0
    }

    pub(crate) fn context(&mut self) -> Option<Context> {
        let count = unsafe { raw::esdk_pairs(&mut self.handle) };
        let count = usize::try_from(count).ok()?;
        (0..count).map(|at| Some((self.text(raw::esdk_pair_key, at)?, self.text(raw::esdk_pair_value, at)?))).collect()
    }

    /// The leaves that open a message, each by itself, with the pairs that were put. The session stays set up.
    pub(crate) fn openers(&mut self, message: &[u8]) -> Result<Vec<u32>, Error> {
        let (mut numbers, mut whole) = (vec![0; MOST_LEAVES], 0);
        let code = unsafe {
            raw::esdk_openers(
                &mut self.handle,
                message.as_ptr(),
                message.len(),
                numbers.as_mut_ptr(),
                numbers.len(),
                &mut whole,
            )
        };
        self.judge(code)?;
        numbers.truncate(whole);
        Ok(numbers)
    }

    /// So many bytes of a message's text from one on, as far as there are any. The session stays set up.
    pub(crate) fn range(&mut self, parts: &Parts<'_>, uncommitted: bool, at: u64, count: usize) -> Result<Vec<u8>, Error> {
        let (mut room, mut written) = (vec![0; count], 0);
        let code = unsafe {
            raw::esdk_range(
                &mut self.handle,
                parts.front.as_ptr(),
                parts.front.len(),
                parts.offset,
                parts.part.as_ptr(),
                parts.part.len(),
                parts.ends,
                uncommitted,
                at,
                room.as_mut_ptr(),
                room.len(),
                &mut written,
            )
        };
        self.judge(code)?;
        room.truncate(written);
        Ok(room)
    }

    fn text(&mut self, tell: Tell, at: usize) -> Option<String> {
        let mut room = vec![0; MOST_OF_TEXT];
        let count = unsafe { tell(&mut self.handle, at, room.as_mut_ptr(), room.len()) };
        room.truncate(usize::try_from(count).ok()?);
        String::from_utf8(room).ok()
    }
}

/// Whether the library is of this ABI, and the processor one of its.
fn check() -> Result<(), Error> {
    let fits = unsafe {
        if raw::esdk_abi() == raw::ABI {
            raw::esdk_check()
        } else {
            Error::OTHER_ABI
        }
    };
    if fits == 0 { Ok(()) } else { Err(Error::new(fits, String::new())) }
}

/// Which bytes hold so many of the text from one on, of a message that begins so.
pub(crate) fn span(message: &[u8], uncommitted: bool, at: u64, count: u64) -> Result<Span, Error> {
    check()?;
    let mut span = Span { header_length: 0, frame_length: 0, offset: 0, size: 0 };
    let code = unsafe {
        raw::esdk_span(
            message.as_ptr(),
            message.len(),
            uncommitted,
            at,
            count,
            &mut span.header_length,
            &mut span.frame_length,
            &mut span.offset,
            &mut span.size,
        )
    };
    if code == 0 { Ok(span) } else { Err(Error::new(code, String::new())) }
}

/// The listing of the header that a message begins with.
pub(crate) fn listing(message: &[u8], uncommitted: bool) -> Result<String, Error> {
    check()?;
    let (mut room, mut whole) = (vec![0; 4096], 0);
    loop {
        let code = unsafe {
            raw::esdk_list(
                message.as_ptr(),
                message.len(),
                uncommitted,
                room.as_mut_ptr(),
                room.len(),
                &mut whole,
            )
        };
        if code != 0 {
            return Err(Error::new(code, String::new()));
        }
        if whole <= room.len() {
            return Ok(String::from_utf8_lossy(&room[..whole]).into_owned());
        }
        room.resize(whole, 0);
    }
}

type Tell = unsafe extern "C" fn(*mut Handle, usize, *mut u8, usize) -> i32;
