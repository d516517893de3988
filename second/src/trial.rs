//! Streams for tests: they give odd pieces, fail, and take note of what they were handed.

use std::cell::RefCell;
use std::io::{self, Read, Write};
use std::rc::Rc;

use crate::records;
use crate::streams::Status;

pub const EIO: i32 = 5;
pub const ENOSPC: i32 = 28;

/// Gives `bytes` in pieces of at most `size`; then the end, or a read that fails.
pub struct Pieces<'a> {
    pub bytes: &'a [u8],
    pub size: usize,
    pub fails: bool,
}

impl Read for Pieces<'_> {
    fn read(&mut self, room: &mut [u8]) -> io::Result<usize> {
        let size = self.size.min(room.len());
        match self.bytes.read(&mut room[..size])? {
            0 if self.fails => Err(io::Error::from_raw_os_error(EIO)),
            count => Ok(count),
        }
    }
}

/// Takes `room` bytes, then fails as a full disk does.
pub struct Full {
    pub taken: Vec<u8>,
    pub room: usize,
}

impl Write for Full {
    fn write(&mut self, bytes: &[u8]) -> io::Result<usize> {
        let count = bytes.len().min(self.room - self.taken.len());
        if count == 0 && !bytes.is_empty() {
            return Err(io::Error::from_raw_os_error(ENOSPC));
        }
        self.taken.extend_from_slice(&bytes[..count]);
        Ok(count)
    }

    fn flush(&mut self) -> io::Result<()> {
        Ok(())
    }
}

/// Output that its input can see.
#[derive(Clone, Default)]
pub struct Seen(pub Rc<RefCell<Vec<u8>>>);

impl Write for Seen {
    fn write(&mut self, bytes: &[u8]) -> io::Result<usize> {
        self.0.borrow_mut().write(bytes)
    }

    fn flush(&mut self) -> io::Result<()> {
        Ok(())
    }
}

/// Gives one piece after the other, and holds against the expected what had been written by then.
pub struct Talk<'a> {
    pub turns: &'a [(&'a [u8], &'a [u8])],
    pub seen: Seen,
}

impl Read for Talk<'_> {
    fn read(&mut self, room: &mut [u8]) -> io::Result<usize> {
        let Some(((piece, expected), rest)) = self.turns.split_first() else {
            return Ok(0);
        };
        assert_eq!(*self.seen.0.borrow(), *expected);
        self.turns = rest;
        room[..piece.len()].copy_from_slice(piece);
        Ok(piece.len())
    }
}

/// The bytes of a text without a wrong line.
pub fn encoded(text: &str) -> Vec<u8> {
    let (mut out, mut err) = (Vec::new(), Vec::new());
    let status = records::encode(text.as_bytes(), &mut out, &mut err);
    assert_eq!(status, Status::Accepted, "{}", String::from_utf8_lossy(&err));
    out
}

/// The text of any bytes.
pub fn decoded(bytes: &[u8], frames: bool) -> String {
    let mut out = Vec::new();
    assert_eq!(records::decode(bytes, &mut out, io::sink(), frames), Status::Accepted);
    String::from_utf8(out).unwrap()
}
