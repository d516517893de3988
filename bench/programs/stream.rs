//! Standard streams for the programs in Rust: large reads, a page that gathers the output, and the setup in front of an input.

use crate::panel::Setup;
use std::fs::File;
use std::io::{self, ErrorKind, Read, Write};
use std::os::fd::AsFd;

/// The bytes of a read, and of a write but the last.
pub const PAGE: usize = 65536;

const SETUP_BYTES: usize = 24;

/// Standard input by itself: the library's own buffer of it has 8,192 bytes.
pub fn input() -> io::Result<File> {
    Ok(File::from(io::stdin().as_fd().try_clone_to_owned()?))
}

/// One read, of what is there; 0 at the end of the input.
pub fn some(input: &mut File, buf: &mut [u8]) -> io::Result<usize> {
    loop {
        match input.read(buf) {
            Err(e) if e.kind() == ErrorKind::Interrupted => continue,
            done => return done,
        }
    }
}

/// The setup with its bytes; None where the input is shorter or the setup is not good.
pub fn setup(input: &mut File) -> io::Result<Option<(Setup, [u8; SETUP_BYTES])>> {
    let mut bytes = [0; SETUP_BYTES];
    match input.read_exact(&mut bytes) {
        Err(e) if e.kind() == ErrorKind::UnexpectedEof => return Ok(None),
        done => done?,
    }
    let number = |i: usize| u32::from_le_bytes([bytes[4 * i], bytes[4 * i + 1], bytes[4 * i + 2], bytes[4 * i + 3]]);
    let setup =
        Setup { n: number(0), x: number(1), y: number(2), pressure: number(3), major: number(4), minor: number(5) };
    Ok(setup.ok().then_some((setup, bytes)))
}

/// Standard output with a page in front. Rust's own looks for the last end of a line in all that is written.
pub struct Output {
    file: File,
    pub page: Box<[u8]>,
    pub held: usize,
}

impl Output {
    pub fn new() -> io::Result<Output> {
        let file = File::from(io::stdout().as_fd().try_clone_to_owned()?);
        Ok(Output { file, page: vec![0; PAGE].into(), held: 0 })
    }

    pub fn flush(&mut self) -> io::Result<()> {
        self.file.write_all(&self.page[..self.held])?;
        self.held = 0;
        Ok(())
    }

    /// Makes room for so many bytes.
    pub fn roomy(&mut self, room: usize) -> io::Result<()> {
        if self.page.len() - self.held < room {
            self.flush()?;
        }
        Ok(())
    }

    pub fn say(&mut self, bytes: &[u8]) -> io::Result<()> {
        self.roomy(bytes.len())?;
        self.page[self.held..self.held + bytes.len()].copy_from_slice(bytes);
        self.held += bytes.len();
        Ok(())
    }
}
