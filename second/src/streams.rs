//! A program's streams: input in a fixed buffer, output that is written before more input is waited for, words on standard error, and the status.

use std::io::{self, BufWriter, Read, Write};
use std::ops::Range;

/// Bytes that are held of the input, and bytes of output that are collected. More than any unit of [`Streams::units`].
const ROOM: usize = 1 << 16;

/// How a program ends; the higher one counts.
#[derive(Clone, Copy, PartialEq, Eq, PartialOrd, Ord, Debug)]
pub enum Status {
    Accepted,
    /// A setup, a frame, cut records or a line was refused.
    Refused,
    /// A read or a write failed, or the program could not be started.
    Failed,
}

impl Status {
    /// The exit status of docs/PROGRAMS.md.
    pub fn number(self) -> u8 {
        self as u8
    }
}

/// What came of waiting for more input.
#[derive(Clone, Copy, PartialEq, Eq, Debug)]
pub enum Came {
    More,
    End,
    /// A read failed, which has been said.
    Lost,
}

/// The system's words for an error, without the number that Rust adds to them.
pub fn text(error: &io::Error) -> String {
    let words = error.to_string();
    match error.raw_os_error() {
        Some(number) => words.strip_suffix(&format!(" (os error {number})")).unwrap_or(&words).to_string(),
        None => words,
    }
}

/// The input: what has come and has not been taken yet lies in a fixed buffer.
pub struct Input<R> {
    from: R,
    buffer: Vec<u8>,
    held: Range<usize>,
}

impl<R: Read> Input<R> {
    fn new(from: R) -> Input<R> {
        Input { from, buffer: vec![0; ROOM], held: 0..0 }
    }

    /// What has come and has not been taken yet.
    pub fn held(&self) -> &[u8] {
        &self.buffer[self.held.clone()]
    }

    /// Lets the first `count` of the held bytes go.
    pub fn take(&mut self, count: usize) {
        self.held.start += count;
    }

    /// One read, behind what is held; 0 at the end of the input.
    fn read(&mut self) -> io::Result<usize> {
        self.buffer.copy_within(self.held.clone(), 0);
        self.held = 0..self.held.len();
        debug_assert!(self.held.end < ROOM, "without room a read gives 0, as at the end");
        loop {
            match self.from.read(&mut self.buffer[self.held.end..]) {
                // A signal came in between; nothing is lost.
                Err(error) if error.kind() == io::ErrorKind::Interrupted => {}
                Err(error) => return Err(error),
                Ok(count) => {
                    self.held.end += count;
                    return Ok(count);
                }
            }
        }
    }
}

/// What is said on standard error, and the status that comes of it.
pub struct Words<E> {
    name: &'static str,
    to: E,
    status: Status,
}

impl<E: Write> Words<E> {
    /// A line that begins with the program's name.
    pub fn say(&mut self, words: &str) {
        self.line(&format!("{}: {words}", self.name));
    }

    /// A line as it stands. One write, or lines of several programs would mix.
    pub fn line(&mut self, line: &str) {
        if self.to.write_all(format!("{line}\n").as_bytes()).is_err() {
            // Nowhere is left to say it, and the output has no hole: so it is only told by the status.
            self.at_least(Status::Failed);
        }
    }

    /// Raises the status, if it is lower.
    pub fn at_least(&mut self, status: Status) {
        self.status = self.status.max(status);
    }

    fn failed(&mut self, what: &str, error: &io::Error) {
        self.say(&format!("{what} failed: {}", text(error)));
        self.at_least(Status::Failed);
    }
}

/// The three streams of one program. An error that its functions hand on is a failed write to standard output.
pub struct Streams<R, W: Write, E> {
    pub input: Input<R>,
    pub out: BufWriter<W>,
    pub words: Words<E>,
}

impl<R: Read, W: Write, E: Write> Streams<R, W, E> {
    /// The streams of the program of that name.
    pub fn new(name: &'static str, input: R, out: W, err: E) -> Streams<R, W, E> {
        Streams {
            input: Input::new(input),
            out: BufWriter::with_capacity(ROOM, out),
            words: Words { name, to: err, status: Status::Accepted },
        }
    }

    /// Writes what was collected, and only then waits for more input. Not to be called again after `End` or `Lost`.
    pub fn more(&mut self) -> io::Result<Came> {
        self.out.flush()?;
        Ok(match self.input.read() {
            Ok(0) => Came::End,
            Ok(_) => Came::More,
            Err(error) => {
                self.words.failed("a read from standard input", &error);
                Came::Lost
            }
        })
    }

    /// Waits until `count` bytes are held; `More` where they are.
    pub fn hold(&mut self, count: usize) -> io::Result<Came> {
        while self.input.held().len() < count {
            match self.more()? {
                Came::More => {}
                ended => return Ok(ended),
            }
        }
        Ok(Came::More)
    }

    /// Hands over the input in runs of whole units of `size` bytes, until it ends or is lost. Less than a unit is then still held.
    pub fn units<F: From<io::Error>>(
        &mut self,
        size: usize,
        mut each: impl FnMut(&[u8], &mut BufWriter<W>, &mut Words<E>) -> Result<(), F>,
    ) -> Result<Came, F> {
        loop {
            let held = self.input.held();
            let whole = held.len() / size * size;
            each(&held[..whole], &mut self.out, &mut self.words)?;
            self.input.take(whole);
            match self.more()? {
                Came::More => {}
                ended => return Ok(ended),
            }
        }
    }

    /// Writes the rest, unless a write failed before, and gives the status.
    pub fn end(self, done: io::Result<()>) -> Status {
        self.end_unless(done, |_| false)
    }

    /// The same, but a reader who went away has seen enough: no failure, as in `| head`.
    pub fn end_or_closed(self, done: io::Result<()>) -> Status {
        self.end_unless(done, |error| error.kind() == io::ErrorKind::BrokenPipe)
    }

    fn end_unless(mut self, done: io::Result<()>, allowed: impl Fn(&io::Error) -> bool) -> Status {
        match done.and_then(|()| self.out.flush()) {
            Err(error) if !allowed(&error) => self.words.failed("a write to standard output", &error),
            _ => {}
        }
        // Dropped as it is, the writer would try once more: what comes after a hole is worse than nothing.
        let _ = self.out.into_parts();
        self.words.status
    }
}

/// Lines put together from pieces. Of a line longer than `longest` one byte more than that is held, which tells it.
pub struct Lines {
    longest: usize,
    line: Vec<u8>,
}

impl Lines {
    /// No piece has come yet.
    pub fn new(longest: usize) -> Lines {
        Lines { longest, line: Vec::new() }
    }

    /// Takes the next piece, and gives each line that it ends.
    pub fn take<F>(&mut self, piece: &[u8], mut give: impl FnMut(&[u8]) -> Result<(), F>) -> Result<(), F> {
        let mut rest = piece;
        while let Some(end) = rest.iter().position(|byte| *byte == b'\n') {
            self.hold(&rest[..end]);
            give(&self.line)?;
            self.line.clear();
            rest = &rest[end + 1..];
        }
        self.hold(rest);
        Ok(())
    }

    /// The line that no newline ended; empty where there is none.
    pub fn last(&self) -> &[u8] {
        &self.line
    }

    fn hold(&mut self, part: &[u8]) {
        let room = self.longest + 1 - self.line.len();
        self.line.extend_from_slice(&part[..part.len().min(room)]);
    }
}

#[cfg(test)]
mod tests {
    use super::*;
    use crate::trial::*;

    #[test]
    fn the_systems_words() {
        assert_eq!(text(&io::Error::from_raw_os_error(ENOSPC)), "No space left on device");
        assert_eq!(text(&io::Error::other("gone")), "gone");
    }

    #[test]
    fn units_of_any_pieces() {
        let bytes: Vec<u8> = (0..100).collect();
        for size in 1..20 {
            for piece in 1..25 {
                let input = Pieces { bytes: &bytes, size: piece, fails: piece % 2 == 0 };
                let mut streams = Streams::new("trial", input, io::sink(), io::sink());
                let mut whole = Vec::new();
                let came = streams.units(size, |run, _, _| -> io::Result<()> {
                    assert_eq!(run.len() % size, 0);
                    whole.extend_from_slice(run);
                    Ok(())
                });
                assert_eq!(came.unwrap(), if piece % 2 == 0 { Came::Lost } else { Came::End });
                assert_eq!(whole, bytes[..100 / size * size]);
                assert_eq!(streams.input.held(), &bytes[100 / size * size..]);
            }
        }
    }

    #[test]
    fn an_interrupted_read_is_read_again() {
        struct Interrupted(u32);
        impl Read for Interrupted {
            fn read(&mut self, room: &mut [u8]) -> io::Result<usize> {
                self.0 += 1;
                if self.0 < 4 {
                    return Err(io::ErrorKind::Interrupted.into());
                }
                room[0] = 7;
                Ok(1)
            }
        }
        let mut streams = Streams::new("trial", Interrupted(0), io::sink(), io::sink());
        assert_eq!(streams.hold(1).unwrap(), Came::More);
        assert_eq!(streams.input.held(), [7]);
    }

    #[test]
    fn lines_of_any_pieces() {
        let text = b"one\n\n12345\n123456\n1234567890123\nlast";
        let expected = ["one", "", "12345", "123456", "123456"];
        for size in 1..text.len() {
            let mut lines = Lines::new(5);
            let mut given = Vec::new();
            for piece in text.chunks(size) {
                let taken: io::Result<()> = lines.take(piece, |line| {
                    given.push(String::from_utf8(line.to_vec()).unwrap());
                    Ok(())
                });
                taken.unwrap();
                assert!(lines.line.len() <= 6);
            }
            assert_eq!(given, expected);
            assert_eq!(lines.last(), b"last");
        }
    }

    #[test]
    fn a_failed_write_is_said_once_and_ends_it() {
        let (mut out, mut err) = (Full { taken: Vec::new(), room: 3 }, Vec::new());
        let mut streams = Streams::new("trial", io::empty(), &mut out, &mut err);
        let done = streams.out.write_all(b"12345");
        assert_eq!(streams.end(done), Status::Failed);
        assert_eq!(out.taken, b"123");
        assert_eq!(err, b"trial: a write to standard output failed: No space left on device\n");
    }

    #[test]
    fn nothing_comes_after_a_hole() {
        /// Fails once, and would take what comes after.
        struct Once(bool, Vec<u8>);
        impl Write for Once {
            fn write(&mut self, bytes: &[u8]) -> io::Result<usize> {
                if !std::mem::replace(&mut self.0, true) {
                    return Err(io::Error::from_raw_os_error(ENOSPC));
                }
                self.1.write(bytes)
            }

            fn flush(&mut self) -> io::Result<()> {
                Ok(())
            }
        }
        let mut out = Once(false, Vec::new());
        let mut streams = Streams::new("trial", &b"1"[..], &mut out, io::sink());
        streams.out.write_all(b"12345").unwrap();
        let failed = streams.more().map(|_| ());
        assert_eq!(streams.end(failed), Status::Failed);
        assert!(out.1.is_empty());
    }

    #[test]
    fn words_that_nobody_takes_are_a_failure() {
        let err = Full { taken: Vec::new(), room: 0 };
        let mut streams = Streams::new("trial", io::empty(), io::sink(), err);
        streams.words.say("so");
        assert_eq!(streams.end(Ok(())), Status::Failed);
    }
}
