//! Readable text and the bytes of a program's input, both ways, as streams of any length.

use std::fmt;
use std::io::{self, Read, Write};

use crate::events::*;
use crate::programs::{HEADER, NUMBER, ROW};
use crate::streams::{Came, Lines, Status, Streams};
use crate::table::{SLOTS, SLOT_NUMBERS};

/// Bytes that a line of `BYTES` has at most.
const BYTES_A_LINE: usize = 16;
/// A longer line of text is refused rather than held.
const LONGEST_LINE: usize = 1 << 20;
/// What begins a line on standard error.
const NAME: &str = "second";

const NAMES: [(&str, u16); 7] = [
    ("SLOT", ABS_MT_SLOT),
    ("ID", ABS_MT_TRACKING_ID),
    ("X", ABS_MT_POSITION_X),
    ("Y", ABS_MT_POSITION_Y),
    ("PRESSURE", ABS_MT_PRESSURE),
    ("MAJOR", ABS_MT_TOUCH_MAJOR),
    ("MINOR", ABS_MT_TOUCH_MINOR),
];

/// One event from its words: `X 300`, `REPORT`, `EVENT 3 0x2f 1`.
pub fn event(words: &[&str]) -> Result<Event, String> {
    match words {
        ["REPORT"] => Ok(Event::REPORT),
        ["MT_REPORT"] => Ok(Event::MT_REPORT),
        ["DROPPED"] => Ok(Event::DROPPED),
        ["REPORT" | "MT_REPORT" | "DROPPED", ..] => Err(format!("{} takes no number; EVENT gives any value", words[0])),
        ["EVENT", kind, code, value] => Ok(Event { kind: half(kind)?, code: half(code)?, value: decimal(value)? }),
        ["EVENT", ..] => Err("EVENT takes three numbers: type, code, value".to_string()),
        [name, rest @ ..] => match NAMES.iter().find(|(known, _)| known == name) {
            Some((_, code)) => match rest {
                [value] => Ok(Event::abs(*code, decimal(value)?)),
                _ => Err(format!("{name} takes one number")),
            },
            None => Err(format!("'{name}' is no event")),
        },
        [] => Err("no event".to_string()),
    }
}

/// The words that [`event`] reads back to the same event.
pub fn event_text(event: Event) -> String {
    InWords(event).to_string()
}

struct InWords(Event);

impl fmt::Display for InWords {
    fn fmt(&self, f: &mut fmt::Formatter) -> fmt::Result {
        let Event { kind, code, value } = self.0;
        match NAMES.iter().find(|(_, known)| *known == code) {
            _ if self.0 == Event::REPORT => f.write_str("REPORT"),
            _ if self.0 == Event::MT_REPORT => f.write_str("MT_REPORT"),
            _ if self.0 == Event::DROPPED => f.write_str("DROPPED"),
            Some((name, _)) if kind == EV_ABS => write!(f, "{name} {value}"),
            _ => write!(f, "EVENT {kind} {code} {value}"),
        }
    }
}

/// Why encoding ended before the text did.
enum Stop {
    Line(String),
    Write(io::Error),
}

impl From<io::Error> for Stop {
    fn from(error: io::Error) -> Stop {
        Stop::Write(error)
    }
}

/// Text to bytes. A line that is wrong is named by its number and ends it; the bytes of the lines before are written.
pub fn encode(input: impl Read, out: impl Write, err: impl Write) -> Status {
    let mut streams = Streams::new(NAME, input, out, err);
    let done = match encode_lines(&mut streams) {
        Err(Stop::Line(what)) => {
            streams.words.at_least(Status::Refused);
            streams.words.say(&what);
            Ok(())
        }
        Err(Stop::Write(error)) => Err(error),
        Ok(()) => Ok(()),
    };
    streams.end_or_closed(done)
}

fn encode_lines<R: Read, W: Write, E: Write>(streams: &mut Streams<R, W, E>) -> Result<(), Stop> {
    let mut lines = Lines::new(LONGEST_LINE);
    let mut encoder = Encoder::default();
    let ended = streams.units(1, |piece, out, _| lines.take(piece, |line| encode_line(&mut encoder, line, out)))?;
    // What a failed read left of a line may be a line too, with another number.
    if ended == Came::End {
        encode_line(&mut encoder, lines.last(), &mut streams.out)?;
    }
    Ok(())
}

fn encode_line(encoder: &mut Encoder, line: &[u8], out: &mut impl Write) -> Result<(), Stop> {
    out.write_all(encoder.line(line).map_err(Stop::Line)?)?;
    Ok(())
}

/// What the lines so far were for: a text is one program's input, and a mix would be read as something else.
#[derive(Clone, Copy, PartialEq, Default)]
enum Purpose {
    #[default]
    Open,
    Events,
    Frames,
}

/// What a line's meaning needs of the lines before it.
#[derive(Default)]
struct Encoder {
    number: u64,
    begun: bool,
    slots: Option<u32>,
    purpose: Purpose,
    bytes: Vec<u8>,
}

impl Encoder {
    /// The bytes of the next line; an error names it.
    fn line(&mut self, line: &[u8]) -> Result<&[u8], String> {
        self.number += 1;
        self.bytes.clear();
        self.put_line(line).map_err(|what| format!("line {}: {what}", self.number))?;
        self.begun |= !self.bytes.is_empty();
        Ok(&self.bytes)
    }

    fn put_line(&mut self, line: &[u8]) -> Result<(), String> {
        if line.len() > LONGEST_LINE {
            return Err(format!("longer than {LONGEST_LINE} bytes"));
        }
        let line = std::str::from_utf8(line).map_err(|error| format!("no text: {error}"))?;
        let words: Vec<&str> = line.split_whitespace().collect();
        match words[..] {
            [] => Ok(()),
            [first, ..] if first.starts_with('#') => Ok(()),
            ["SETUP", ref rest @ ..] => self.put_setup(rest),
            ["BYTES", ref rest @ ..] => self.put_bytes(rest),
            ["FRAME", ref rest @ ..] => self.put_frame(rest),
            _ => self.put_event(&words),
        }
    }

    fn put_setup(&mut self, words: &[&str]) -> Result<(), String> {
        if self.begun {
            return Err("SETUP must come first".to_string());
        }
        if words.len() * NUMBER != HEADER {
            return Err("SETUP takes six numbers: n, and the largest x, y, pressure, major and minor".to_string());
        }
        self.slots = words[0].parse().ok();
        for word in words {
            self.bytes.extend(decimal::<u32>(word)?.to_le_bytes());
        }
        Ok(())
    }

    fn put_bytes(&mut self, words: &[&str]) -> Result<(), String> {
        for word in words {
            let byte = u8::from_str_radix(word, 16)
                .ok()
                .filter(|_| word.len() == 2 && word.bytes().all(|digit| digit.is_ascii_hexdigit()));
            self.bytes.push(byte.ok_or_else(|| format!("'{word}' is no byte of two hex digits"))?);
        }
        Ok(())
    }

    fn put_frame(&mut self, words: &[&str]) -> Result<(), String> {
        if self.purpose == Purpose::Events {
            return Err("FRAME among events".to_string());
        }
        self.purpose = Purpose::Frames;
        let good = match self.slots {
            Some(n) if (1..=SLOTS as u32).contains(&n) => words.len() == SLOT_NUMBERS * n as usize,
            _ => words.len() % SLOT_NUMBERS == 0,
        };
        if !good {
            return Err(
                "FRAME takes six numbers (kind, x, y, pressure, major, minor) for each of SETUP's slots".to_string()
            );
        }
        for word in words {
            self.bytes.extend(decimal::<i32>(word)?.to_le_bytes());
        }
        Ok(())
    }

    fn put_event(&mut self, words: &[&str]) -> Result<(), String> {
        let event = event(words)?;
        if self.purpose == Purpose::Frames {
            return Err("an event among FRAMEs".to_string());
        }
        self.purpose = Purpose::Events;
        self.bytes.extend(event.to_bytes());
        Ok(())
    }
}

/// Bytes to text that encodes to the same bytes, whatever they are. What came before a failed read is decoded too.
pub fn decode(input: impl Read, out: impl Write, err: impl Write, frames: bool) -> Status {
    let mut streams = Streams::new(NAME, input, out, err);
    let done = decode_units(&mut streams, frames);
    streams.end_or_closed(done)
}

fn decode_units<R: Read, W: Write, E: Write>(streams: &mut Streams<R, W, E>, frames: bool) -> io::Result<()> {
    if streams.hold(HEADER)? == Came::More {
        let setup: Vec<u32> = words(&streams.input.held()[..HEADER]).map(u32::from_le_bytes).collect();
        put_numbers(&mut streams.out, "SETUP", setup.iter())?;
        streams.input.take(HEADER);
        let n = setup[0] as usize;
        if !frames {
            streams.units(RECORD, |records, out, _| put_events(out, records))?;
        } else if (1..=SLOTS).contains(&n) {
            let size = ROW * n;
            streams.units(size, |run, out, _| put_frames(out, run, size))?;
        } else {
            streams.units(BYTES_A_LINE, |bytes, out, _| put_bytes(out, bytes))?;
        }
    }
    put_bytes(&mut streams.out, streams.input.held())
}

fn words(bytes: &[u8]) -> impl Iterator<Item = [u8; NUMBER]> + '_ {
    bytes.chunks_exact(NUMBER).map(|b| [b[0], b[1], b[2], b[3]])
}

fn put_events(out: &mut impl Write, records: &[u8]) -> io::Result<()> {
    events(records).try_for_each(|event| writeln!(out, "{}", InWords(event)))
}

fn put_frames(out: &mut impl Write, bytes: &[u8], size: usize) -> io::Result<()> {
    bytes.chunks_exact(size).try_for_each(|frame| put_numbers(out, "FRAME", words(frame).map(i32::from_le_bytes)))
}

fn put_numbers<T: fmt::Display>(out: &mut impl Write, word: &str, numbers: impl Iterator<Item = T>) -> io::Result<()> {
    out.write_all(word.as_bytes())?;
    for number in numbers {
        write!(out, " {number}")?;
    }
    out.write_all(b"\n")
}

fn put_bytes(out: &mut impl Write, bytes: &[u8]) -> io::Result<()> {
    for line in bytes.chunks(BYTES_A_LINE) {
        out.write_all(b"BYTES")?;
        for byte in line {
            write!(out, " {byte:02X}")?;
        }
        out.write_all(b"\n")?;
    }
    Ok(())
}

fn decimal<T: std::str::FromStr>(word: &str) -> Result<T, String> {
    word.parse().map_err(|_| format!("'{word}' is no number that fits here"))
}

fn half(word: &str) -> Result<u16, String> {
    match word.strip_prefix("0x") {
        Some(digits) => u16::from_str_radix(digits, 16).map_err(|_| format!("'{word}' is no 16-bit number in hex")),
        None => decimal(word),
    }
}

#[cfg(test)]
mod tests;
