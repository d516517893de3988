//! The programs of docs/PROGRAMS.md as filters: `show_table`, `crane_table`, `write_frames`, `show_pod` and `drive` here, those of the recorder, the force stick, the commands and anonymous panels in files of their own.

mod anonymous;
mod commands;
mod force;
mod recording;

pub use anonymous::{write_anonymous, MOST_RECORDS};
pub use commands::{show_commands, write_commands};
pub use force::{show_force, write_force, REPORT};
pub use recording::{record, replay};

use std::io::{self, Read, Write};

use crate::events::{events, Event, EV_SYN, RECORD, SYN_REPORT};
use crate::pieces::PieceReader;
use crate::pod::Pod;
use crate::reader::{Mode, Ran, Reader};
use crate::refusal::Refusal;
use crate::script::{is_passed_over, Call, InWords, BAD_LINE, LONGEST_LINE};
use crate::streams::{Came, Lines, Status, Streams, Words};
use crate::table::{Layout, Setup, LIMITS, NUMBERS, SLOTS, SLOT_NUMBERS};
use crate::writer::{Writer, LARGEST_FRAME};

/// The bytes of a number.
pub const NUMBER: usize = 4;
/// The bytes of the setup: n and the largest values.
pub const HEADER: usize = (1 + NUMBERS) * NUMBER;
/// The bytes that a frame has for each slot.
pub const ROW: usize = SLOT_NUMBERS * NUMBER;

/// The names that [`run`] takes, besides [`WITH_POINTER`].
pub const NAMES: [&str; 12] = [
    "show_table",
    "crane_table",
    "write_frames",
    "show_pod",
    "record",
    "replay",
    "show_force",
    "write_force",
    "show_commands",
    "write_commands",
    "write_anonymous",
    "drive",
];

/// The one program that takes an argument, with it: K6's option is on.
pub const WITH_POINTER: &str = "write_frames --pointer";

/// What a setup's largest values are called, in their order.
const LARGEST: [&str; NUMBERS] =
    ["the largest x", "the largest y", "the largest pressure", "the largest major", "the largest minor"];

/// Runs the program of that name; `None` for a name that is none.
pub fn run(name: &str, input: impl Read, out: impl Write, err: impl Write) -> Option<Status> {
    Some(match name {
        "show_table" => show_table(input, out, err),
        "crane_table" => crane_table(input, out, err),
        "write_frames" => write_frames(input, out, err, false),
        WITH_POINTER => write_frames(input, out, err, true),
        "show_pod" => show_pod(input, out, err),
        "record" => record(input, out, err),
        "replay" => replay(input, out, err),
        "show_force" => show_force(input, out, err),
        "write_force" => write_force(input, out, err),
        "show_commands" => show_commands(input, out, err),
        "write_commands" => write_commands(input, out, err),
        "write_anonymous" => write_anonymous(input, out, err),
        "drive" => drive(input, out, err),
        _ => return None,
    })
}

/// The setup, if the bytes are as many as it takes.
fn header(bytes: &[u8]) -> Option<Setup> {
    let bytes: [u8; HEADER] = bytes.try_into().ok()?;
    let mut numbers = bytes.chunks_exact(NUMBER).map(|b| u32::from_le_bytes([b[0], b[1], b[2], b[3]]));
    let mut setup = Setup { slots: u64::from(numbers.next()?), ..Setup::ZEROS };
    for largest in &mut setup.largest {
        *largest = numbers.next()?;
    }
    Some(setup)
}

/// What is wrong with a setup, a line for each number out of its range that such a reader knows; none for a good one.
fn wrong_numbers(layout: Layout, setup: &Setup) -> Vec<String> {
    let n = ("n", setup.slots, layout.slots() as u64);
    let largest = (0..layout.numbers()).map(|i| (LARGEST[i], u64::from(setup.largest[i]), u64::from(LIMITS[i])));
    [n].into_iter()
        .chain(largest)
        .filter(|(_, number, limit)| !(1..=*limit).contains(number))
        .map(|(name, number, limit)| format!("{name} is {number}, and must be 1 to {limit}"))
        .collect()
}

/// Takes the setup from the front of the input, as far as such a reader knows it; a refused one comes as what was wrong with it.
fn setup<R: Read, W: Write, E: Write>(
    streams: &mut Streams<R, W, E>,
    layout: Layout,
) -> io::Result<Result<Setup, Vec<String>>> {
    // Where the input ended or was lost before, too few bytes are held.
    streams.hold(HEADER)?;
    let held = streams.input.held();
    let Some(setup) = header(&held[..held.len().min(HEADER)]) else {
        return Ok(Err(vec![format!("the setup is cut: {} of {HEADER} bytes", held.len())]));
    };
    streams.input.take(HEADER);
    let wrong = wrong_numbers(layout, &setup);
    Ok(if wrong.is_empty() { Ok(setup.known_to(layout)) } else { Err(wrong) })
}

fn refuse_setup<E: Write>(words: &mut Words<E>, wrong: &[String]) {
    words.at_least(Status::Refused);
    for what in wrong {
        words.say(what);
    }
}

/// The table after the setup and the records of the input, or the one refusal.
pub fn show_table(input: impl Read, out: impl Write, err: impl Write) -> Status {
    let mut streams = Streams::new("show_table", input, out, err);
    let done = read_records(&mut streams, Layout::Panel);
    streams.end(done)
}

/// The same as a crane in the field shows it, of the same input.
pub fn crane_table(input: impl Read, out: impl Write, err: impl Write) -> Status {
    let mut streams = Streams::new("crane_table", input, out, err);
    let done = read_records(&mut streams, Layout::Crane);
    streams.end(done)
}

fn read_records<R: Read, W: Write, E: Write>(streams: &mut Streams<R, W, E>, layout: Layout) -> io::Result<()> {
    let setup = match setup(streams, layout)? {
        Ok(setup) => setup,
        Err(wrong) => {
            refused(streams, Refusal::Setup)?;
            refuse_setup(&mut streams.words, &wrong);
            return Ok(());
        }
    };
    let mut reader = Reader::fresh(layout, setup).expect("a setup without a wrong number is good");
    let mut read = Followed::default();
    let (ended, cut) = match layout {
        Layout::Panel => take_pieces(streams, &mut reader, &mut read)?,
        Layout::Crane => run_records(streams, &mut reader, &mut read)?,
    };
    if ended == Came::Lost {
        lose(streams, &mut reader);
    } else if cut > 0 {
        refused(streams, Refusal::Ragged)?;
        streams.words.say(&format!("the last record is cut: {cut} of {RECORD} bytes"));
        return Ok(());
    }
    show(streams, &reader, &read)
}

/// What a failed read cut is a loss.
fn lose<R: Read, W: Write, E: Write>(streams: &mut Streams<R, W, E>, reader: &mut Reader) {
    streams.words.say("input was lost, which counts as SYN_DROPPED");
    reader.one(Event::DROPPED).expect(WELL_FORMED);
}

/// The table, and the hint where most records were strange.
fn show<R: Read, W: Write, E: Write>(
    streams: &mut Streams<R, W, E>,
    reader: &Reader,
    read: &Followed,
) -> io::Result<()> {
    print_table(reader, &mut streams.out)?;
    if read.was_mostly_strange() {
        streams.out.flush()?;
        let what = match reader.layout {
            Layout::Panel => "were skipped",
            Layout::Crane => "have an unknown type",
        };
        streams.words.say(&format!(
            "most records {what}: Linux's struct input_event has 24 bytes, and only the last 8 are a record here"
        ));
    }
    Ok(())
}

/// The input as it comes, in pieces of any size: how it ended, and how many bytes are left over then.
fn take_pieces<R: Read, W: Write, E: Write>(
    streams: &mut Streams<R, W, E>,
    reader: &mut Reader,
    read: &mut Followed,
) -> io::Result<(Came, u64)> {
    let mut pieces = PieceReader::of(reader.clone());
    let ended = streams.units(1, |piece, _, _| -> io::Result<()> {
        let before = pieces.held;
        let ran = pieces.take(piece).expect(WELL_FORMED);
        read.note(Layout::Panel, (before + piece.len() as u64 - pieces.held) / RECORD as u64, &ran);
        Ok(())
    })?;
    *reader = pieces.reader;
    Ok((ended, pieces.held))
}

/// The input in runs of whole records, as the old call takes them.
fn run_records<R: Read, W: Write, E: Write>(
    streams: &mut Streams<R, W, E>,
    reader: &mut Reader,
    read: &mut Followed,
) -> io::Result<(Came, u64)> {
    let ended = streams.units(RECORD, |run, _, _| -> io::Result<()> {
        let ran = reader.run(run).expect(WELL_FORMED);
        read.note(reader.layout, (run.len() / RECORD) as u64, &ran);
        Ok(())
    })?;
    Ok((ended, streams.input.held().len() as u64))
}

const WELL_FORMED: &str = "a state that began fresh is well formed";

/// The one line of a refusal, written before anything is said of it.
fn refused<R: Read, W: Write, E: Write>(streams: &mut Streams<R, W, E>, refusal: Refusal) -> io::Result<()> {
    streams.words.at_least(Status::Refused);
    writeln!(streams.out, "refused {}", refusal.number())?;
    streams.out.flush()
}

/// Counts over all records, for the hint.
#[derive(Default)]
struct Followed {
    followed: u64,
    strange: u64,
}

impl Followed {
    fn note(&mut self, layout: Layout, records: u64, ran: &Ran) {
        self.followed += records - ran.ignored;
        // A crane skips every size of a gloved hand, and that is nothing strange.
        self.strange += match layout {
            Layout::Panel => ran.skipped(),
            Layout::Crane => ran.unknown_type,
        };
    }

    fn was_mostly_strange(&self) -> bool {
        self.followed >= 3 && 5 * self.strange >= 3 * self.followed
    }
}

fn print_table(reader: &Reader, out: &mut impl Write) -> io::Result<()> {
    let mode = match reader.mode {
        Mode::Following => "following",
        Mode::Dropped => "dropped",
        Mode::Stale => "stale",
    };
    writeln!(out, "{mode} {}", reader.current.0)?;
    if reader.mode == Mode::Following {
        let used = &reader.shown[..reader.setup.slots as usize];
        for (s, slot) in used.iter().enumerate() {
            write!(out, "{s} {}", slot.id.0)?;
            for number in &slot.numbers[..reader.layout.numbers()] {
                write!(out, " {number}")?;
            }
            writeln!(out)?;
        }
    }
    Ok(())
}

/// The setup and every record that the frames of the input are sent as, with pointer emulation or without.
pub fn write_frames(input: impl Read, out: impl Write, err: impl Write, pointer: bool) -> Status {
    let mut streams = Streams::new("write_frames", input, out, err);
    let done = send_frames(&mut streams, pointer);
    streams.end(done)
}

/// Takes the setup and passes it on; `None` where it is refused, which is then said on standard error alone.
fn passed_setup<R: Read, W: Write, E: Write>(streams: &mut Streams<R, W, E>) -> io::Result<Option<Setup>> {
    let setup = match setup(streams, Layout::Panel)? {
        Ok(setup) => setup,
        Err(wrong) => {
            streams.words.line(&format!("refused {}", Refusal::Setup.number()));
            refuse_setup(&mut streams.words, &wrong);
            return Ok(None);
        }
    };
    for number in [setup.slots as u32].iter().chain(&setup.largest) {
        streams.out.write_all(&number.to_le_bytes())?;
    }
    Ok(Some(setup))
}

fn send_frames<R: Read, W: Write, E: Write>(streams: &mut Streams<R, W, E>, pointer: bool) -> io::Result<()> {
    let Some(setup) = passed_setup(streams)? else {
        return Ok(());
    };
    let mut writer = Writer::fresh(setup, pointer).expect("a setup without a wrong number is good");
    let size = ROW * setup.slots as usize;
    let mut k = 1u64;
    let ended = streams.units(size, |frames, out, words| -> io::Result<()> {
        for frame in frames.chunks_exact(size) {
            send_frame(&mut writer, frame, k, out, words)?;
            k += 1;
        }
        Ok(())
    })?;
    if ended == Came::End && streams.input.held().is_empty() {
        return Ok(());
    }
    if ended == Came::End {
        refuse_frame(&mut streams.words, k, Refusal::Frame);
    }
    send_loss(streams)
}

/// Nobody knows what was lost.
fn send_loss<R: Read, W: Write, E: Write>(streams: &mut Streams<R, W, E>) -> io::Result<()> {
    streams.out.write_all(&Event::DROPPED.to_bytes())?;
    // It is said to have been sent, so it has to be.
    streams.out.flush()?;
    streams.words.say("input was lost, so SYN_DROPPED was sent");
    Ok(())
}

fn send_frame<E: Write>(
    writer: &mut Writer,
    bytes: &[u8],
    k: u64,
    out: &mut impl Write,
    words: &mut Words<E>,
) -> io::Result<()> {
    let mut frame = [0; SLOTS * SLOT_NUMBERS];
    for (number, b) in frame.iter_mut().zip(bytes.chunks_exact(NUMBER)) {
        *number = i32::from_le_bytes([b[0], b[1], b[2], b[3]]);
    }
    let mut buffer = [0; LARGEST_FRAME];
    match writer.write(&frame[..bytes.len() / NUMBER], &mut buffer, 0) {
        Ok(written) => out.write_all(&buffer[..written.events as usize * RECORD])?,
        Err(refusal) => refuse_frame(words, k, refusal),
    }
    Ok(())
}

fn refuse_frame<E: Write>(words: &mut Words<E>, k: u64, refusal: Refusal) {
    words.at_least(Status::Refused);
    words.line(&format!("frame {k} refused {}", refusal.number()));
}

/// A line for each answer of the pod but "more".
pub fn show_pod(input: impl Read, out: impl Write, err: impl Write) -> Status {
    let mut streams = Streams::new("show_pod", input, out, err);
    let done = print_reports(&mut streams);
    streams.end(done)
}

fn print_reports<R: Read, W: Write, E: Write>(streams: &mut Streams<R, W, E>) -> io::Result<()> {
    let mut pod = Pod::FRESH;
    let ended = streams.units(1, |bytes, out, _| -> io::Result<()> {
        for byte in bytes {
            let report = pod.take(*byte).expect(WELL_FORMED);
            if pod.held == 0 {
                writeln!(out, "{}", InWords(report))?;
            }
        }
        Ok(())
    })?;
    match ended {
        Came::Lost => writeln!(streams.out, "input lost"),
        _ if pod.held > 0 => writeln!(streams.out, "more"),
        _ => Ok(()),
    }
}

/// The answers to a script of docs/DRIVE.md.
pub fn drive(input: impl Read, out: impl Write, err: impl Write) -> Status {
    let mut streams = Streams::new("drive", input, out, err);
    let done = answer_calls(&mut streams);
    streams.end(done)
}

fn answer_calls<R: Read, W: Write, E: Write>(streams: &mut Streams<R, W, E>) -> io::Result<()> {
    let mut lines = Lines::new(LONGEST_LINE);
    let ended = streams.units(1, |piece, out, words| lines.take(piece, |line| answer(line, out, words)))?;
    // A line that a failed read cut may be another call than the one that was meant.
    if ended == Came::End {
        answer(lines.last(), &mut streams.out, &mut streams.words)?;
    }
    Ok(())
}

fn answer<E: Write>(line: &[u8], out: &mut impl Write, words: &mut Words<E>) -> io::Result<()> {
    if is_passed_over(line) {
        return Ok(());
    }
    match Call::parse(line) {
        Some(call) => writeln!(out, "{}", call.answer()),
        None => {
            words.at_least(Status::Refused);
            writeln!(out, "{BAD_LINE}")
        }
    }
}

#[cfg(test)]
mod tests;
