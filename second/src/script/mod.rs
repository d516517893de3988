//! Scripts of calls in the format of docs/DRIVE.md: a line read, written, and answered.

mod answers;
mod commands;
mod force;
mod line;
mod numbers;
mod recorder;
#[cfg(test)]
mod tests;

pub use answers::InWords;
pub use commands::{CommandInWords, CommandsCall, COMMANDS};
pub use force::{ForceCall, FORCE};
pub use recorder::{RecorderCall, RECORDER};

use crate::events::Event;
use crate::pieces::{PieceReader, LEFT_OVER};
use crate::pod::{Pod, PLACES};
use crate::reader::Reader;
use crate::table::{Layout, Setup, SlotNumber, SLOTS};
use crate::writer::Writer;
use line::Line;
use numbers::Numbers;

/// The bytes that a line has at most, without its newline.
pub const LONGEST_LINE: usize = 65_535;
/// The numbers that a line has at most.
pub const MOST_NUMBERS: usize = 12_000;
/// The bytes that a buffer has at most.
pub const LARGEST_BUFFER: usize = 4_096;
/// The answer to a line that is no call.
pub const BAD_LINE: &str = "bad line";
/// What the names of the calls of a crane's reader begin with.
pub const CRANE: &str = "crane_";
/// What those of the calls begin with that take pieces of any size.
pub const PIECES: &str = "pieces_";

// How many numbers each part has. A state stands behind one word, the call's name or the verdict, so its number i is the line's word i.

/// n and the largest values.
pub const fn setup_numbers(layout: Layout) -> usize {
    1 + layout.numbers()
}

/// What comes before a state's first table: the setup, the current slot, and the mode or the counter.
pub const fn head_numbers(layout: Layout) -> usize {
    setup_numbers(layout) + 2
}

/// The records.
pub const fn table_numbers(layout: Layout) -> usize {
    layout.slots() * layout.slot_numbers()
}

/// The head and both tables.
pub const fn reader_numbers(layout: Layout) -> usize {
    head_numbers(layout) + 2 * table_numbers(layout)
}

/// The head of a writer.
pub const WRITER_HEAD: usize = head_numbers(Layout::Panel);
/// What stands before the option and K6's numbers: the head and the table.
pub const BEFORE_POINTER: usize = WRITER_HEAD + table_numbers(Layout::Panel);
/// The option, what the display was told last, and a rank for each record.
pub const POINTER_NUMBERS: usize = 5 + SLOTS;
/// All of a writer.
pub const WRITER_NUMBERS: usize = BEFORE_POINTER + POINTER_NUMBERS;
/// The reader, how many bytes are held, and the places.
pub const PIECES_NUMBERS: usize = reader_numbers(Layout::Panel) + 1 + LEFT_OVER;
/// Whether it waits, how many bytes are held, and the places.
pub const POD_NUMBERS: usize = 2 + PLACES;

/// One line of a script, with the whole state that it carries.
#[derive(Clone, PartialEq, Eq, Debug)]
pub enum Call {
    Fresh(Layout, Setup),
    New { setup: Setup, pointer: bool },
    Run { reader: Reader, bytes: Vec<u8> },
    One { reader: Reader, event: Event },
    Load { reader: Reader, current: SlotNumber, image: Vec<i32> },
    Ask { reader: Reader, slot: SlotNumber },
    Write { writer: Writer, position: u64, size: usize, frame: Vec<i32> },
    Anonymous { writer: Writer, position: u64, size: usize, records: Vec<u8> },
    Good { reader: Reader },
    PiecesFresh(Setup),
    PiecesTake { pieces: PieceReader, cut: Cut },
    PiecesLoad { pieces: PieceReader, current: SlotNumber, image: Vec<i32> },
    PiecesAsk { pieces: PieceReader, slot: SlotNumber },
    Start,
    Pod { pod: Pod, bytes: Vec<u8> },
    Recorder(RecorderCall),
    Force(ForceCall),
    Commands(CommandsCall),
}

/// A string of bytes and the lengths of the pieces that it is cut into, which together are its own.
#[derive(Clone, PartialEq, Eq, Debug)]
pub struct Cut {
    pub lengths: Vec<u64>,
    pub bytes: Vec<u8>,
}

impl Cut {
    /// The pieces in their order.
    pub fn pieces(&self) -> impl Iterator<Item = &[u8]> {
        let mut rest = &self.bytes[..];
        self.lengths.iter().map(move |length| {
            let (piece, behind) = rest.split_at(*length as usize);
            rest = behind;
            piece
        })
    }

    /// Whether there is a piece, and the lengths are together as many as the bytes.
    pub fn is_whole(&self) -> bool {
        let together = self.lengths.iter().try_fold(0u64, |sum, length| sum.checked_add(*length));
        !self.lengths.is_empty() && together == Some(self.bytes.len() as u64)
    }
}

/// The marks that a buffer holds before a call writes into it.
pub fn marks(size: usize) -> Vec<u8> {
    (0..size).map(|i| (37 * i + 11) as u8).collect()
}

/// The lines of a script or of answers. A carriage return is part of its line, which is then another one.
pub fn lines_of(text: &str) -> impl Iterator<Item = &str> {
    text.split_terminator('\n')
}

/// True for a line that is passed over and answered by nothing.
pub fn is_passed_over(line: &[u8]) -> bool {
    line.is_empty() || line[0] == b'#'
}

/// The answer to a line that is not passed over.
pub fn answer_line(line: &[u8]) -> String {
    Call::parse(line).map_or_else(|| BAD_LINE.to_string(), |call| call.answer())
}

/// The reader that a call's word speaks of, if it is a reader's, and the word without saying so.
pub fn layout_of(word: &str) -> (Layout, &str) {
    match word.strip_prefix(CRANE) {
        Some(rest) => (Layout::Crane, rest),
        None => (Layout::Panel, word),
    }
}

impl Call {
    /// The call that a line is; `None` for a bad line.
    pub fn parse(line: &[u8]) -> Option<Call> {
        if line.len() > LONGEST_LINE {
            return None;
        }
        let mut words = line.split(|byte| *byte == b' ').filter(|word| !word.is_empty());
        let word = std::str::from_utf8(words.next()?).ok()?;
        let mut numbers = Numbers::of(words)?;
        let (layout, name) = layout_of(word);
        let call = match (layout, name) {
            (Layout::Panel, "new" | "write" | "anonymous" | "start" | "pod") => numbers.other_call(name)?,
            (Layout::Panel, _) if name.starts_with(PIECES) => numbers.pieces_call(name)?,
            (Layout::Panel, _) if name.starts_with(RECORDER) => {
                Call::Recorder(RecorderCall::parse(name, &mut numbers)?)
            }
            (Layout::Panel, _) if name.starts_with(FORCE) => Call::Force(ForceCall::parse(name, &mut numbers)?),
            (Layout::Panel, _) if name.starts_with(COMMANDS) => {
                Call::Commands(CommandsCall::parse(name, &mut numbers)?)
            }
            _ => numbers.reader_call(layout, name)?,
        };
        numbers.is_done().then_some(call)
    }

    /// Whose reader the call is on; `None` where it is on none.
    pub fn layout(&self) -> Option<Layout> {
        match self {
            Call::Fresh(layout, _) => Some(*layout),
            _ => self.reader().map(|reader| reader.layout),
        }
    }

    /// The reader whose state the call carries.
    pub fn reader(&self) -> Option<&Reader> {
        match self {
            Call::Run { reader, .. }
            | Call::One { reader, .. }
            | Call::Load { reader, .. }
            | Call::Ask { reader, .. }
            | Call::Good { reader } => Some(reader),
            _ => None,
        }
    }

    /// The writer whose state the call carries.
    pub fn writer(&self) -> Option<&Writer> {
        match self {
            Call::Write { writer, .. } | Call::Anonymous { writer, .. } => Some(writer),
            _ => None,
        }
    }

    /// The reader of pieces whose state the call carries.
    pub fn pieces(&self) -> Option<&PieceReader> {
        match self {
            Call::PiecesTake { pieces, .. } | Call::PiecesLoad { pieces, .. } | Call::PiecesAsk { pieces, .. } => {
                Some(pieces)
            }
            _ => None,
        }
    }

    /// The word that a call's line begins with.
    pub fn name(&self) -> String {
        let name = match self {
            Call::Fresh(..) => "fresh",
            Call::New { .. } => "new",
            Call::Run { .. } => "run",
            Call::One { .. } => "one",
            Call::Load { .. } => "load",
            Call::Ask { .. } => "ask",
            Call::Write { .. } => "write",
            Call::Anonymous { .. } => "anonymous",
            Call::Good { .. } => "good",
            Call::PiecesFresh(_) => "pieces_fresh",
            Call::PiecesTake { .. } => "pieces_take",
            Call::PiecesLoad { .. } => "pieces_load",
            Call::PiecesAsk { .. } => "pieces_ask",
            Call::Start => "start",
            Call::Pod { .. } => "pod",
            Call::Recorder(call) => call.name(),
            Call::Force(call) => call.name(),
            Call::Commands(call) => call.name(),
        };
        let prefix = if self.layout() == Some(Layout::Crane) { CRANE } else { "" };
        format!("{prefix}{name}")
    }

    /// The line that [`Call::parse`] reads back to the same call.
    pub fn line(&self) -> String {
        let mut line = Line::from(self.name());
        match self {
            Call::Fresh(layout, setup) => line.setup(*layout, setup),
            Call::New { setup, .. } | Call::PiecesFresh(setup) => line.setup(Layout::Panel, setup),
            Call::PiecesTake { pieces, .. } | Call::PiecesLoad { pieces, .. } | Call::PiecesAsk { pieces, .. } => {
                line.pieces(pieces);
            }
            Call::Write { writer, .. } | Call::Anonymous { writer, .. } => line.writer(writer),
            Call::Pod { pod, .. } => line.pod(pod),
            Call::Start | Call::Recorder(_) | Call::Force(_) | Call::Commands(_) => {}
            Call::Run { reader, .. }
            | Call::One { reader, .. }
            | Call::Load { reader, .. }
            | Call::Ask { reader, .. }
            | Call::Good { reader } => line.reader(reader),
        }
        self.put_rest(&mut line);
        line.text()
    }

    /// The numbers behind the state.
    fn put_rest(&self, line: &mut Line) {
        match self {
            Call::Run { bytes, .. } | Call::Pod { bytes, .. } => line.all(bytes),
            Call::One { event, .. } => {
                line.all(&[event.kind, event.code]);
                line.put(event.value);
            }
            Call::Load { current, image, .. } | Call::PiecesLoad { current, image, .. } => {
                line.put(current.0);
                line.all(image);
            }
            Call::Ask { slot, .. } | Call::PiecesAsk { slot, .. } => line.put(slot.0),
            Call::PiecesTake { cut, .. } => {
                line.put(cut.lengths.len());
                line.all(&cut.lengths);
                line.all(&cut.bytes);
            }
            Call::Write { position, size, frame, .. } => {
                line.put(position);
                line.put(size);
                line.all(frame);
            }
            Call::Anonymous { position, size, records, .. } => {
                line.put(position);
                line.put(size);
                line.all(records);
            }
            Call::Recorder(call) => call.put(line),
            Call::Force(call) => call.put(line),
            Call::Commands(call) => call.put(line),
            Call::New { pointer, .. } => line.put(*pointer as u8),
            Call::Fresh(..) | Call::Good { .. } | Call::PiecesFresh(_) | Call::Start => {}
        }
    }
}
