//! The bytes of a state (docs/LAYOUT.md): packed from a call's numbers, judged whether they are formed, and read as the numbers of a script.

use second::pieces::PieceReader;
use second::pod::Pod;
use second::reader::{Mode, Reader};
use second::script::{reader_numbers, Call, CommandsCall, PIECES_NUMBERS, POD_NUMBERS, WRITER_NUMBERS};
use second::table::{Layout, Setup, Table, SLOTS};
use second::writer::Writer;

/// Byte 0 of every state.
pub const VERSION: u8 = 1;
/// The bytes of a setup and of a slot.
const SETUP: usize = 24;
const SLOT: usize = 24;

/// Which state the bytes are.
#[derive(Clone, Copy, PartialEq, Eq, PartialOrd, Ord, Debug)]
pub enum Kind {
    Writer,
    Reader,
    Line,
    Pod,
}

/// Why bytes are no state, before their numbers are looked at.
#[derive(Clone, Copy, PartialEq, Eq, PartialOrd, Ord, Debug)]
pub enum Wrong {
    Length,
    Version,
    Kind,
    /// An option, a mode or a wait that is none.
    Choice,
    /// A byte that should be 0.
    NotZero,
}

impl Wrong {
    pub const ALL: [Wrong; 5] = [Wrong::Length, Wrong::Version, Wrong::Kind, Wrong::Choice, Wrong::NotZero];

    /// In a report.
    pub fn name(self) -> &'static str {
        match self {
            Wrong::Length => "length",
            Wrong::Version => "version",
            Wrong::Kind => "kind",
            Wrong::Choice => "choice",
            Wrong::NotZero => "not zero",
        }
    }
}

impl Kind {
    pub const ALL: [Kind; 4] = [Kind::Writer, Kind::Reader, Kind::Line, Kind::Pod];

    pub fn length(self) -> usize {
        match self {
            Kind::Writer => 848,
            Kind::Reader => 1568,
            Kind::Line => 1576,
            Kind::Pod => 12,
        }
    }

    /// Byte 1.
    pub fn number(self) -> u8 {
        1 + self as u8
    }

    /// The largest byte 2: an option and a wait are 0 or 1, a mode is 0 to 2.
    pub fn largest_choice(self) -> u8 {
        match self {
            Kind::Writer | Kind::Pod => 1,
            Kind::Reader | Kind::Line => 2,
        }
    }

    /// Where the bytes are that are 0.
    pub fn zeros(self) -> &'static [usize] {
        match self {
            Kind::Writer => &[6, 7],
            Kind::Reader => &[3],
            Kind::Line => &[1575],
            Kind::Pod => &[10, 11],
        }
    }

    /// How many numbers a script has for it.
    pub fn numbers(self) -> usize {
        match self {
            Kind::Writer => WRITER_NUMBERS,
            Kind::Reader => reader_numbers(Layout::Panel),
            Kind::Line => PIECES_NUMBERS,
            Kind::Pod => POD_NUMBERS,
        }
    }

    /// The first thing that is wrong with the bytes; `None` where they are formed.
    pub fn wrong(self, bytes: &[u8]) -> Option<Wrong> {
        if bytes.len() != self.length() {
            return Some(Wrong::Length);
        }
        let rules = [
            (bytes[0] == VERSION, Wrong::Version),
            (bytes[1] == self.number(), Wrong::Kind),
            (bytes[2] <= self.largest_choice(), Wrong::Choice),
            (self.zeros().iter().all(|at| bytes[*at] == 0), Wrong::NotZero),
        ];
        rules.into_iter().find(|(holds, _)| !holds).map(|(_, wrong)| wrong)
    }

    /// The numbers of formed bytes in a script's order, with a space between two.
    pub fn words(self, bytes: &[u8]) -> String {
        let mut numbers = Vec::with_capacity(self.numbers());
        let from = Numbers { bytes };
        match self {
            Kind::Writer => {
                from.words(8, 6, &mut numbers);
                from.words(32, 2, &mut numbers);
                from.table(48, &mut numbers);
                from.bytes(2, 2, &mut numbers);
                numbers.push(i64::from(u16::from_le_bytes([bytes[4], bytes[5]])));
                from.words(40, 2, &mut numbers);
                from.bytes(816, SLOTS, &mut numbers);
            }
            Kind::Reader => from.reader(&mut numbers),
            Kind::Line => {
                from.reader(&mut numbers);
                from.bytes(3, 1, &mut numbers);
                from.bytes(1568, 7, &mut numbers);
            }
            Kind::Pod => from.bytes(2, 8, &mut numbers),
        }
        assert_eq!(numbers.len(), self.numbers());
        let words: Vec<String> = numbers.iter().map(i64::to_string).collect();
        words.join(" ")
    }
}

/// Numbers read by their place.
struct Numbers<'a> {
    bytes: &'a [u8],
}

impl Numbers<'_> {
    fn word(&self, at: usize) -> [u8; 4] {
        self.bytes[at..at + 4].try_into().expect("four bytes")
    }

    fn words(&self, at: usize, count: usize, to: &mut Vec<i64>) {
        to.extend((0..count).map(|i| i64::from(u32::from_le_bytes(self.word(at + 4 * i)))));
    }

    fn bytes(&self, at: usize, count: usize, to: &mut Vec<i64>) {
        to.extend(self.bytes[at..at + count].iter().map(|byte| i64::from(*byte)));
    }

    fn table(&self, at: usize, to: &mut Vec<i64>) {
        for slot in 0..SLOTS {
            let at = at + SLOT * slot;
            to.push(i64::from(i32::from_le_bytes(self.word(at))));
            self.words(at + 4, 5, to);
        }
    }

    fn reader(&self, to: &mut Vec<i64>) {
        self.words(8, 6, to);
        self.words(4, 1, to);
        self.bytes(2, 1, to);
        self.table(32, to);
        self.table(800, to);
    }
}

/// Why the second program answers a call.
#[derive(Clone, Copy, PartialEq, Eq, Debug)]
pub enum Unlent {
    /// It is a crane's, or asks whether a reader is well formed.
    NotExported,
    /// It has a number that its place in a state or a setup cannot hold.
    TooWide,
}

/// The state that a call has in hand, and its bytes; `None` for a call without a state.
/// A fresh state's bytes are any bytes before the call.
pub fn lent(call: &Call) -> Result<Option<(Kind, Vec<u8>)>, Unlent> {
    let (kind, bytes) = match call {
        Call::Fresh(Layout::Crane, _) | Call::Good { .. } => return Err(Unlent::NotExported),
        Call::Fresh(Layout::Panel, setup) => (Kind::Reader, any(Kind::Reader, setup)),
        Call::PiecesFresh(setup) => (Kind::Line, any(Kind::Line, setup)),
        Call::New { setup, .. } => (Kind::Writer, any(Kind::Writer, setup)),
        Call::Start => (Kind::Pod, Some(vec![ANY; Kind::Pod.length()])),
        Call::Run { reader, .. } | Call::One { reader, .. } | Call::Load { reader, .. } | Call::Ask { reader, .. } => {
            if reader.layout == Layout::Crane {
                return Err(Unlent::NotExported);
            }
            (Kind::Reader, packed_reader(Kind::Reader, 0, reader))
        }
        Call::Write { writer, .. } | Call::Anonymous { writer, .. } => (Kind::Writer, packed_writer(writer)),
        Call::PiecesTake { pieces, .. } | Call::PiecesLoad { pieces, .. } | Call::PiecesAsk { pieces, .. } => {
            (Kind::Line, packed_line(pieces))
        }
        Call::Pod { pod, .. } | Call::Commands(CommandsCall::Write { pod, .. }) => (Kind::Pod, packed_pod(pod)),
        Call::Recorder(_) | Call::Force(_) | Call::Commands(CommandsCall::Read { .. }) => return Ok(None),
    };
    bytes.map(|bytes| Some((kind, bytes))).ok_or(Unlent::TooWide)
}

/// What stands where a fresh state goes.
const ANY: u8 = 0xC3;

fn any(kind: Kind, setup: &Setup) -> Option<Vec<u8>> {
    packed_setup(setup)?;
    Some(vec![ANY; kind.length()])
}

fn word(number: u64) -> Option<[u8; 4]> {
    u32::try_from(number).ok().map(u32::to_le_bytes)
}

fn packed_setup(setup: &Setup) -> Option<[u8; SETUP]> {
    let mut bytes = word(setup.slots)?.to_vec();
    for largest in setup.largest {
        bytes.extend(largest.to_le_bytes());
    }
    bytes.try_into().ok()
}

fn packed_table(table: &Table) -> Vec<u8> {
    let mut bytes = Vec::with_capacity(SLOT * SLOTS);
    for slot in table {
        bytes.extend(slot.id.0.to_le_bytes());
        for number in slot.numbers {
            bytes.extend(number.to_le_bytes());
        }
    }
    bytes
}

fn packed_writer(writer: &Writer) -> Option<Vec<u8>> {
    let told = &writer.pointer.told;
    let mut bytes = vec![VERSION, Kind::Writer.number(), writer.pointer.on as u8, told.touch];
    bytes.extend(told.tool.to_le_bytes());
    bytes.extend([0, 0]);
    bytes.extend(packed_setup(&writer.setup)?);
    bytes.extend(word(writer.current.0)?);
    for number in [writer.counter, told.x, told.y] {
        bytes.extend(number.to_le_bytes());
    }
    bytes.extend(packed_table(&writer.table));
    bytes.extend(writer.pointer.ranks);
    Some(bytes)
}

/// A reader's bytes, and the first of the line's reader's.
fn packed_reader(kind: Kind, byte_3: u8, reader: &Reader) -> Option<Vec<u8>> {
    let mode = match reader.mode {
        Mode::Following => 0,
        Mode::Dropped => 1,
        Mode::Stale => 2,
    };
    let mut bytes = vec![VERSION, kind.number(), mode, byte_3];
    bytes.extend(word(reader.current.0)?);
    bytes.extend(packed_setup(&reader.setup)?);
    bytes.extend(packed_table(&reader.shown));
    bytes.extend(packed_table(&reader.pending));
    Some(bytes)
}

fn packed_line(pieces: &PieceReader) -> Option<Vec<u8>> {
    let mut bytes = packed_reader(Kind::Line, u8::try_from(pieces.held).ok()?, &pieces.reader)?;
    bytes.extend(pieces.bytes);
    bytes.push(0);
    Some(bytes)
}

fn packed_pod(pod: &Pod) -> Option<Vec<u8>> {
    let mut bytes = vec![VERSION, Kind::Pod.number(), pod.waits as u8, u8::try_from(pod.held).ok()?];
    bytes.extend(pod.bytes);
    bytes.extend([0, 0]);
    Some(bytes)
}

/// Whether every byte of formed bytes is judged by [`Kind::wrong`] or told by [`Kind::words`]: then equal words are equal bytes.
pub fn each_byte_counts() -> bool {
    Kind::ALL.into_iter().all(|kind| {
        let mut bytes = vec![0; kind.length()];
        (bytes[0], bytes[1]) = (VERSION, kind.number());
        let words = kind.words(&bytes);
        (0..bytes.len()).all(|at| {
            let mut bytes = bytes.clone();
            bytes[at] ^= 1;
            kind.wrong(&bytes).is_some() || kind.words(&bytes) != words
        })
    })
}
