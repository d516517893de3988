//! Calls of the reader that takes pieces: records in any cut, loads and questions between two pieces, and states that are not well formed.

use super::Maker;
use crate::events::RECORD;
use crate::pieces::{PieceReader, LEFT_OVER};
use crate::reader::{Mode, Reader};
use crate::script::{Call, Cut};
use crate::table::{Layout, SlotNumber};

/// After each piece the whole state is told, so that more of them make a long answer.
const MOST_PIECES: usize = 24;

impl Maker {
    pub(super) fn pieces_call(&mut self) -> Call {
        match self.random.below(12) {
            0 => Call::PiecesFresh(self.any_setup(Layout::Panel)),
            1..=7 => self.pieces_take(),
            8 | 9 => self.pieces_load(),
            _ => self.pieces_ask(),
        }
    }

    /// Records with the first bytes of the first one left over from before, and the last one cut.
    fn pieces_take(&mut self) -> Call {
        let (which, reader) = self.reader(Layout::Panel);
        let mut bytes = self.short_run(&reader);
        bytes.truncate(bytes.len() - self.random.below(RECORD as u64).min(bytes.len() as u64) as usize);
        let whole = bytes.len() / RECORD * RECORD;
        self.keep(which, &reader, |reader| reader.run(&bytes[..whole]).is_ok());
        let mut pieces = PieceReader::of(reader);
        self.hold(&mut pieces, &mut bytes);
        let lengths = self.lengths(pieces.held, bytes.len());
        if self.random.once_in(8) {
            self.break_pieces(&mut pieces);
        }
        Call::PiecesTake { pieces, cut: Cut { lengths, bytes } }
    }

    /// A run of a few records, since each piece is answered by a whole state.
    fn short_run(&mut self, reader: &Reader) -> Vec<u8> {
        if self.random.once_in(10) {
            return Vec::new();
        }
        if self.random.once_in(40) {
            self.tag("pieces: a long string");
            return self.run_of(reader, 300, false);
        }
        let count = self.random.pick(&[1, 1, 2, 2, 3, 4, 6, 12]);
        let rough = self.random.once_in(2);
        self.run_of(reader, count, rough)
    }

    /// So many records, or none; what a report shows or a loss hides comes now and then.
    fn run_of(&mut self, reader: &Reader, count: u64, rough: bool) -> Vec<u8> {
        let mut reader = reader.clone();
        let mut bytes = Vec::new();
        for _ in 0..count {
            let event = self.event(&reader, rough);
            // What the next one is made for is what this one left.
            let _ = reader.one(event);
            bytes.extend(event.to_bytes());
        }
        bytes
    }

    /// Moves up to seven bytes from the front of the string into the state.
    fn hold(&mut self, pieces: &mut PieceReader, bytes: &mut Vec<u8>) {
        let held = if self.random.once_in(3) { 0 } else { self.random.from_to(1, LEFT_OVER as u64) };
        let held = held.min(bytes.len() as u64) as usize;
        self.tag(if held == 0 { "pieces: nothing held" } else { "pieces: bytes held" });
        pieces.held = held as u64;
        for (place, byte) in bytes.drain(..held).enumerate() {
            pieces.bytes[place] = byte;
        }
    }

    /// The lengths of the pieces of a string behind so many bytes that are held.
    fn lengths(&mut self, held: u64, length: usize) -> Vec<u64> {
        let mut cuts: Vec<usize> = match self.random.below(6) {
            0 => Vec::new(),
            1 if length <= MOST_PIECES => {
                self.tag("pieces: byte by byte");
                (1..length).collect()
            }
            2 => {
                let size = self.random.from_to(1, 20).max((length / MOST_PIECES) as u64 + 1) as usize;
                (size..length).step_by(size).collect()
            }
            _ => (0..self.random.from_to(1, 7)).map(|_| self.random.below(length as u64 + 1) as usize).collect(),
        };
        cuts.extend([0, length]);
        cuts.sort_unstable();
        if self.random.once_in(3) {
            // The same place once more is an empty piece, here or at an end.
            cuts.push(self.random.pick(&cuts));
            cuts.sort_unstable();
        }
        self.tag_cuts(held, &cuts);
        cuts.windows(2).map(|pair| (pair[1] - pair[0]) as u64).collect()
    }

    fn tag_cuts(&mut self, held: u64, cuts: &[usize]) {
        let inner = &cuts[1..cuts.len() - 1];
        if inner.is_empty() {
            self.tag("pieces: one piece");
        }
        for cut in inner {
            let is_between = (held as usize + cut) % RECORD == 0;
            self.tag(if is_between { "pieces: cut between records" } else { "pieces: cut inside a record" });
        }
        if cuts.windows(2).any(|pair| pair[0] == pair[1]) {
            self.tag("pieces: an empty piece");
        }
    }

    /// A reader, well formed or not, with the first bytes of a record left over.
    fn with_left_over(&mut self, reader: Reader) -> PieceReader {
        let another = Reader::fresh(Layout::Panel, self.setup(Layout::Panel)).expect("a good setup");
        let mut bytes = self.run_of(&another, 1, true);
        let mut pieces = PieceReader::of(reader);
        self.hold(&mut pieces, &mut bytes);
        pieces
    }

    fn pieces_load(&mut self) -> Call {
        let Call::Load { mut reader, current, image } = self.load(Layout::Panel) else {
            unreachable!("a load is one");
        };
        if self.random.once_in(6) && reader.is_well_formed() {
            reader.mode = self.random.pick(&[Mode::Following, Mode::Dropped, Mode::Stale]);
            reader.pending = reader.shown;
        }
        let mut pieces = self.with_left_over(reader);
        if self.random.once_in(8) {
            self.break_left_over(&mut pieces);
        }
        Call::PiecesLoad { pieces, current, image }
    }

    fn pieces_ask(&mut self) -> Call {
        let (_, reader) = self.reader(Layout::Panel);
        let n = reader.setup.slots;
        let slot = if self.random.once_in(5) { self.bad_slot(Layout::Panel, n) } else { self.slot(n) };
        let mut pieces = self.with_left_over(reader);
        if self.random.once_in(5) {
            self.break_pieces(&mut pieces);
        }
        Call::PiecesAsk { pieces, slot: SlotNumber(slot) }
    }

    /// One part of what is well formed is broken.
    fn break_pieces(&mut self, pieces: &mut PieceReader) {
        if self.random.once_in(3) {
            self.break_reader(&mut pieces.reader);
        } else {
            self.break_left_over(pieces);
        }
    }

    fn break_left_over(&mut self, pieces: &mut PieceReader) {
        if self.random.once_in(2) {
            self.tag("pieces: held too many");
            let held = pieces.held;
            pieces.held = self.random.pick(&[8, 8, 8, 9, 16, 255, (1 << 8) + held, (1 << 32) + held, u64::MAX]);
            if self.random.once_in(2) {
                pieces.bytes.fill(self.random.word() as u8);
            }
        } else {
            self.tag("pieces: unused place not 0");
            pieces.held = pieces.held.min(LEFT_OVER as u64 - 1);
            let place = self.random.from_to(pieces.held, LEFT_OVER as u64 - 1) as usize;
            pieces.bytes[pieces.held as usize..].fill(0);
            pieces.bytes[place] = self.random.from_to(1, 255) as u8;
        }
    }
}
