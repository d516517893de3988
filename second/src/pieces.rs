//! A reader of bytes as the line delivers them: pieces of any size, empty ones too, with up to seven left-over bytes carried from one to the next.

use crate::events::RECORD;
use crate::reader::{Asked, Ran, Reader};
use crate::refusal::Refusal;
use crate::table::{Layout, Setup, SlotNumber};

/// How many left-over bytes can be held: one less than a record has.
pub const LEFT_OVER: usize = RECORD - 1;

/// The panel's reader with what is left over of the pieces so far, well formed or not.
#[derive(Clone, PartialEq, Eq, Debug)]
pub struct PieceReader {
    pub reader: Reader,
    pub held: u64,
    pub bytes: [u8; LEFT_OVER],
}

impl PieceReader {
    /// The state's place in an answer with refusal 1; it is not well formed.
    pub fn zeros() -> PieceReader {
        PieceReader::of(Reader::zeros(Layout::Panel))
    }

    /// The state at the start; refusal 1.
    pub fn fresh(setup: Setup) -> Result<PieceReader, Refusal> {
        Reader::fresh(Layout::Panel, setup).map(PieceReader::of)
    }

    /// This reader with nothing left over.
    pub fn of(reader: Reader) -> PieceReader {
        PieceReader { reader, held: 0, bytes: [0; LEFT_OVER] }
    }

    /// Whether any call takes this state; refusal 2 where it is not.
    pub fn is_well_formed(&self) -> bool {
        self.reader.is_well_formed()
            && self.held <= LEFT_OVER as u64
            && self.bytes[self.held as usize..].iter().all(|byte| *byte == 0)
    }

    /// Reads the records that the piece makes whole, and keeps what is left over; refusal 2.
    pub fn take(&mut self, piece: &[u8]) -> Result<Ran, Refusal> {
        if !self.is_well_formed() {
            return Err(Refusal::State);
        }
        let held = self.held as usize;
        let missing = if held == 0 { 0 } else { RECORD - held };
        if piece.len() < missing {
            self.keep(held, piece);
            return Ok(Ran::NOTHING);
        }
        let (first, rest) = piece.split_at(missing);
        let mut ran = Ran::NOTHING;
        if held > 0 {
            let mut record = [0; RECORD];
            record[..held].copy_from_slice(&self.bytes[..held]);
            record[held..].copy_from_slice(first);
            ran = self.reader.run(&record)?;
        }
        let (whole, left) = rest.split_at(rest.len() / RECORD * RECORD);
        ran.add(self.reader.run(whole)?);
        self.bytes = [0; LEFT_OVER];
        self.keep(0, left);
        Ok(ran)
    }

    /// Puts these bytes behind so many that are held.
    fn keep(&mut self, held: usize, bytes: &[u8]) {
        self.bytes[held..held + bytes.len()].copy_from_slice(bytes);
        self.held = (held + bytes.len()) as u64;
    }

    /// A load between two pieces; what is left over stays. Refusals 2, 7 and 8.
    pub fn load(&mut self, image: &[i32], current: SlotNumber) -> Result<(), Refusal> {
        if !self.is_well_formed() {
            return Err(Refusal::State);
        }
        self.reader.load(image, current)
    }

    /// What is known of a slot; refusal 2.
    pub fn ask(&self, slot: SlotNumber) -> Result<Asked, Refusal> {
        if !self.is_well_formed() {
            return Err(Refusal::State);
        }
        self.reader.ask(slot)
    }
}
