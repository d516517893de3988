//! The two readers: type B events to a contact table, from whole records or from pieces of a line.

use crate::ffi::{self, LINE_BYTES, READER_BYTES, RECORD_BYTES};
use crate::panel::{Event, Rows, Setup, Slot, SlotRecord, TrackingId};
use crate::refusal::Refusal;

/// What a host hands in that lost records itself: SYN_DROPPED, and the SYN_REPORT after which a load is taken.
fn loss() -> [u8; 2 * RECORD_BYTES] {
    let mut records = [0; 2 * RECORD_BYTES];
    records[..RECORD_BYTES].copy_from_slice(&Event::DROPPED.to_bytes());
    records[RECORD_BYTES..].copy_from_slice(&Event::REPORT.to_bytes());
    records
}

/// What a reader counted in one call.
#[derive(Clone, Copy, PartialEq, Eq, Default, Debug)]
pub struct Counts {
    /// Tables shown: good reports.
    pub shown: u64,
    /// Records skipped, since their type is unknown.
    pub unknown_type: u64,
    /// Records skipped, since their type is known and their code is not.
    pub unknown_code: u64,
    /// Bad records: from the first on every slot is unknown.
    pub bad: u64,
    /// Records ignored after a loss.
    pub ignored: u64,
    /// The type and the code of the first record that was skipped.
    pub first_skipped: Option<(u16, u16)>,
}

/// What is known of a slot.
#[derive(Clone, Copy, PartialEq, Eq, Hash, Debug)]
pub enum Asked {
    /// Track is lost: there may be a finger, and there may be none.
    Unknown,
    /// No contact.
    Empty,
    /// A contact.
    Contact(SlotRecord),
    /// The panel has no such slot.
    NoSuchSlot,
}

/// A reader of whole records. Its state is the bytes of `docs/LAYOUT.md`.
#[derive(Clone, PartialEq, Eq, Debug)]
pub struct Reader {
    state: [u8; READER_BYTES],
}

/// The same reader for a line that delivers bytes in pieces of any length: up to seven bytes of a record that is cut are held.
#[derive(Clone, PartialEq, Eq, Debug)]
pub struct LineReader {
    state: [u8; LINE_BYTES],
}

impl Reader {
    /// A fresh reader, every slot empty. That is so only behind a sender that is fresh too: on a panel that may be touched already
    /// call [`lost`](Reader::lost), and load.
    ///
    /// # Errors
    /// [`Refusal::Setup`].
    pub fn fresh(setup: Setup) -> Result<Reader, Refusal> {
        let mut state = [0; READER_BYTES];
        Refusal::judge(ffi::reader_fresh(&mut state, &setup.numbers()), 0)?;
        Ok(Reader { state })
    }

    /// A reader with these bytes, whatever they are: if they are no reader's state, its next call is refused by [`Refusal::State`].
    /// A saved reader knows what was so when it was saved: if it did not get every record since, call [`lost`](Reader::lost), and load.
    pub fn from_bytes(bytes: &[u8; READER_BYTES]) -> Reader {
        Reader { state: *bytes }
    }

    /// The state, to be saved, copied or sent.
    pub fn as_bytes(&self) -> &[u8; READER_BYTES] {
        &self.state
    }

    /// Reads whole records of 8 bytes ([`Event::to_bytes`]). Hand in SYN_DROPPED as the device sends it.
    /// A bad value and a loss are no errors: every slot is unknown from then on, until a load.
    ///
    /// # Errors
    /// [`Refusal::State`], [`Refusal::Ragged`].
    pub fn run(&mut self, records: &[u8]) -> Result<Counts, Refusal> {
        let mut answer = [0; 8];
        let number = ffi::run(&mut self.state, records, &mut answer);
        counts(number, answer)
    }

    /// Tells the reader of a loss that the device did not tell: a failed read, a queue of the host's own that ran over.
    /// Every slot is unknown from here on, and a load is due.
    ///
    /// # Errors
    /// [`Refusal::State`].
    pub fn lost(&mut self) -> Result<Counts, Refusal> {
        self.run(&loss())
    }

    /// Loads the panel's whole table and its current slot after a loss. Both are the panel's at the moment after the last record that was handed in.
    ///
    /// # Errors
    /// [`Refusal::State`]; [`Refusal::NotStale`] where the reader follows, or where SYN_DROPPED came and its SYN_REPORT did not yet; [`Refusal::Image`].
    pub fn load(&mut self, image: &[SlotRecord], current: Slot) -> Result<(), Refusal> {
        let rows = Rows::of(image.iter().map(SlotRecord::numbers));
        Refusal::judge(ffi::load(&mut self.state, rows.numbers(), current.0), 0)
    }

    /// What is known of a slot, as of the last report. Act on [`Asked::Contact`] alone: no event is not no finger.
    ///
    /// # Errors
    /// [`Refusal::State`].
    pub fn ask(&self, slot: Slot) -> Result<Asked, Refusal> {
        let mut answer = [0; 7];
        let number = ffi::ask(&self.state, slot.0, &mut answer);
        asked(number, answer)
    }

    /// Whether track is lost: every slot is unknown until a load.
    ///
    /// # Errors
    /// [`Refusal::State`].
    pub fn is_lost(&self) -> Result<bool, Refusal> {
        // Every panel has a slot 0.
        Ok(self.ask(Slot(0))? == Asked::Unknown)
    }
}

impl LineReader {
    /// Where the state says how many bytes are held, and where these stand; all of them are 0 where none is.
    const HELD: usize = 3;
    const HELD_BYTES: usize = READER_BYTES;

    /// As [`Reader::fresh`].
    ///
    /// # Errors
    /// [`Refusal::Setup`].
    pub fn fresh(setup: Setup) -> Result<LineReader, Refusal> {
        let mut state = [0; LINE_BYTES];
        Refusal::judge(ffi::line_fresh(&mut state, &setup.numbers()), 0)?;
        Ok(LineReader { state })
    }

    /// A reader with these bytes, whatever they are: if they are no line reader's state, its next call is refused by [`Refusal::State`].
    /// A saved reader knows what was so when it was saved: if it did not get every byte since, call [`lost`](LineReader::lost), and load.
    pub fn from_bytes(bytes: &[u8; LINE_BYTES]) -> LineReader {
        LineReader { state: *bytes }
    }

    /// The state, to be saved, copied or sent.
    pub fn as_bytes(&self) -> &[u8; LINE_BYTES] {
        &self.state
    }

    /// Takes the next piece, also an empty one. However the bytes are cut, the answers are the same.
    ///
    /// # Errors
    /// [`Refusal::State`].
    pub fn take(&mut self, piece: &[u8]) -> Result<Counts, Refusal> {
        let mut answer = [0; 8];
        let number = ffi::take(&mut self.state, piece, &mut answer);
        counts(number, answer)
    }

    /// Tells the reader that bytes of the line were lost. Every slot is unknown from here on, and a load is due.
    /// A record that was cut is lost with them: the next byte that is taken begins a record.
    ///
    /// # Errors
    /// [`Refusal::State`].
    pub fn lost(&mut self) -> Result<Counts, Refusal> {
        // Bytes that are no state are refused as they are.
        self.ask(Slot(0))?;
        // Held bytes would take those of SYN_DROPPED for their own.
        self.state[Self::HELD] = 0;
        self.state[Self::HELD_BYTES..].fill(0);
        self.take(&loss())
    }

    /// As [`Reader::load`]; the bytes that are held stay.
    ///
    /// # Errors
    /// [`Refusal::State`], [`Refusal::NotStale`], [`Refusal::Image`].
    pub fn load(&mut self, image: &[SlotRecord], current: Slot) -> Result<(), Refusal> {
        let rows = Rows::of(image.iter().map(SlotRecord::numbers));
        Refusal::judge(ffi::line_load(&mut self.state, rows.numbers(), current.0), 0)
    }

    /// As [`Reader::ask`]; bytes that are held are no event yet.
    ///
    /// # Errors
    /// [`Refusal::State`].
    pub fn ask(&self, slot: Slot) -> Result<Asked, Refusal> {
        let mut answer = [0; 7];
        let number = ffi::line_ask(&self.state, slot.0, &mut answer);
        asked(number, answer)
    }

    /// As [`Reader::is_lost`].
    ///
    /// # Errors
    /// [`Refusal::State`].
    pub fn is_lost(&self) -> Result<bool, Refusal> {
        Ok(self.ask(Slot(0))? == Asked::Unknown)
    }
}

fn counts(number: u32, answer: [u64; 8]) -> Result<Counts, Refusal> {
    Refusal::judge(number, 0)?;
    let [shown, unknown_type, unknown_code, bad, ignored, skipped, kind, code] = answer;
    let first_skipped = (skipped == 1).then_some((kind as u16, code as u16));
    Ok(Counts { shown, unknown_type, unknown_code, bad, ignored, first_skipped })
}

fn asked(number: u32, answer: [i32; 7]) -> Result<Asked, Refusal> {
    Refusal::judge(number, 0)?;
    let [answer, id, x, y, pressure, major, minor] = answer;
    Ok(match answer {
        1 => Asked::Empty,
        2 => Asked::Contact(SlotRecord { id: TrackingId(id), x, y, pressure, major, minor }),
        3 => Asked::NoSuchSlot,
        // 0; of a number that is not listed nothing is known either.
        _ => Asked::Unknown,
    })
}

/// Bytes of another length are [`Refusal::State`].
impl TryFrom<&[u8]> for Reader {
    type Error = Refusal;

    fn try_from(bytes: &[u8]) -> Result<Reader, Refusal> {
        bytes.try_into().map(Reader::from_bytes).map_err(|_| Refusal::State)
    }
}

/// Bytes of another length are [`Refusal::State`].
impl TryFrom<&[u8]> for LineReader {
    type Error = Refusal;

    fn try_from(bytes: &[u8]) -> Result<LineReader, Refusal> {
        bytes.try_into().map(LineReader::from_bytes).map_err(|_| Refusal::State)
    }
}
