//! The writer: a panel's frames to type B events.

use crate::ffi::{self, RECORD_BYTES, WRITER_BYTES};
use crate::panel::{Contact, Rows, Setup, Slot};
use crate::refusal::Refusal;

/// A writer. Its state is the bytes of `docs/LAYOUT.md`.
#[derive(Clone, PartialEq, Eq, Debug)]
pub struct Writer {
    state: [u8; WRITER_BYTES],
}

/// What an accepted frame sent.
#[derive(Clone, Copy, PartialEq, Eq, Debug)]
pub struct Written {
    /// How many events were written; none where the frame changes nothing.
    pub events: usize,
    /// The changed slots, bit s for slot s.
    pub changed: u32,
}

impl Written {
    /// How many bytes were written.
    pub fn bytes(&self) -> usize {
        self.events * RECORD_BYTES
    }

    /// Whether this slot changed.
    pub fn has_changed(&self, slot: Slot) -> bool {
        slot.0 < 32 && self.changed >> slot.0 & 1 == 1
    }
}

impl Writer {
    /// A fresh writer, every slot unused. With `pointer` it tells an old display too (BTN_TOUCH, a tool, X and Y).
    ///
    /// # Errors
    /// [`Refusal::Setup`].
    pub fn fresh(setup: Setup, pointer: bool) -> Result<Writer, Refusal> {
        let mut state = [0; WRITER_BYTES];
        Refusal::judge(ffi::writer_fresh(&mut state, &setup.numbers(), pointer.into()), 0)?;
        Ok(Writer { state })
    }

    /// A writer with these bytes, whatever they are: if they are no writer's state, its next call is refused by [`Refusal::State`].
    pub fn from_bytes(bytes: &[u8; WRITER_BYTES]) -> Writer {
        Writer { state: *bytes }
    }

    /// The state, to be saved, copied or sent.
    pub fn as_bytes(&self) -> &[u8; WRITER_BYTES] {
        &self.state
    }

    /// Writes the events of what a frame changes into the buffer, from the position on. The frame has a row for every slot of the setup.
    /// [`MOST_BYTES`](crate::MOST_BYTES) bytes are room for any frame.
    ///
    /// **A refused frame sends nothing, so it can hide a lift**: stop what the contacts hold until a frame is accepted.
    ///
    /// # Errors
    /// In this order: [`Refusal::State`], [`Refusal::Frame`], [`Refusal::Value`], [`Refusal::NoRoom`].
    pub fn write(&mut self, frame: &[Contact], buffer: &mut [u8], at: usize) -> Result<Written, Refusal> {
        let rows = Rows::of(frame.iter().map(Contact::numbers));
        let mut answer = [0; 3];
        let number = ffi::write(&mut self.state, rows.numbers(), buffer, at, &mut answer);
        written(number, answer)
    }

    /// The same for the frame of an anonymous panel: records of type A (x, y and pressure of each contact and SYN_MT_REPORT; at the end SYN_REPORT).
    /// The contacts are paired with those that are down: as many as possible, and as near as possible.
    ///
    /// # Errors
    /// In this order: [`Refusal::State`], [`Refusal::Ragged`], [`Refusal::TooMany`], [`Refusal::Unfinished`], [`Refusal::Value`], [`Refusal::NoRoom`].
    pub fn write_anonymous(&mut self, records: &[u8], buffer: &mut [u8], at: usize) -> Result<Written, Refusal> {
        let mut answer = [0; 3];
        let number = ffi::write_anonymous(&mut self.state, records, buffer, at, &mut answer);
        written(number, answer)
    }
}

fn written(number: u32, [events, need, changed]: [u64; 3]) -> Result<Written, Refusal> {
    Refusal::judge(number, need)?;
    Ok(Written { events: events as usize, changed: changed as u32 })
}

/// Bytes of another length are [`Refusal::State`].
impl TryFrom<&[u8]> for Writer {
    type Error = Refusal;

    fn try_from(bytes: &[u8]) -> Result<Writer, Refusal> {
        bytes.try_into().map(Writer::from_bytes).map_err(|_| Refusal::State)
    }
}
