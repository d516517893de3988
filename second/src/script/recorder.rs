//! The recorder's calls: one block, the next blocks, and a block read.

use super::line::Line;
use super::marks;
use super::numbers::Numbers;
use crate::events::RECORD;
use crate::recorder::{self, Laid, BLOCK, EVENTS};
use crate::refusal::Refusal;

/// What their names begin with.
pub const RECORDER: &str = "recorder_";

/// A call of the recorder's, which has no state.
#[derive(Clone, PartialEq, Eq, Debug)]
pub enum RecorderCall {
    Block { number: u32, records: Vec<u8> },
    Lay { number: u32, position: u64, size: usize, records: Vec<u8> },
    Read { number: u32, piece: Vec<u8> },
}

impl RecorderCall {
    pub(super) fn parse(name: &str, numbers: &mut Numbers) -> Option<RecorderCall> {
        Some(match name {
            "recorder_block" => RecorderCall::Block { number: numbers.one()?, records: numbers.rest()? },
            "recorder_lay" => RecorderCall::Lay {
                number: numbers.one()?,
                position: numbers.one()?,
                size: numbers.size()?,
                records: numbers.rest()?,
            },
            "recorder_read" => RecorderCall::Read { number: numbers.one()?, piece: numbers.rest()? },
            _ => return None,
        })
    }

    /// The word that its line begins with.
    pub fn name(&self) -> &'static str {
        match self {
            RecorderCall::Block { .. } => "recorder_block",
            RecorderCall::Lay { .. } => "recorder_lay",
            RecorderCall::Read { .. } => "recorder_read",
        }
    }

    /// Its bytes: records, or the piece that is read.
    pub fn bytes(&self) -> &[u8] {
        match self {
            RecorderCall::Block { records, .. } | RecorderCall::Lay { records, .. } => records,
            RecorderCall::Read { piece, .. } => piece,
        }
    }

    pub(super) fn put(&self, line: &mut Line) {
        match self {
            RecorderCall::Block { number, .. } | RecorderCall::Read { number, .. } => line.put(number),
            RecorderCall::Lay { number, position, size, .. } => {
                line.put(number);
                line.put(position);
                line.put(size);
            }
        }
        line.all(self.bytes());
    }

    pub(super) fn answer(&self, line: &mut Line) {
        match self {
            RecorderCall::Block { number, records } => {
                let made = recorder::block(*number, records);
                line.verdict(&made);
                line.buffer(&made.unwrap_or([0; BLOCK]));
            }
            RecorderCall::Lay { number, position, size, records } => {
                let mut buffer = marks(*size);
                let laid = recorder::lay(*number, records, &mut buffer, *position);
                line.verdict(&laid);
                let Laid { blocks, next } = laid.unwrap_or(Laid { blocks: 0, next: *number });
                line.put(blocks);
                line.put(next);
                line.put(laid.err().map_or(0, Refusal::need));
                line.buffer(&buffer);
            }
            RecorderCall::Read { number, piece } => match recorder::read(*number, piece) {
                Ok(events) => line.all(&[0, EVENTS, events.len() / RECORD]),
                Err(wrong) => line.put(wrong.number()),
            },
        }
    }
}
