//! The reader of pod (ikbd) reports, one byte at a time.

use crate::commands::{is_clock, Clock};
use crate::refusal::Refusal;

/// How many bytes of an unfinished report can be held: one less than the longest has.
pub const PLACES: usize = 6;

/// What a pod sends after power-up or reset where its self-test passed; from then on it is a key that comes up.
pub const SELF_TEST: u8 = 0xF0;

/// A pod's state, well formed or not: whether the self-test is waited for, and the unfinished report.
#[derive(Clone, Copy, PartialEq, Eq, Debug)]
pub struct Pod {
    pub waits: bool,
    pub held: u64,
    pub bytes: [u8; PLACES],
}

/// What a stick byte tells.
#[derive(Clone, Copy, PartialEq, Eq, Debug)]
pub struct Stick {
    pub trigger: bool,
    pub position: u8,
}

/// The answer to one byte.
#[derive(Clone, Copy, PartialEq, Eq, Debug)]
pub enum Report {
    More,
    SelfTestPassed,
    Down(u8),
    Up(u8),
    Absolute { flags: u8, x: u16, y: u16 },
    Relative { left: bool, right: bool, dx: i8, dy: i8 },
    Sticks(Stick, Stick),
    Stick { which: u8, stick: Stick },
    Time(Clock),
    BadByte,
    BadReport,
}

/// How many bytes the report has that this first byte opens.
pub fn length(first: u8) -> u64 {
    match first {
        0xF7 => 6,
        0xFC => 7,
        0xF8..=0xFB | 0xFD => 3,
        0xFE | 0xFF => 2,
        _ => 1,
    }
}

impl Pod {
    /// The state at the start.
    pub const FRESH: Pod = Pod { waits: true, held: 0, bytes: [0; PLACES] };

    /// The state that holds no byte and waits as this one does: after each whole report.
    pub fn without_bytes(self) -> Pod {
        Pod { waits: self.waits, ..Pod::FRESH }
    }

    /// Whether [`Pod::take`] takes this state; refusal 2 where it is not. Both values of `waits` are good.
    pub fn is_well_formed(&self) -> bool {
        if self.held == 0 {
            return *self == self.without_bytes();
        }
        // No report is longer than seven bytes, so this keeps `held` to the six places too.
        self.held < length(self.bytes[0]) && self.bytes[self.held as usize..].iter().all(|b| *b == 0)
    }

    /// Takes the next byte; refusal 2.
    pub fn take(&mut self, byte: u8) -> Result<Report, Refusal> {
        if !self.is_well_formed() {
            return Err(Refusal::State);
        }
        let first = if self.held == 0 { byte } else { self.bytes[0] };
        if self.held + 1 < length(first) {
            self.bytes[self.held as usize] = byte;
            self.held += 1;
            return Ok(Report::More);
        }
        let [_, b1, b2, b3, b4, b5] = self.bytes;
        *self = self.without_bytes();
        Ok(match first {
            SELF_TEST if self.waits => {
                self.waits = false;
                Report::SelfTestPassed
            }
            0x01..=0x75 => Report::Down(first),
            0x81..=0xF5 => Report::Up(first - 0x80),
            0xF7 if b1 & 0xF0 != 0 => Report::BadReport,
            0xF7 => Report::Absolute { flags: b1, x: u16::from_be_bytes([b2, b3]), y: u16::from_be_bytes([b4, byte]) },
            0xF8..=0xFB => {
                Report::Relative { left: first & 2 != 0, right: first & 1 != 0, dx: b1 as i8, dy: byte as i8 }
            }
            0xFC => Some([b1, b2, b3, b4, b5, byte]).filter(is_clock).map_or(Report::BadReport, Report::Time),
            0xFD => match (stick(b1), stick(byte)) {
                (Some(zero), Some(one)) => Report::Sticks(zero, one),
                _ => Report::BadReport,
            },
            0xFE | 0xFF => stick(byte).map_or(Report::BadReport, |stick| Report::Stick { which: first & 1, stick }),
            _ => Report::BadByte,
        })
    }
}

fn stick(byte: u8) -> Option<Stick> {
    (byte & 0x70 == 0).then_some(Stick { trigger: byte & 0x80 != 0, position: byte & 0x0F })
}
