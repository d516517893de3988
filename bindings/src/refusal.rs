//! Why a call was refused.

use std::error::Error;
use std::fmt;

/// Why a call was refused. Nothing was changed: not a byte of the state, nor of a buffer.
#[derive(Clone, Copy, PartialEq, Eq, Hash, Debug)]
#[non_exhaustive]
pub enum Refusal {
    /// 1: a number of the setup is out of its range.
    Setup,
    /// 2: the bytes are no state of this kind and version.
    State,
    /// 3: the frame has not a row for each slot.
    Frame,
    /// 4: a number is out of its range.
    Value,
    /// 5: the buffer is too short.
    NoRoom {
        /// How many bytes are needed from the position on.
        need: usize,
    },
    /// 6: the bytes are no whole records.
    Ragged,
    /// 7: no load is due.
    NotStale,
    /// 8: what was to be loaded is no table of this panel.
    Image,
    /// 9: an anonymous frame has too many contacts.
    TooMany,
    /// 10: an anonymous frame is not whole.
    Unfinished,
    /// 11: a number of a command is out of its range.
    Command,
    /// A number that this crate does not know: the archive is of another version than the crate.
    Unlisted(u32),
}

impl Refusal {
    /// Its number in `chandrulek.h`.
    pub fn number(self) -> u32 {
        match self {
            Refusal::Setup => 1,
            Refusal::State => 2,
            Refusal::Frame => 3,
            Refusal::Value => 4,
            Refusal::NoRoom { .. } => 5,
            Refusal::Ragged => 6,
            Refusal::NotStale => 7,
            Refusal::Image => 8,
            Refusal::TooMany => 9,
            Refusal::Unfinished => 10,
            Refusal::Command => 11,
            Refusal::Unlisted(number) => number,
        }
    }

    /// What a call answered: nothing for 0, else the refusal of that number, with the need that NO ROOM tells.
    pub(crate) fn judge(number: u32, need: u64) -> Result<(), Refusal> {
        Err(match number {
            0 => return Ok(()),
            1 => Refusal::Setup,
            2 => Refusal::State,
            3 => Refusal::Frame,
            4 => Refusal::Value,
            5 => Refusal::NoRoom { need: need as usize },
            6 => Refusal::Ragged,
            7 => Refusal::NotStale,
            8 => Refusal::Image,
            9 => Refusal::TooMany,
            10 => Refusal::Unfinished,
            11 => Refusal::Command,
            other => Refusal::Unlisted(other),
        })
    }
}

/// The refusal in plain words, and what to do.
impl fmt::Display for Refusal {
    fn fmt(&self, f: &mut fmt::Formatter<'_>) -> fmt::Result {
        write!(f, "refused {}: ", self.number())?;
        f.write_str(match self {
            Refusal::Setup => {
                "a number of the setup is out of its range: give 1 to 32 slots, x and y of 1 to 32767, pressure and sizes of 1 to 255"
            }
            Refusal::State => "the bytes are no state of this kind and version: begin with a fresh one, and load a reader's table",
            Refusal::Frame => "the frame has not a row for each slot: give one for every slot of the setup, empty ones too",
            Refusal::Value => "a number is out of its range: mend what makes it; until a frame is accepted every contact is unknown",
            Refusal::NoRoom { need } => {
                return write!(f, "the buffer is too short: give {need} bytes from the position on, and call again")
            }
            Refusal::Ragged => "the bytes are no whole records of 8: hand over the whole ones, and keep the rest for the next call",
            Refusal::NotStale => "no load is due: a following reader needs none, and a dropped one needs its SYN_REPORT first",
            Refusal::Image => "that is no table of this panel: query it again, and compare its slots and ranges with the setup",
            Refusal::TooMany => "the frame has more contacts than 5, or than slots: have the panel send fewer, or set up all its slots",
            Refusal::Unfinished => "the frame is not whole: hand over all records of one frame, up to its only SYN_REPORT",
            Refusal::Command => "a number of the command is out of its range: mend the command",
            Refusal::Unlisted(_) => "a number that is not listed: link the archive that this crate was made with",
        })
    }
}

impl Error for Refusal {}
