//! Commands to the pod (ikbd): ten of them, written with the pod's state in hand, and read back.

use crate::pod::Pod;
use crate::refusal::Refusal;

/// What a reset begins with; its other byte is [`RESET_TOO`].
pub const RESET: u8 = 0x80;
pub const RESET_TOO: u8 = 0x01;
/// The largest button action.
pub const MOST_ACTION: u8 = 4;
/// Year, month, day, hour, minute and second, each byte two decimal digits.
pub type Clock = [u8; 6];

/// A command, good or not.
#[derive(Clone, Copy, PartialEq, Eq, Debug)]
pub enum Command {
    Reset,
    Buttons(u8),
    Relative,
    Absolute { x: u16, y: u16 },
    Threshold { x: u8, y: u8 },
    Scale { x: u8, y: u8 },
    Where,
    Load { x: u16, y: u16 },
    SetClock(Clock),
    AskClock,
}

/// The answer to bytes from a position on.
#[derive(Clone, Copy, PartialEq, Eq, Debug)]
pub enum Answer {
    Command(Command),
    /// 0x80 and another byte than 0x01: the pod ignores both.
    Lost,
    /// Another first byte, alone.
    NotForUs,
    /// A whole command with a number out of its range: refusal 11.
    Refused,
    /// The input ends inside a command, whose first byte is where reading goes on.
    Unfinished,
    /// No byte is left.
    Nothing,
}

/// How many bytes the command has that this first byte opens; `None` where it opens none.
pub fn length(first: u8) -> Option<usize> {
    Some(match first {
        0x08 | 0x0D | 0x1C => 1,
        RESET | 0x07 => 2,
        0x0B | 0x0C => 3,
        0x09 => 5,
        0x0E => 6,
        0x1B => 7,
        _ => return None,
    })
}

/// Whether each byte of a clock is two decimal digits.
pub fn is_clock(clock: &Clock) -> bool {
    clock.iter().all(|byte| byte >> 4 <= 9 && byte & 0x0F <= 9)
}

impl Command {
    /// Whether its numbers are in their ranges; refusal 11 where they are not.
    pub fn is_good(&self) -> bool {
        match self {
            Command::Buttons(action) => *action <= MOST_ACTION,
            Command::Threshold { x, y } | Command::Scale { x, y } => *x >= 1 && *y >= 1,
            Command::SetClock(clock) => is_clock(clock),
            _ => true,
        }
    }

    /// Its bytes, high ones first, good or not.
    pub fn bytes(&self) -> Vec<u8> {
        let two = |first: &[u8], x: u16, y: u16| [first, &x.to_be_bytes(), &y.to_be_bytes()].concat();
        match *self {
            Command::Reset => vec![RESET, RESET_TOO],
            Command::Buttons(action) => vec![0x07, action],
            Command::Relative => vec![0x08],
            Command::Absolute { x, y } => two(&[0x09], x, y),
            Command::Threshold { x, y } => vec![0x0B, x, y],
            Command::Scale { x, y } => vec![0x0C, x, y],
            Command::Where => vec![0x0D],
            // The filler is no number of the command.
            Command::Load { x, y } => two(&[0x0E, 0], x, y),
            Command::SetClock(clock) => [&[0x1B], &clock[..]].concat(),
            Command::AskClock => vec![0x1C],
        }
    }

    /// Writes it into the buffer from the position on, and puts the pod back to fresh for a reset; refusals 2, 5 and 11.
    pub fn write(&self, pod: &mut Pod, buffer: &mut [u8], position: u64) -> Result<(), Refusal> {
        if !pod.is_well_formed() {
            return Err(Refusal::State);
        }
        let bytes = self.bytes();
        let behind = usize::try_from(position).ok().and_then(|position| buffer.get_mut(position..));
        let Some(room) = behind.and_then(|behind| behind.get_mut(..bytes.len())) else {
            return Err(Refusal::NoRoom { need: bytes.len() as u64 });
        };
        if !self.is_good() {
            return Err(Refusal::Command);
        }
        room.copy_from_slice(&bytes);
        if *self == Command::Reset {
            *pod = Pod::FRESH;
        }
        Ok(())
    }
}

/// The first answer from the position on, and where reading goes on.
pub fn read(bytes: &[u8], position: u64) -> (Answer, usize) {
    let from = usize::try_from(position).map_or(bytes.len(), |position| position.min(bytes.len()));
    let Some(first) = bytes.get(from) else {
        return (Answer::Nothing, bytes.len());
    };
    let Some(length) = length(*first) else {
        return (Answer::NotForUs, from + 1);
    };
    match bytes[from..].get(..length) {
        Some(whole) => (judge(whole), from + length),
        None => (Answer::Unfinished, from),
    }
}

/// What a whole command is.
fn judge(whole: &[u8]) -> Answer {
    let two = |b: &[u8]| (u16::from_be_bytes([b[0], b[1]]), u16::from_be_bytes([b[2], b[3]]));
    let command = match *whole {
        [RESET, RESET_TOO] => Command::Reset,
        [RESET, _] => return Answer::Lost,
        [0x07, action] => Command::Buttons(action),
        [0x08] => Command::Relative,
        [0x09, ref limits @ ..] => {
            let (x, y) = two(limits);
            Command::Absolute { x, y }
        }
        [0x0B, x, y] => Command::Threshold { x, y },
        [0x0C, x, y] => Command::Scale { x, y },
        [0x0D] => Command::Where,
        [0x0E, 0, ref place @ ..] => {
            let (x, y) = two(place);
            Command::Load { x, y }
        }
        [0x1B, year, month, day, hour, minute, second] => Command::SetClock([year, month, day, hour, minute, second]),
        [0x1C] => Command::AskClock,
        // The filler is not 0.
        _ => return Answer::Refused,
    };
    if command.is_good() {
        Answer::Command(command)
    } else {
        Answer::Refused
    }
}
