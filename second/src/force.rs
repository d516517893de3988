//! The force stick on the serial port: packets of 0x2B, OP, LEN, data and check, read and written.

use crate::refusal::Refusal;

/// What a packet begins with.
pub const START: u8 = 0x2B;
/// The OP and the LEN of a report.
pub const OP: u8 = 1;
pub const LEN: u8 = 8;
/// A longer LEN is refused.
pub const LONGEST: u8 = 16;
/// What stands before the data: 0x2B, OP and LEN.
pub const HEAD: usize = 3;
/// The bytes of a report's packet: the check comes behind the data.
pub const PACKET: usize = HEAD + LEN as usize + 1;
/// The largest buttons and the largest hat.
pub const MOST_BUTTONS: u16 = 4_095;
pub const MOST_HAT: u8 = 15;

/// What the stick tells.
#[derive(Clone, Copy, PartialEq, Eq, Debug)]
pub struct Force {
    pub x: i16,
    pub y: i16,
    pub throttle: u8,
    pub buttons: u16,
    pub hat: u8,
    pub rudder: i8,
}

/// The answer to bytes from a position on.
#[derive(Clone, Copy, PartialEq, Eq, Debug)]
pub enum Answer {
    Report(Force),
    /// Another OP or LEN, with a good check.
    NotForUs {
        op: u8,
        len: u8,
    },
    LengthOver16,
    WrongCheck,
    /// The input ends inside a packet; its 0x2B is where reading goes on.
    Unfinished,
    /// No 0x2B is left.
    Nothing,
}

impl Answer {
    /// Its number in a script.
    pub fn number(self) -> u8 {
        match self {
            Answer::Report(_) => 0,
            Answer::NotForUs { .. } => 1,
            Answer::LengthOver16 => 2,
            Answer::WrongCheck => 3,
            Answer::Unfinished => 4,
            Answer::Nothing => 5,
        }
    }
}

/// The exclusive or of the bytes.
pub fn check(bytes: &[u8]) -> u8 {
    bytes.iter().fold(0, |sum, byte| sum ^ byte)
}

/// The first answer from the position on, and where reading goes on.
pub fn read(bytes: &[u8], position: u64) -> (Answer, usize) {
    let from = usize::try_from(position).map_or(bytes.len(), |position| position.min(bytes.len()));
    let Some(start) = bytes[from..].iter().position(|byte| *byte == START).map(|skipped| from + skipped) else {
        return (Answer::Nothing, bytes.len());
    };
    let packet = &bytes[start..];
    let Some(&[_, op, len]) = packet.first_chunk::<HEAD>() else {
        return (Answer::Unfinished, start);
    };
    if len > LONGEST {
        return (Answer::LengthOver16, start + 1);
    }
    let end = HEAD + usize::from(len);
    if packet.len() <= end {
        return (Answer::Unfinished, start);
    }
    if check(&packet[..end]) != packet[end] {
        return (Answer::WrongCheck, start + 1);
    }
    let answer = match packet[HEAD..end] {
        [x0, x1, y0, y1, throttle, low, high, rudder] if op == OP => Answer::Report(Force {
            x: i16::from_le_bytes([x0, x1]),
            y: i16::from_le_bytes([y0, y1]),
            throttle,
            buttons: u16::from(low) + 256 * u16::from(high & 0x0F),
            hat: high >> 4,
            rudder: rudder as i8,
        }),
        _ => Answer::NotForUs { op, len },
    };
    (answer, start + end + 1)
}

impl Force {
    /// Its packet; refusal 4.
    pub fn packet(&self) -> Result<[u8; PACKET], Refusal> {
        if self.buttons > MOST_BUTTONS || self.hat > MOST_HAT {
            return Err(Refusal::Value);
        }
        let ([x0, x1], [y0, y1]) = (self.x.to_le_bytes(), self.y.to_le_bytes());
        let [low, high] = self.buttons.to_le_bytes();
        let data = [x0, x1, y0, y1, self.throttle, low, self.hat << 4 | high, self.rudder as u8];
        let mut packet = [0; PACKET];
        packet[..HEAD].copy_from_slice(&[START, OP, LEN]);
        packet[HEAD..PACKET - 1].copy_from_slice(&data);
        packet[PACKET - 1] = check(&packet[..PACKET - 1]);
        Ok(packet)
    }

    /// Writes the packet into the buffer from the position on; refusals 4 and 5.
    pub fn write(&self, buffer: &mut [u8], position: u64) -> Result<(), Refusal> {
        let packet = self.packet()?;
        let room = usize::try_from(position).ok().and_then(|position| buffer.get_mut(position..));
        match room.and_then(|room| room.get_mut(..PACKET)) {
            Some(room) => room.copy_from_slice(&packet),
            None => return Err(Refusal::NoRoom { need: PACKET as u64 }),
        }
        Ok(())
    }
}
