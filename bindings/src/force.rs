//! The force stick: its reports written as packets, and read from them.

use crate::ffi;
use crate::refusal::Refusal;

/// What the stick tells.
#[derive(Clone, Copy, PartialEq, Eq, Hash, Debug)]
pub struct ForceReport {
    /// Force along x.
    pub x: i16,
    /// Force along y.
    pub y: i16,
    /// The throttle.
    pub throttle: u8,
    /// A bit for each button, 0 to 4,095.
    pub buttons: u16,
    /// The hat, 0 to 15.
    pub hat: u8,
    /// The rudder.
    pub rudder: i8,
}

/// What stands at the first 0x2B from a position on.
#[derive(Clone, Copy, PartialEq, Eq, Hash, Debug)]
pub enum ForceRead {
    /// No 0x2B is there.
    Nothing,
    /// A report.
    Report(ForceReport),
    /// Another packet, with a good check.
    NotForUs {
        /// Its OP.
        op: u8,
        /// Its LEN.
        len: u8,
    },
    /// Its LEN is over 16.
    LengthOver,
    /// Its check is wrong.
    WrongCheck,
    /// The bytes end inside a packet.
    Unfinished,
}

impl ForceReport {
    /// Writes its packet of [`FORCE_BYTES`](crate::FORCE_BYTES) bytes into the buffer from the position on.
    ///
    /// # Errors
    /// [`Refusal::Value`], [`Refusal::NoRoom`].
    pub fn write(&self, buffer: &mut [u8], at: usize) -> Result<(), Refusal> {
        let numbers = [
            self.x.into(),
            self.y.into(),
            self.throttle.into(),
            self.buttons.into(),
            self.hat.into(),
            self.rudder.into(),
        ];
        let mut answer = [0];
        let number = ffi::force_write(&numbers, buffer, at, &mut answer);
        Refusal::judge(number, answer[0])
    }

    /// Reads the packet at the first 0x2B from a position on, and tells where reading goes on: at the 0x2B of an unfinished one.
    pub fn read(bytes: &[u8], at: usize) -> (ForceRead, usize) {
        let mut answer = [0; 7];
        let next = ffi::force_read(bytes, at, &mut answer);
        let [answer, x, y, throttle, buttons, hat, rudder] = answer;
        let read = match answer {
            0 => ForceRead::Nothing,
            1 => ForceRead::Report(ForceReport {
                x: x as i16,
                y: y as i16,
                throttle: throttle as u8,
                buttons: buttons as u16,
                hat: hat as u8,
                rudder: rudder as i8,
            }),
            2 => ForceRead::NotForUs { op: x as u8, len: y as u8 },
            3 => ForceRead::LengthOver,
            5 => ForceRead::Unfinished,
            _ => ForceRead::WrongCheck,
        };
        (read, next)
    }
}
