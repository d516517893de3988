//! The pod: its reports, one byte at a time, and the commands to it.

use crate::ffi::{self, POD_BYTES};
use crate::refusal::Refusal;

/// What a pod has sent so far. Its state is the bytes of `docs/LAYOUT.md`.
#[derive(Clone, PartialEq, Eq, Debug)]
pub struct Pod {
    state: [u8; POD_BYTES],
}

/// A stick's trigger and position.
#[derive(Clone, Copy, PartialEq, Eq, Hash, Debug)]
pub struct Stick {
    /// Whether the trigger is pressed.
    pub trigger: bool,
    /// 0 to 15.
    pub position: u8,
}

/// A time of day, each part a byte of two decimal digits as on the line: fifty-nine is 0x59.
#[derive(Clone, Copy, PartialEq, Eq, Hash, Debug)]
pub struct Clock {
    /// The year's last two digits.
    pub year: u8,
    /// The month.
    pub month: u8,
    /// The day.
    pub day: u8,
    /// The hour.
    pub hour: u8,
    /// The minute.
    pub minute: u8,
    /// The second.
    pub second: u8,
}

/// The answer to one byte of a pod.
#[derive(Clone, Copy, PartialEq, Eq, Hash, Debug)]
pub enum Report {
    /// The report is not whole yet.
    More,
    /// A pod that was switched on or reset is well.
    SelfTestPassed,
    /// A key, 1 to 117, goes down.
    KeyDown(u8),
    /// A key, 1 to 117, comes up.
    KeyUp(u8),
    /// Where the trackball is.
    Absolute {
        /// The buttons' flags, bits 0 to 3.
        flags: u8,
        /// Its x.
        x: u16,
        /// Its y.
        y: u16,
    },
    /// How the trackball moved.
    Relative {
        /// Whether the left button is pressed.
        left: bool,
        /// Whether the right button is pressed.
        right: bool,
        /// Along x.
        dx: i8,
        /// Along y.
        dy: i8,
    },
    /// Stick 0 and stick 1.
    BothSticks(Stick, Stick),
    /// One of the sticks.
    OneStick {
        /// 0 or 1.
        which: u8,
        /// What it tells.
        stick: Stick,
    },
    /// The pod's clock.
    TimeOfDay(Clock),
    /// A first byte that opens no report.
    BadByte,
    /// A whole report with a bit or a digit that it must not have.
    BadReport,
}

/// A command to the pod.
#[derive(Clone, Copy, PartialEq, Eq, Hash, Debug)]
pub enum Command {
    /// Resets the pod; its state is then the fresh one.
    Reset,
    /// What the buttons do, 0 to 4.
    ButtonAction(u8),
    /// Report how the trackball moves.
    RelativeMode,
    /// Report where the trackball is.
    AbsoluteMode {
        /// The largest x.
        x: u16,
        /// The largest y.
        y: u16,
    },
    /// How far the trackball moves before it is told.
    Threshold {
        /// Along x, 1 to 255.
        x: u8,
        /// Along y, 1 to 255.
        y: u8,
    },
    /// How far the trackball moves for one step.
    Scale {
        /// Along x, 1 to 255.
        x: u8,
        /// Along y, 1 to 255.
        y: u8,
    },
    /// Asks where the trackball is.
    Interrogate,
    /// Says where the trackball is.
    LoadPosition {
        /// Its x.
        x: u16,
        /// Its y.
        y: u16,
    },
    /// Sets the clock.
    SetClock(Clock),
    /// Asks for the clock.
    AskClock,
}

/// What stands at a position among command bytes.
#[derive(Clone, Copy, PartialEq, Eq, Hash, Debug)]
pub enum CommandRead {
    /// No byte.
    Nothing,
    /// A command.
    Found(Command),
    /// 0x80 and another byte than 0x01: the pod ignores both.
    Lost,
    /// A byte that begins no command.
    NotForUs,
    /// A whole command with a number out of its range: [`Refusal::Command`].
    Refused,
    /// The bytes end inside a command.
    Unfinished,
}

impl Command {
    /// How many bytes it has.
    pub fn size(self) -> usize {
        match self {
            Command::RelativeMode | Command::Interrogate | Command::AskClock => 1,
            Command::Reset | Command::ButtonAction(_) => 2,
            Command::Threshold { .. } | Command::Scale { .. } => 3,
            Command::AbsoluteMode { .. } => 5,
            Command::LoadPosition { .. } => 6,
            Command::SetClock(_) => 7,
        }
    }

    /// Its number in `chandrulek.h`, and its numbers.
    fn numbers(self) -> [u32; 7] {
        let two = |number, x: u32, y: u32| [number, x, y, 0, 0, 0, 0];
        match self {
            Command::Reset => two(0, 0, 0),
            Command::ButtonAction(action) => two(1, action.into(), 0),
            Command::RelativeMode => two(2, 0, 0),
            Command::AbsoluteMode { x, y } => two(3, x.into(), y.into()),
            Command::Threshold { x, y } => two(4, x.into(), y.into()),
            Command::Scale { x, y } => two(5, x.into(), y.into()),
            Command::Interrogate => two(6, 0, 0),
            Command::LoadPosition { x, y } => two(7, x.into(), y.into()),
            Command::SetClock(clock) => {
                let [year, month, day, hour, minute, second] = clock.bytes().map(u32::from);
                [8, year, month, day, hour, minute, second]
            }
            Command::AskClock => two(9, 0, 0),
        }
    }

    /// The command of these numbers; `None` of a number that is not listed.
    fn of([number, numbers @ ..]: [u32; 7]) -> Option<Command> {
        let [a, b, ..] = numbers;
        Some(match number {
            0 => Command::Reset,
            1 => Command::ButtonAction(a as u8),
            2 => Command::RelativeMode,
            3 => Command::AbsoluteMode { x: a as u16, y: b as u16 },
            4 => Command::Threshold { x: a as u8, y: b as u8 },
            5 => Command::Scale { x: a as u8, y: b as u8 },
            6 => Command::Interrogate,
            7 => Command::LoadPosition { x: a as u16, y: b as u16 },
            8 => Command::SetClock(Clock::of(numbers.map(|number| number as u8))),
            9 => Command::AskClock,
            _ => return None,
        })
    }

    /// Reads the command that stands at a position, and tells where reading goes on: at the first byte of an unfinished one.
    pub fn read(bytes: &[u8], at: usize) -> (CommandRead, usize) {
        let mut answer = [0; 8];
        let next = ffi::command_read(bytes, at, &mut answer);
        let [answer, command @ ..] = answer;
        let read = match answer {
            0 => CommandRead::Nothing,
            1 => Command::of(command).map_or(CommandRead::Refused, CommandRead::Found),
            2 => CommandRead::Lost,
            3 => CommandRead::NotForUs,
            5 => CommandRead::Unfinished,
            _ => CommandRead::Refused,
        };
        (read, next)
    }
}

impl Clock {
    fn bytes(self) -> [u8; 6] {
        [self.year, self.month, self.day, self.hour, self.minute, self.second]
    }

    fn of([year, month, day, hour, minute, second]: [u8; 6]) -> Clock {
        Clock { year, month, day, hour, minute, second }
    }
}

impl Pod {
    /// A pod that was just switched on or reset.
    pub fn fresh() -> Pod {
        let mut state = [0; POD_BYTES];
        // Its one refusal is another length.
        let number = ffi::pod_fresh(&mut state);
        debug_assert_eq!(number, 0);
        Pod { state }
    }

    /// A pod with these bytes, whatever they are: if they are no pod's state, its next call is refused by [`Refusal::State`].
    pub fn from_bytes(bytes: &[u8; POD_BYTES]) -> Pod {
        Pod { state: *bytes }
    }

    /// The state, to be saved, copied or sent.
    pub fn as_bytes(&self) -> &[u8; POD_BYTES] {
        &self.state
    }

    /// Takes one byte from the pod.
    ///
    /// # Errors
    /// [`Refusal::State`].
    pub fn step(&mut self, byte: u8) -> Result<Report, Refusal> {
        let mut answer = [0; 7];
        Refusal::judge(ffi::pod_step(&mut self.state, byte, &mut answer), 0)?;
        Ok(report(answer))
    }

    /// Writes a command into the buffer from the position on, and answers how many bytes it has. After a reset the pod is as a fresh one.
    ///
    /// # Errors
    /// [`Refusal::State`], [`Refusal::NoRoom`], [`Refusal::Command`].
    pub fn command(&mut self, command: Command, buffer: &mut [u8], at: usize) -> Result<usize, Refusal> {
        let mut answer = [0];
        let number = ffi::command_write(&mut self.state, &command.numbers(), buffer, at, &mut answer);
        Refusal::judge(number, answer[0])?;
        Ok(command.size())
    }
}

fn report([answer, numbers @ ..]: [i32; 7]) -> Report {
    let [a, b, c, d, ..] = numbers;
    let stick = |trigger: i32, position: i32| Stick { trigger: trigger == 1, position: position as u8 };
    match answer {
        0 => Report::More,
        1 => Report::SelfTestPassed,
        2 => Report::KeyDown(a as u8),
        3 => Report::KeyUp(a as u8),
        4 => Report::Absolute { flags: a as u8, x: b as u16, y: c as u16 },
        5 => Report::Relative { left: a == 1, right: b == 1, dx: c as i8, dy: d as i8 },
        6 => Report::BothSticks(stick(a, b), stick(c, d)),
        7 => Report::OneStick { which: a as u8, stick: stick(b, c) },
        8 => Report::TimeOfDay(Clock::of(numbers.map(|number| number as u8))),
        9 => Report::BadByte,
        _ => Report::BadReport,
    }
}

impl Default for Pod {
    fn default() -> Pod {
        Pod::fresh()
    }
}

/// Bytes of another length are [`Refusal::State`].
impl TryFrom<&[u8]> for Pod {
    type Error = Refusal;

    fn try_from(bytes: &[u8]) -> Result<Pod, Refusal> {
        bytes.try_into().map(Pod::from_bytes).map_err(|_| Refusal::State)
    }
}
