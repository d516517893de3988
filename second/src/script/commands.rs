//! The calls of commands to the pod: bytes read, and a command written with the pod's state in hand.

use std::fmt;

use super::line::Line;
use super::marks;
use super::numbers::Numbers;
use crate::commands::{read, Answer, Clock, Command};
use crate::pod::Pod;
use crate::refusal::Refusal;

/// What their names begin with.
pub const COMMANDS: &str = "commands_";

/// A call of the commands'.
#[derive(Clone, PartialEq, Eq, Debug)]
pub enum CommandsCall {
    Read { position: u64, bytes: Vec<u8> },
    Write { pod: Pod, position: u64, size: usize, command: Command },
}

impl CommandsCall {
    pub(super) fn parse(name: &str, numbers: &mut Numbers) -> Option<CommandsCall> {
        Some(match name {
            "commands_read" => CommandsCall::Read { position: numbers.one()?, bytes: numbers.rest()? },
            "commands_write" => CommandsCall::Write {
                pod: numbers.pod()?,
                position: numbers.one()?,
                size: numbers.size()?,
                command: numbers.command()?,
            },
            _ => return None,
        })
    }

    /// The word that its line begins with.
    pub fn name(&self) -> &'static str {
        match self {
            CommandsCall::Read { .. } => "commands_read",
            CommandsCall::Write { .. } => "commands_write",
        }
    }

    pub(super) fn put(&self, line: &mut Line) {
        match self {
            CommandsCall::Read { position, bytes } => {
                line.put(position);
                line.all(bytes);
            }
            CommandsCall::Write { pod, position, size, command } => {
                line.pod(pod);
                line.put(position);
                line.put(size);
                line.command(command);
            }
        }
    }

    pub(super) fn answer(&self, line: &mut Line) {
        match self {
            CommandsCall::Read { position, bytes } => {
                let (answer, next) = read(bytes, *position);
                line.put(next);
                line.put(CommandInWords(answer));
            }
            CommandsCall::Write { pod, position, size, command } => {
                let (mut pod, mut buffer) = (*pod, marks(*size));
                let written = command.write(&mut pod, &mut buffer, *position);
                line.verdict(&written);
                line.pod(&pod);
                line.put(written.err().map_or(0, Refusal::need));
                line.buffer(&buffer);
            }
        }
    }
}

impl Numbers {
    /// The number of a command and those behind it.
    fn command(&mut self) -> Option<Command> {
        Some(match self.one::<u64>()? {
            0 => Command::Reset,
            1 => Command::Buttons(self.one()?),
            2 => Command::Relative,
            3 => Command::Absolute { x: self.one()?, y: self.one()? },
            4 => Command::Threshold { x: self.one()?, y: self.one()? },
            5 => Command::Scale { x: self.one()?, y: self.one()? },
            6 => Command::Where,
            7 => Command::Load { x: self.one()?, y: self.one()? },
            8 => {
                let mut clock: Clock = [0; 6];
                for byte in &mut clock {
                    *byte = self.one()?;
                }
                Command::SetClock(clock)
            }
            9 => Command::AskClock,
            _ => return None,
        })
    }
}

impl Line {
    fn command(&mut self, command: &Command) {
        match command {
            Command::Reset => self.put(0),
            Command::Buttons(action) => self.all(&[1, *action]),
            Command::Relative => self.put(2),
            Command::Absolute { x, y } => self.all(&[3, *x, *y]),
            Command::Threshold { x, y } => self.all(&[4, *x, *y]),
            Command::Scale { x, y } => self.all(&[5, *x, *y]),
            Command::Where => self.put(6),
            Command::Load { x, y } => self.all(&[7, *x, *y]),
            Command::SetClock(clock) => {
                self.put(8);
                self.all(clock);
            }
            Command::AskClock => self.put(9),
        }
    }
}

/// A clock as its digits, two a byte.
pub struct Digits(pub Clock);

impl fmt::Display for Digits {
    fn fmt(&self, f: &mut fmt::Formatter) -> fmt::Result {
        let [year, month, day, hour, minute, second] = self.0;
        write!(f, "{year:02x} {month:02x} {day:02x} {hour:02x} {minute:02x} {second:02x}")
    }
}

/// An answer in words, as `drive` and `show_commands` print it.
pub struct CommandInWords(pub Answer);

impl fmt::Display for CommandInWords {
    fn fmt(&self, f: &mut fmt::Formatter) -> fmt::Result {
        match self.0 {
            Answer::Command(command) => match command {
                Command::Reset => f.write_str("reset"),
                Command::Buttons(action) => write!(f, "buttons {action}"),
                Command::Relative => f.write_str("relative"),
                Command::Absolute { x, y } => write!(f, "absolute {x} {y}"),
                Command::Threshold { x, y } => write!(f, "threshold {x} {y}"),
                Command::Scale { x, y } => write!(f, "scale {x} {y}"),
                Command::Where => f.write_str("where"),
                Command::Load { x, y } => write!(f, "load {x} {y}"),
                Command::SetClock(clock) => write!(f, "set clock {}", Digits(clock)),
                Command::AskClock => f.write_str("ask clock"),
            },
            Answer::Lost => f.write_str("lost"),
            Answer::NotForUs => f.write_str("not for us"),
            Answer::Refused => write!(f, "refused {}", Refusal::Command.number()),
            Answer::Unfinished => f.write_str("unfinished"),
            Answer::Nothing => f.write_str("nothing"),
        }
    }
}
