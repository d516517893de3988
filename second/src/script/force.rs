//! The force stick's calls: bytes read, and a report written.

use super::line::Line;
use super::marks;
use super::numbers::Numbers;
use crate::force::{read, Answer, Force};
use crate::refusal::Refusal;

/// What their names begin with.
pub const FORCE: &str = "force_";

/// A call of the force stick's, which has no state.
#[derive(Clone, PartialEq, Eq, Debug)]
pub enum ForceCall {
    Read { position: u64, bytes: Vec<u8> },
    Write { force: Force, position: u64, size: usize },
}

impl ForceCall {
    pub(super) fn parse(name: &str, numbers: &mut Numbers) -> Option<ForceCall> {
        Some(match name {
            "force_read" => ForceCall::Read { position: numbers.one()?, bytes: numbers.rest()? },
            "force_write" => ForceCall::Write {
                force: Force {
                    x: numbers.one()?,
                    y: numbers.one()?,
                    throttle: numbers.one()?,
                    buttons: numbers.one()?,
                    hat: numbers.one()?,
                    rudder: numbers.one()?,
                },
                position: numbers.one()?,
                size: numbers.size()?,
            },
            _ => return None,
        })
    }

    /// The word that its line begins with.
    pub fn name(&self) -> &'static str {
        match self {
            ForceCall::Read { .. } => "force_read",
            ForceCall::Write { .. } => "force_write",
        }
    }

    pub(super) fn put(&self, line: &mut Line) {
        match self {
            ForceCall::Read { position, bytes } => {
                line.put(position);
                line.all(bytes);
            }
            ForceCall::Write { force, position, size } => {
                line.force(force);
                line.put(position);
                line.put(size);
            }
        }
    }

    pub(super) fn answer(&self, line: &mut Line) {
        match self {
            ForceCall::Read { position, bytes } => {
                let (answer, next) = read(bytes, *position);
                line.put(answer.number());
                match answer {
                    Answer::Report(force) => line.force(&force),
                    Answer::NotForUs { op, len } => line.all(&[op, len]),
                    _ => {}
                }
                line.put(next);
            }
            ForceCall::Write { force, position, size } => {
                let mut buffer = marks(*size);
                let written = force.write(&mut buffer, *position);
                line.verdict(&written);
                line.put(written.err().map_or(0, Refusal::need));
                line.buffer(&buffer);
            }
        }
    }
}

impl Line {
    fn force(&mut self, force: &Force) {
        let Force { x, y, throttle, buttons, hat, rudder } = force;
        self.all(&[x, y]);
        self.put(throttle);
        self.put(buttons);
        self.put(hat);
        self.put(rudder);
    }
}
