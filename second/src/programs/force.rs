//! The force stick's programs: `show_force` prints what its bytes tell, `write_force` makes packets of reports.

use std::io::{self, Read, Write};

use super::*;
use crate::force::{read, Answer, Force, MOST_BUTTONS, MOST_HAT};

/// The bytes that a report has in the input of `write_force`.
pub const REPORT: usize = 9;

/// A line for each packet.
pub fn show_force(input: impl Read, out: impl Write, err: impl Write) -> Status {
    let mut streams = Streams::new("show_force", input, out, err);
    let done = print_packets(&mut streams);
    streams.end(done)
}

fn print_packets<R: Read, W: Write, E: Write>(streams: &mut Streams<R, W, E>) -> io::Result<()> {
    loop {
        let is_begun = print_held(streams)?;
        match streams.more()? {
            Came::More => {}
            Came::Lost => return writeln!(streams.out, "input lost"),
            Came::End if is_begun => {
                streams.words.at_least(Status::Refused);
                return writeln!(streams.out, "unfinished");
            }
            Came::End => return Ok(()),
        }
    }
}

/// Prints the packets that are whole; whether one is begun and held.
fn print_held<R: Read, W: Write, E: Write>(streams: &mut Streams<R, W, E>) -> io::Result<bool> {
    let mut at = 0;
    loop {
        let (answer, next) = read(streams.input.held(), at as u64);
        at = next;
        match answer {
            Answer::Unfinished | Answer::Nothing => {
                streams.input.take(at);
                return Ok(answer == Answer::Unfinished);
            }
            Answer::LengthOver16 | Answer::WrongCheck => streams.words.at_least(Status::Refused),
            Answer::Report(_) | Answer::NotForUs { .. } => {}
        }
        match answer {
            Answer::Report(Force { x, y, throttle, buttons, hat, rudder }) => {
                writeln!(streams.out, "force {x} {y} {throttle} {buttons} {hat} {rudder}")?;
            }
            Answer::NotForUs { op, len } => writeln!(streams.out, "not for us {op} {len}")?,
            Answer::LengthOver16 => writeln!(streams.out, "length over 16")?,
            _ => writeln!(streams.out, "wrong check")?,
        }
    }
}

/// A packet for each report of nine bytes.
pub fn write_force(input: impl Read, out: impl Write, err: impl Write) -> Status {
    let mut streams = Streams::new("write_force", input, out, err);
    let done = write_packets(&mut streams);
    streams.end(done)
}

fn write_packets<R: Read, W: Write, E: Write>(streams: &mut Streams<R, W, E>) -> io::Result<()> {
    let (mut k, mut refused) = (1u64, 0u64);
    let ended = streams.units(REPORT, |reports, out, words| -> io::Result<()> {
        for report in reports.chunks_exact(REPORT) {
            let force = force_of(report);
            match force.packet() {
                Ok(packet) => out.write_all(&packet)?,
                Err(refusal) => {
                    words.at_least(Status::Refused);
                    words.line(&format!("report {k} refused {}", refusal.number()));
                    if refused == 0 {
                        words.say(&out_of_range(&force));
                    }
                    refused += 1;
                }
            }
            k += 1;
        }
        Ok(())
    })?;
    if ended == Came::Lost {
        streams.words.say("input was lost, and no packet can say so");
    } else if !streams.input.held().is_empty() {
        streams.words.at_least(Status::Refused);
        streams.words.line(&format!("report {k} cut"));
    }
    Ok(())
}

/// Little-endian: x, y, throttle, buttons in 16 bits, hat, rudder.
fn force_of(b: &[u8]) -> Force {
    Force {
        x: i16::from_le_bytes([b[0], b[1]]),
        y: i16::from_le_bytes([b[2], b[3]]),
        throttle: b[4],
        buttons: u16::from_le_bytes([b[5], b[6]]),
        hat: b[7],
        rudder: b[8] as i8,
    }
}

/// What is wrong with a report that is refused.
fn out_of_range(force: &Force) -> String {
    let mut words = String::new();
    if force.buttons > MOST_BUTTONS {
        words += &format!("buttons are {}, and must be 0 to {MOST_BUTTONS}; ", force.buttons);
    }
    if force.hat > MOST_HAT {
        words += &format!("the hat is {}, and must be 0 to {MOST_HAT}; ", force.hat);
    }
    words + "nothing was sent for this report"
}
