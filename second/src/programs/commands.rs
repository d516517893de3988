//! The programs for commands to the pod: `show_commands` prints them, `write_commands` makes their bytes of such lines.

use std::io::{self, Read, Write};

use super::*;
use crate::commands::{read, Answer, Clock, Command};
use crate::script::CommandInWords;

/// A longer line is no command.
const LONGEST_COMMAND: usize = 64;

/// What is right, said after the first line of each kind that is not.
const RANGES: &str =
    "buttons are 0 to 4, threshold and scale 1 to 255, absolute and load 0 to 65535, a clock's numbers two digits each";
const COMMANDS: &str = "a command is reset, buttons A, relative, absolute X Y, threshold X Y, scale X Y, where, load X Y, set clock YY MM DD hh mm ss or ask clock";

/// Which of the two was said.
#[derive(Default)]
struct Explained {
    ranges: bool,
    commands: bool,
}

/// A line for each answer.
pub fn show_commands(input: impl Read, out: impl Write, err: impl Write) -> Status {
    let mut streams = Streams::new("show_commands", input, out, err);
    let done = print_commands(&mut streams);
    streams.end(done)
}

fn print_commands<R: Read, W: Write, E: Write>(streams: &mut Streams<R, W, E>) -> io::Result<()> {
    loop {
        let begun = print_held(streams)?;
        match streams.more()? {
            Came::More => {}
            Came::Lost => return writeln!(streams.out, "input lost"),
            Came::End if begun == Answer::Unfinished => {
                streams.words.at_least(Status::Refused);
                return writeln!(streams.out, "{}", CommandInWords(begun));
            }
            Came::End => return Ok(()),
        }
    }
}

/// Prints the commands that are whole; then whether one is unfinished or nothing is held.
fn print_held<R: Read, W: Write, E: Write>(streams: &mut Streams<R, W, E>) -> io::Result<Answer> {
    let mut at = 0;
    loop {
        let (answer, next) = read(streams.input.held(), at as u64);
        at = next;
        if let Answer::Unfinished | Answer::Nothing = answer {
            streams.input.take(at);
            return Ok(answer);
        }
        if answer == Answer::Refused {
            streams.words.at_least(Status::Refused);
        }
        writeln!(streams.out, "{}", CommandInWords(answer))?;
    }
}

/// The bytes of each line's command.
pub fn write_commands(input: impl Read, out: impl Write, err: impl Write) -> Status {
    let mut streams = Streams::new("write_commands", input, out, err);
    let done = send_commands(&mut streams);
    streams.end(done)
}

fn send_commands<R: Read, W: Write, E: Write>(streams: &mut Streams<R, W, E>) -> io::Result<()> {
    let mut lines = Lines::new(LONGEST_COMMAND);
    let mut k = 1u64;
    let mut explained = Explained::default();
    let ended = streams.units(1, |piece, out, words| {
        lines.take(piece, |line| -> io::Result<()> {
            send_command(line, k, &mut explained, out, words)?;
            k += 1;
            Ok(())
        })
    })?;
    if ended == Came::Lost {
        // A command that a failed read cut may be another one than was meant.
        streams.words.say("input was lost, and no command can say so");
    } else if !lines.last().is_empty() {
        send_command(lines.last(), k, &mut explained, &mut streams.out, &mut streams.words)?;
    }
    Ok(())
}

/// What a line is. A number that a command cannot hold is out of its range as one that it may not have.
enum Line {
    Good(Command),
    OutOfRange,
    NoCommand,
}

fn send_command<E: Write>(
    line: &[u8],
    k: u64,
    explained: &mut Explained,
    out: &mut impl Write,
    words: &mut Words<E>,
) -> io::Result<()> {
    let (told, wrong, right) = match line_of(line) {
        Line::Good(command) => return out.write_all(&command.bytes()),
        Line::OutOfRange => (&mut explained.ranges, format!("refused {}", Refusal::Command.number()), RANGES),
        Line::NoCommand => (&mut explained.commands, "is not a command".to_string(), COMMANDS),
    };
    words.line(&format!("line {k} {wrong}"));
    if !*told {
        words.say(&format!("{right}; nothing was sent for this line"));
        *told = true;
    }
    words.at_least(Status::Refused);
    Ok(())
}

/// A line as it is printed, one space between two words.
fn line_of(line: &[u8]) -> Line {
    let text = std::str::from_utf8(line).ok().filter(|line| line.len() <= LONGEST_COMMAND);
    let words: Vec<&str> = text.map(|text| text.split(' ').collect()).unwrap_or_default();
    let (made, numbers) = match words[..] {
        ["reset"] => (Some(Command::Reset), &[][..]),
        ["buttons", a] => (number(a).map(Command::Buttons), &words[1..]),
        ["relative"] => (Some(Command::Relative), &[][..]),
        ["absolute", x, y] => (both(x, y).map(|(x, y)| Command::Absolute { x, y }), &words[1..]),
        ["threshold", x, y] => (both(x, y).map(|(x, y)| Command::Threshold { x, y }), &words[1..]),
        ["scale", x, y] => (both(x, y).map(|(x, y)| Command::Scale { x, y }), &words[1..]),
        ["where"] => (Some(Command::Where), &[][..]),
        ["load", x, y] => (both(x, y).map(|(x, y)| Command::Load { x, y }), &words[1..]),
        ["set", "clock", _, _, _, _, _, _] => (clock(&words[2..]).map(Command::SetClock), &words[2..]),
        ["ask", "clock"] => (Some(Command::AskClock), &[][..]),
        _ => return Line::NoCommand,
    };
    if !numbers.iter().all(|word| !word.is_empty() && word.bytes().all(|byte| byte.is_ascii_digit())) {
        return Line::NoCommand;
    }
    made.filter(Command::is_good).map_or(Line::OutOfRange, Line::Good)
}

/// A number in decimal digits, if its type holds it; leading zeros do not matter.
fn number<T: TryFrom<u64>>(word: &str) -> Option<T> {
    word.parse::<u64>().ok().and_then(|number| T::try_from(number).ok())
}

fn both<T: TryFrom<u64>>(x: &str, y: &str) -> Option<(T, T)> {
    Some((number(x)?, number(y)?))
}

/// Six times two decimal digits, packed as on the line.
fn clock(words: &[&str]) -> Option<Clock> {
    let packed = |word: &&str| match word.as_bytes() {
        [tens, ones] if tens.is_ascii_digit() && ones.is_ascii_digit() => Some((tens - b'0') << 4 | (ones - b'0')),
        _ => None,
    };
    words.iter().map(packed).collect::<Option<Vec<u8>>>()?.try_into().ok()
}
