//! Mistakes in what K13 asks: how commands are read and written, what a write does to the pod, and the pod's time.

use second::commands::{is_clock, length, read, Answer, Command, RESET};
use second::pod::{Pod, Report};
use second::script::{marks, Call, CommandInWords, CommandsCall, POD_NUMBERS};

use crate::wrong::{answers, bytes_text, pods, says, takes, Wrong};

/// It reads otherwise: the bytes from the position on, the right answer, and where reading goes on.
fn reads(name: &str, change: impl Fn(&[u8], &mut Answer, &mut usize) + 'static) -> Wrong {
    answers(name, move |asked| {
        let Call::Commands(CommandsCall::Read { position, bytes }) = asked.call? else {
            return None;
        };
        let (mut answer, mut next) = read(bytes, *position);
        let from = (*position).min(bytes.len() as u64) as usize;
        change(&bytes[from..], &mut answer, &mut next);
        Some(format!("{next} {}", CommandInWords(answer)))
    })
}

/// It takes a refused command of that first byte for one that is good.
fn overlooks(name: &str, first: u8, of: fn(&[u8]) -> Option<Command>) -> Wrong {
    reads(name, move |bytes, answer, _| {
        if *answer == Answer::Refused && bytes[0] == first {
            if let Some(command) = of(&bytes[..length(first).expect("a command's")]) {
                *answer = Answer::Command(command);
            }
        }
    })
}

/// It reads a command as another.
fn other(name: &str, of: fn(Command) -> Command) -> Wrong {
    reads(name, move |_, answer, _| {
        if let Answer::Command(command) = answer {
            *command = of(*command);
        }
    })
}

fn clock_of(bytes: &[u8]) -> Option<Command> {
    Some(Command::SetClock(bytes[1..].try_into().ok()?))
}

fn readers() -> Vec<Wrong> {
    vec![
        overlooks("button action 5 is read", 0x07, |bytes| (bytes[1] == 5).then_some(Command::Buttons(5))),
        overlooks("the action's upper bits are passed over", 0x07, |bytes| {
            Some(bytes[1] & 7).filter(|action| *action <= 4).map(Command::Buttons)
        }),
        overlooks("threshold 0 is read", 0x0B, |bytes| Some(Command::Threshold { x: bytes[1], y: bytes[2] })),
        overlooks("a threshold's y is not judged", 0x0B, |bytes| {
            (bytes[1] > 0).then_some(Command::Threshold { x: bytes[1], y: bytes[2] })
        }),
        overlooks("scale 0 is read", 0x0C, |bytes| Some(Command::Scale { x: bytes[1], y: bytes[2] })),
        overlooks("a scale's x is not judged", 0x0C, |bytes| {
            (bytes[2] > 0).then_some(Command::Scale { x: bytes[1], y: bytes[2] })
        }),
        overlooks("the filler is not judged", 0x0E, |b| {
            Some(Command::Load { x: u16::from_be_bytes([b[2], b[3]]), y: u16::from_be_bytes([b[4], b[5]]) })
        }),
        overlooks("a clock's digits are not judged", 0x1B, clock_of),
        overlooks("of a clock byte the upper digit alone is judged", 0x1B, |bytes| {
            clock_of(bytes).filter(|_| bytes[1..].iter().all(|byte| byte >> 4 <= 9))
        }),
        overlooks("of a clock byte the lower digit alone is judged", 0x1B, |bytes| {
            clock_of(bytes).filter(|_| bytes[1..].iter().all(|byte| byte & 15 <= 9))
        }),
        overlooks("the last clock byte is not judged", 0x1B, |bytes| {
            clock_of(bytes).filter(|_| bytes[1..6].iter().all(|byte| byte >> 4 <= 9 && byte & 15 <= 9))
        }),
        other("x and y come low byte first", |command| match command {
            Command::Absolute { x, y } => Command::Absolute { x: x.swap_bytes(), y: y.swap_bytes() },
            Command::Load { x, y } => Command::Load { x: x.swap_bytes(), y: y.swap_bytes() },
            command => command,
        }),
        other("threshold and scale are swapped", |command| match command {
            Command::Threshold { x, y } => Command::Scale { x, y },
            Command::Scale { x, y } => Command::Threshold { x, y },
            command => command,
        }),
        other("x and y are swapped", |command| match command {
            Command::Absolute { x, y } => Command::Absolute { x: y, y: x },
            Command::Threshold { x, y } => Command::Threshold { x: y, y: x },
            command => command,
        }),
        reads("80 02 is a reset", |bytes, answer, _| {
            if bytes.starts_with(&[RESET, 2]) {
                *answer = Answer::Command(Command::Reset);
            }
        }),
        reads("behind 80 the other byte is read", |_, answer, next| {
            if *answer == Answer::Lost {
                *next -= 1;
            }
        }),
        reads("80 and another byte are not for us", |_, answer, next| {
            if *answer == Answer::Lost {
                *answer = Answer::NotForUs;
                *next -= 1;
            }
        }),
        reads("behind a refusal reading goes on at the next byte", |bytes, answer, next| {
            if *answer == Answer::Refused {
                *next -= length(bytes[0]).expect("a command's") - 1;
            }
        }),
        reads("a wrong byte is refused before the rest is there", |bytes, answer, next| {
            if *answer == Answer::Unfinished
                && bytes[0] == 0x1B
                && !bytes[1..].iter().all(|b| b >> 4 <= 9 && b & 15 <= 9)
            {
                *answer = Answer::Refused;
                *next += bytes.len();
            }
        }),
        reads("an unfinished command is passed over", |bytes, answer, next| {
            if *answer == Answer::Unfinished {
                *next += bytes.len();
            }
        }),
        reads("an unfinished command is nothing", |_, answer, _| {
            if *answer == Answer::Unfinished {
                *answer = Answer::Nothing;
            }
        }),
        reads("0A is a command of three bytes", |bytes, answer, next| {
            if bytes.first() == Some(&0x0A) {
                *answer = if bytes.len() < 3 { Answer::Unfinished } else { Answer::NotForUs };
                *next = if bytes.len() < 3 { *next - 1 } else { *next + 2 };
            }
        }),
        answers("a position past the end stays", |asked| match asked.call? {
            Call::Commands(CommandsCall::Read { position, bytes }) if *position > bytes.len() as u64 => {
                Some(format!("{position} nothing"))
            }
            _ => None,
        }),
        says("a clock is told in decimal numbers", |call, words| {
            if let (Call::Commands(CommandsCall::Read { .. }), Some("set")) = (call, words.get(1).map(String::as_str)) {
                for word in &mut words[3..] {
                    *word = u8::from_str_radix(word, 16).expect("digits").to_string();
                }
            }
        }),
    ]
}

/// It writes otherwise: the state, the position, the size and the command, and verdict, state, need and buffer.
fn writes(name: &str, write: impl Fn(&Pod, u64, usize, &Command, &mut Answered) + 'static) -> Wrong {
    answers(name, move |asked| {
        let Call::Commands(CommandsCall::Write { pod, position, size, command }) = asked.call? else {
            return None;
        };
        let words: Vec<&str> = asked.right.split(' ').collect();
        let mut after = *pod;
        let mut buffer = marks(*size);
        let _ = command.write(&mut after, &mut buffer, *position);
        let number = |i: usize| words[i].parse::<u64>().expect("a number");
        let mut answered = Answered { verdict: number(0) as u8, pod: after, need: number(1 + POD_NUMBERS), buffer };
        write(pod, *position, *size, command, &mut answered);
        let Answered { verdict, pod, need, buffer } = answered;
        let state = bytes_text(&pod.bytes);
        Some(format!("{verdict} {} {}{state} {need} :{}", u8::from(pod.waits), pod.held, bytes_text(&buffer)))
    })
}

struct Answered {
    verdict: u8,
    pod: Pod,
    need: u64,
    buffer: Vec<u8>,
}

/// The ways to answer without a mistake.
pub fn right() -> Vec<Wrong> {
    vec![reads("commands", |_, _, _| {}), writes("commands written", |_, _, _, _, _| {})]
}

fn has_room(position: u64, size: usize, need: usize) -> bool {
    position.checked_add(need as u64).is_some_and(|end| end <= size as u64)
}

fn writers() -> Vec<Wrong> {
    vec![
        writes("a reset keeps an unfinished report", |pod, _, _, command, answered| {
            if answered.verdict == 0 && *command == Command::Reset {
                answered.pod = Pod { waits: true, ..*pod };
            }
        }),
        writes("a reset does not wait", |_, _, _, command, answered| {
            if answered.verdict == 0 && *command == Command::Reset {
                answered.pod.waits = false;
            }
        }),
        writes("a reset leaves the pod as it is", |pod, _, _, _, answered| answered.pod = *pod),
        writes("every command puts the pod back", |_, _, _, _, answered| {
            if answered.verdict == 0 {
                answered.pod = Pod::FRESH;
            }
        }),
        writes("a reset that is refused puts the pod back", |_, _, _, command, answered| {
            if answered.verdict == 5 && *command == Command::Reset {
                answered.pod = Pod::FRESH;
            }
        }),
        writes("the pod is judged for a reset alone", |_, position, size, command, answered| {
            let bytes = command.bytes();
            if answered.verdict == 2 && *command != Command::Reset && has_room(position, size, bytes.len()) {
                answered.verdict = if command.is_good() { 0 } else { 11 };
                if command.is_good() {
                    answered.buffer[position as usize..][..bytes.len()].copy_from_slice(&bytes);
                }
            }
        }),
        writes("the numbers are judged before the room", |_, _, _, command, answered| {
            if answered.verdict == 5 && !command.is_good() {
                (answered.verdict, answered.need) = (11, 0);
            }
        }),
        writes("the room is judged before the pod", |_, position, size, command, answered| {
            let need = command.bytes().len();
            if answered.verdict == 2 && !has_room(position, size, need) {
                (answered.verdict, answered.need) = (5, need as u64);
            }
        }),
        writes("bad numbers are written", |_, position, _, command, answered| {
            if answered.verdict == 11 {
                answered.verdict = 0;
                let bytes = command.bytes();
                answered.buffer[position as usize..][..bytes.len()].copy_from_slice(&bytes);
            }
        }),
        writes("the need is seven", |_, _, _, _, answered| {
            if answered.verdict == 5 {
                answered.need = 7;
            }
        }),
        writes("a load has no filler", |_, position, _, command, answered| {
            if let (Command::Load { .. }, 0) = (command, answered.verdict) {
                answered.buffer[position as usize + 1..][..5].rotate_left(1);
            }
        }),
        writes("low bytes come first", |_, position, _, command, answered| {
            if let (Command::Absolute { .. }, 0) = (command, answered.verdict) {
                answered.buffer[position as usize + 1..][..4].reverse();
            }
        }),
        writes("80 is sent alone", |_, position, _, command, answered| {
            if answered.verdict == 0 && *command == Command::Reset {
                answered.buffer[position as usize + 1] = marks(position as usize + 2)[position as usize + 1];
            }
        }),
        takes("button action 5 is 4", |call| {
            if let Call::Commands(CommandsCall::Write { command: command @ Command::Buttons(5), .. }) = call {
                *command = Command::Buttons(4);
            }
        }),
    ]
}

/// It answers the time of day otherwise.
fn times(name: &str, of: fn([u8; 6], Report) -> Report) -> Wrong {
    pods(name, move |pod, byte| {
        let before = *pod;
        let report = pod.take(byte)?;
        let b = before.bytes;
        Ok(match (before.held, b[0]) {
            (6, 0xFC) => of([b[1], b[2], b[3], b[4], b[5], byte], report),
            _ => report,
        })
    })
}

fn clocks() -> Vec<Wrong> {
    vec![
        times("the time's digits are not judged", |clock, _| Report::Time(clock)),
        times("the time's last byte is not judged", |clock, report| {
            let [year, month, day, hour, minute, _] = clock;
            if is_clock(&[year, month, day, hour, minute, 0]) {
                Report::Time(clock)
            } else {
                report
            }
        }),
        times("the time's first byte is not judged", |clock, report| {
            let [_, month, day, hour, minute, second] = clock;
            if is_clock(&[0, month, day, hour, minute, second]) {
                Report::Time(clock)
            } else {
                report
            }
        }),
        times("of the time's digits the lower alone is judged", |clock, report| {
            if clock.iter().all(|byte| byte & 15 <= 9) {
                Report::Time(clock)
            } else {
                report
            }
        }),
        times("of the time's digits the upper alone is judged", |clock, report| {
            if clock.iter().all(|byte| byte >> 4 <= 9) {
                Report::Time(clock)
            } else {
                report
            }
        }),
        times(
            "a month over 12 is a bad report",
            |clock, report| if clock[1] > 0x12 { Report::BadReport } else { report },
        ),
        times("a wrong digit is a bad byte", |_, report| match report {
            Report::BadReport => Report::BadByte,
            report => report,
        }),
        times("the time comes last byte first", |mut clock, report| match report {
            Report::Time(_) => {
                clock.reverse();
                Report::Time(clock)
            }
            report => report,
        }),
    ]
}

/// Each mistake of this file.
pub fn all() -> Vec<Wrong> {
    [readers(), writers(), clocks()].into_iter().flatten().collect()
}
