//! A script's call made on the exported functions, and its answer as drive prints it, read from the bytes that the host has then.

use std::fmt::Display;

use second::commands::Command;
use second::events::Event;
use second::force::Force;
use second::recorder::BLOCK;
use second::script::{marks, Call, CommandsCall, ForceCall, RecorderCall};
use second::table::Setup;

use crate::library::{self, Kept, Lent, Mark, RanNumbers, SetupNumbers, Whose};
use crate::states::Kind;

/// The answer of a call: the number of each refusal in it, 0 where it was accepted, and the line.
pub struct Told {
    pub refusals: Vec<u32>,
    pub words: String,
}

/// Words with a space between two.
#[derive(Default)]
struct Words(Vec<String>);

impl Words {
    fn put(&mut self, word: impl Display) {
        self.0.push(word.to_string());
    }

    fn all<T: Display>(&mut self, words: &[T]) {
        words.iter().for_each(|word| self.put(word));
    }

    fn buffer(&mut self, bytes: &[u8]) {
        self.put(":");
        self.all(bytes);
    }

    /// The numbers of a state. Bytes that were no state before a call are none after it.
    fn state(&mut self, kind: Kind, was_formed: bool, bytes: &[u8]) -> Kept<()> {
        match kind.wrong(bytes) {
            None => self.put(kind.words(bytes)),
            Some(_) if !was_formed => self.put("not formed"),
            Some(wrong) => return Err(format!("made a state that is not formed: {}", wrong.name())),
        }
        Ok(())
    }

    fn ran(&mut self, [shown, types, codes, bad, ignored, skipped, kind, code]: RanNumbers) -> Kept<()> {
        self.all(&[shown, types, codes, bad, ignored]);
        match (skipped, kind, code) {
            (1, _, _) => self.all(&[kind, code]),
            (0, 0, 0) => self.put("none"),
            _ => return Err(format!("answered {skipped} {kind} {code} for what was skipped first")),
        }
        Ok(())
    }

    fn asked(&mut self, refusal: u32, numbers: [i32; 7]) -> Kept<()> {
        match (refusal, numbers[0]) {
            (0, 0) => self.put("unknown"),
            (0, 1) => self.put("empty"),
            (0, 2) => {
                self.put("contact");
                self.all(&numbers[1..]);
                return Ok(());
            }
            (0, 3) => self.put("none"),
            (0, other) => return Err(format!("answered {other} for a slot")),
            (refusal, _) => self.refused(refusal),
        }
        unused(&numbers[1..])
    }

    fn refused(&mut self, refusal: u32) {
        self.put("refused");
        self.put(refusal);
    }

    fn told(self, refusals: Vec<u32>) -> Told {
        Told { refusals, words: self.0.join(" ") }
    }
}

/// The places of an answer that tell nothing are 0.
fn unused<T: Copy + PartialEq + Default + std::fmt::Debug>(places: &[T]) -> Kept<()> {
    match places.iter().all(|number| *number == T::default()) {
        true => Ok(()),
        false => Err(format!("answered {places:?} in places that tell nothing")),
    }
}

/// The call with this state in place of its own; a call without one has no bytes.
pub fn answer(call: &Call, state: &[u8]) -> Kept<Told> {
    let mut lent = Lent::of(state);
    match call {
        Call::Fresh(_, setup) => {
            let refusal = library::fresh(Whose::Reader, &mut lent, numbers(setup))?;
            made(Kind::Reader, refusal, &lent)
        }
        Call::PiecesFresh(setup) => {
            let refusal = library::fresh(Whose::Line, &mut lent, numbers(setup))?;
            made(Kind::Line, refusal, &lent)
        }
        Call::New { setup, pointer } => {
            let refusal = library::writer_fresh(&mut lent, numbers(setup), u32::from(*pointer))?;
            made(Kind::Writer, refusal, &lent)
        }
        Call::Run { bytes, .. } => runs(Whose::Reader, &mut lent, [&bytes[..]].into_iter()),
        Call::One { event, .. } => runs(Whose::Reader, &mut lent, [&record(*event)[..]].into_iter()),
        Call::PiecesTake { cut, .. } => runs(Whose::Line, &mut lent, cut.pieces()),
        Call::Load { current, image, .. } => loads(Whose::Reader, &mut lent, image, current.0),
        Call::PiecesLoad { current, image, .. } => loads(Whose::Line, &mut lent, image, current.0),
        Call::Ask { slot, .. } => asks(Whose::Reader, &lent, slot.0),
        Call::PiecesAsk { slot, .. } => asks(Whose::Line, &lent, slot.0),
        Call::Write { position, size, frame, .. } => {
            writes(&mut lent, *size, |state, buffer| library::write(state, frame, buffer, *position))
        }
        Call::Anonymous { position, size, records, .. } => {
            writes(&mut lent, *size, |state, buffer| library::write_anonymous(state, records, buffer, *position))
        }
        _ => device_answer(call, &mut lent),
    }
}

/// The same for the calls of the pod, the force stick and the recorder.
fn device_answer(call: &Call, state: &mut Lent<u8>) -> Kept<Told> {
    match call {
        Call::Start => start(state),
        Call::Pod { bytes, .. } => steps(state, bytes),
        Call::Commands(CommandsCall::Write { position, size, command, .. }) => {
            command_writes(state, command, *size, *position)
        }
        Call::Commands(CommandsCall::Read { position, bytes }) => command_reads(bytes, *position),
        Call::Force(ForceCall::Read { position, bytes }) => force_reads(bytes, *position),
        Call::Force(ForceCall::Write { force, position, size }) => force_writes(force, *size, *position),
        Call::Recorder(call) => records(call),
        _ => Err("is not asked: no function is exported for it".to_string()),
    }
}

/// The setup of a call whose numbers fit.
pub fn numbers(setup: &Setup) -> SetupNumbers {
    let [x, y, pressure, major, minor] = setup.largest;
    [u32::try_from(setup.slots).expect("a call that is lent"), x, y, pressure, major, minor]
}

fn record(event: Event) -> [u8; 8] {
    let Event { kind, code, value } = event;
    let mut bytes = [0; 8];
    bytes[..2].copy_from_slice(&kind.to_le_bytes());
    bytes[2..4].copy_from_slice(&code.to_le_bytes());
    bytes[4..].copy_from_slice(&value.to_le_bytes());
    bytes
}

/// A fresh state; drive has zeros in the place of one that was refused.
fn made(kind: Kind, refusal: u32, state: &Lent<u8>) -> Kept<Told> {
    let mut words = Words::default();
    words.put(refusal);
    match refusal {
        0 => words.state(kind, true, state.part())?,
        _ => words.all(&vec![0; kind.numbers()]),
    }
    Ok(words.told(vec![refusal]))
}

/// Drive has no word for a refusal here, since a struct has its length.
fn start(state: &mut Lent<u8>) -> Kept<Told> {
    let refusal = library::pod_fresh(state)?;
    let mut words = Words::default();
    match refusal {
        0 => words.state(Kind::Pod, true, state.part())?,
        _ => words.refused(refusal),
    }
    Ok(words.told(vec![refusal]))
}

fn kind_of(whose: Whose) -> Kind {
    match whose {
        Whose::Reader => Kind::Reader,
        Whose::Line => Kind::Line,
    }
}

fn runs<'a>(whose: Whose, state: &mut Lent<u8>, pieces: impl Iterator<Item = &'a [u8]>) -> Kept<Told> {
    let kind = kind_of(whose);
    let was_formed = kind.wrong(state.part()).is_none();
    let (mut words, mut refusals) = (Words::default(), Vec::new());
    for piece in pieces {
        if !refusals.is_empty() {
            words.put("/");
        }
        let (refusal, ran) = library::run(whose, state, piece)?;
        words.put(refusal);
        words.state(kind, was_formed, state.part())?;
        words.ran(ran)?;
        refusals.push(refusal);
        state.settle();
    }
    Ok(words.told(refusals))
}

fn loads(whose: Whose, state: &mut Lent<u8>, image: &[i32], current: u64) -> Kept<Told> {
    let was_formed = kind_of(whose).wrong(state.part()).is_none();
    let refusal = library::load(whose, state, image, current)?;
    let mut words = Words::default();
    words.put(refusal);
    words.state(kind_of(whose), was_formed, state.part())?;
    Ok(words.told(vec![refusal]))
}

fn asks(whose: Whose, state: &Lent<u8>, slot: u64) -> Kept<Told> {
    let (refusal, numbers) = library::ask(whose, state, slot)?;
    let mut words = Words::default();
    words.asked(refusal, numbers)?;
    Ok(words.told(vec![refusal]))
}

fn writes(
    state: &mut Lent<u8>,
    size: usize,
    write: impl Fn(&mut Lent<u8>, &mut Lent<u8>) -> Kept<(u32, [u64; 3])>,
) -> Kept<Told> {
    let was_formed = Kind::Writer.wrong(state.part()).is_none();
    let mut buffer = Lent::of(&marks(size));
    let (refusal, [count, need, changed]) = write(state, &mut buffer)?;
    let mut words = Words::default();
    words.put(refusal);
    words.state(Kind::Writer, was_formed, state.part())?;
    words.all(&[count, changed, need]);
    words.buffer(buffer.part());
    Ok(words.told(vec![refusal]))
}

fn steps(state: &mut Lent<u8>, bytes: &[u8]) -> Kept<Told> {
    let was_formed = Kind::Pod.wrong(state.part()).is_none();
    let (mut words, mut refusals) = (Words::default(), Vec::new());
    for byte in bytes {
        if !refusals.is_empty() {
            words.put("/");
        }
        let (refusal, numbers) = library::pod_step(state, *byte)?;
        words.state(Kind::Pod, was_formed, state.part())?;
        match refusal {
            0 => words.report(numbers)?,
            _ => words.refused(refusal),
        }
        refusals.push(refusal);
        state.settle();
    }
    Ok(words.told(refusals))
}

impl Words {
    fn report(&mut self, numbers: [i32; 7]) -> Kept<()> {
        let (name, count) = match numbers[0] {
            0 => ("more", 0),
            1 => ("self-test passed", 0),
            2 => ("down", 1),
            3 => ("up", 1),
            4 => ("absolute", 3),
            5 => ("relative", 4),
            6 => ("sticks", 4),
            7 => ("stick", 3),
            8 => ("time", 6),
            9 => ("bad byte", 0),
            10 => ("bad report", 0),
            other => return Err(format!("answered {other} for a report")),
        };
        let (own, rest) = numbers[1..].split_at(count);
        self.put(name);
        match numbers[0] {
            8 => own.iter().for_each(|byte| self.put(format_args!("{byte:02x}"))),
            _ => self.all(own),
        }
        unused(rest)
    }
}

/// A command as the header has it. What stands behind its own numbers is not looked at, so it is marks.
pub fn command_numbers(command: &Command) -> [u32; 7] {
    let own: Vec<u32> = match *command {
        Command::Reset => vec![0],
        Command::Buttons(action) => vec![1, action.into()],
        Command::Relative => vec![2],
        Command::Absolute { x, y } => vec![3, x.into(), y.into()],
        Command::Threshold { x, y } => vec![4, x.into(), y.into()],
        Command::Scale { x, y } => vec![5, x.into(), y.into()],
        Command::Where => vec![6],
        Command::Load { x, y } => vec![7, x.into(), y.into()],
        Command::SetClock(clock) => [8].into_iter().chain(clock.map(u32::from)).collect(),
        Command::AskClock => vec![9],
    };
    let mut numbers = [u32::MARK; 7];
    numbers[..own.len()].copy_from_slice(&own);
    numbers
}

fn command_writes(state: &mut Lent<u8>, command: &Command, size: usize, position: u64) -> Kept<Told> {
    let was_formed = Kind::Pod.wrong(state.part()).is_none();
    let mut buffer = Lent::of(&marks(size));
    let (refusal, need) = library::command_write(state, command_numbers(command), &mut buffer, position)?;
    let mut words = Words::default();
    words.put(refusal);
    words.state(Kind::Pod, was_formed, state.part())?;
    words.put(need);
    words.buffer(buffer.part());
    Ok(words.told(vec![refusal]))
}

fn command_reads(bytes: &[u8], position: u64) -> Kept<Told> {
    let (next, numbers) = library::command_read(bytes, position)?;
    let mut words = Words::default();
    words.put(next);
    let mut rest = &numbers[1..];
    match numbers[0] {
        0 => words.put("nothing"),
        1 => rest = words.command(rest)?,
        2 => words.put("lost"),
        3 => words.put("not for us"),
        4 => words.put("refused 11"),
        5 => words.put("unfinished"),
        other => return Err(format!("answered {other} for bytes of commands")),
    }
    unused(rest)?;
    Ok(words.told(vec![0]))
}

impl Words {
    /// The command that the numbers are; the rest of them tells nothing.
    fn command<'a>(&mut self, numbers: &'a [u32]) -> Kept<&'a [u32]> {
        let (name, count) = match numbers[0] {
            0 => ("reset", 0),
            1 => ("buttons", 1),
            2 => ("relative", 0),
            3 => ("absolute", 2),
            4 => ("threshold", 2),
            5 => ("scale", 2),
            6 => ("where", 0),
            7 => ("load", 2),
            8 => ("set clock", 6),
            9 => ("ask clock", 0),
            other => return Err(format!("answered {other} for a command")),
        };
        let (own, rest) = numbers[1..].split_at(count);
        self.put(name);
        match numbers[0] {
            8 => own.iter().for_each(|byte| self.put(format_args!("{byte:02x}"))),
            _ => self.all(own),
        }
        Ok(rest)
    }
}

fn force_reads(bytes: &[u8], position: u64) -> Kept<Told> {
    let (next, numbers) = library::force_read(bytes, position)?;
    let mut words = Words::default();
    // The header counts from nothing, drive from a report.
    let (number, count) = match numbers[0] {
        0 => (5, 0),
        1 => (0, 6),
        2 => (1, 2),
        3 => (2, 0),
        4 => (3, 0),
        5 => (4, 0),
        other => return Err(format!("answered {other} for a packet")),
    };
    let (own, rest) = numbers[1..].split_at(count);
    words.put(number);
    words.all(own);
    words.put(next);
    unused(rest)?;
    Ok(words.told(vec![0]))
}

fn force_writes(force: &Force, size: usize, position: u64) -> Kept<Told> {
    let Force { x, y, throttle, buttons, hat, rudder } = *force;
    let report = [x.into(), y.into(), throttle.into(), buttons.into(), hat.into(), rudder.into()];
    let mut buffer = Lent::of(&marks(size));
    let (refusal, need) = library::force_write(report, &mut buffer, position)?;
    let mut words = Words::default();
    words.put(refusal);
    words.put(need);
    words.buffer(buffer.part());
    Ok(words.told(vec![refusal]))
}

fn records(call: &RecorderCall) -> Kept<Told> {
    let mut words = Words::default();
    let refusal = match call {
        RecorderCall::Block { number, records } => {
            let mut block = Lent::marks(BLOCK);
            let refusal = library::make_block(*number, records, &mut block)?;
            words.put(refusal);
            // Drive has zeros in the place of a block that was refused.
            words.buffer(if refusal == 0 { block.part() } else { &[0; BLOCK] });
            refusal
        }
        RecorderCall::Lay { number, position, size, records } => {
            let mut buffer = Lent::of(&marks(*size));
            let (refusal, laid) = library::lay_blocks(*number, records, &mut buffer, *position)?;
            words.put(refusal);
            words.all(&laid);
            words.buffer(buffer.part());
            refusal
        }
        RecorderCall::Read { number, piece } => {
            let (refusal, events) = library::read_block(piece, *number)?;
            words.put(refusal);
            if refusal == 0 {
                words.all(&events);
            }
            refusal
        }
    };
    Ok(words.told(vec![refusal]))
}
