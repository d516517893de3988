//! Each exported function once, on slices that are lent between guards. What a call promises of bytes that it may not touch is checked after every call.

use crate::ffi;

/// What stands in the guards, and in an answer before it is set. No call answers it.
pub trait Mark: Copy + PartialEq {
    const MARK: Self;
}

impl Mark for u8 {
    const MARK: u8 = 0xA5;
}

impl Mark for i32 {
    const MARK: i32 = 0x5AA5_5AA5;
}

impl Mark for u32 {
    const MARK: u32 = 0x5AA5_5AA5;
}

impl Mark for u64 {
    const MARK: u64 = 0x5AA5_5AA5_5AA5_5AA5;
}

/// How many elements guard each side. Odd, so that bytes are lent at an odd address.
const GUARD: usize = 13;

/// Elements that are lent to a call, and what they were before it.
pub struct Lent<T> {
    all: Vec<T>,
    before: Vec<T>,
}

impl<T: Mark> Lent<T> {
    pub fn of(part: &[T]) -> Lent<T> {
        let guard = &[T::MARK; GUARD][..];
        let all = [guard, part, guard].concat();
        Lent { before: all.clone(), all }
    }

    /// So many that are still to be set.
    pub fn marks(count: usize) -> Lent<T> {
        Lent::of(&vec![T::MARK; count])
    }

    fn length(&self) -> usize {
        self.all.len() - 2 * GUARD
    }

    pub fn part(&self) -> &[T] {
        &self.all[GUARD..][..self.length()]
    }

    fn lend(&mut self) -> &mut [T] {
        let length = self.length();
        &mut self.all[GUARD..][..length]
    }

    /// The same as an array, whose length is the one that was asked for.
    fn array<const N: usize>(&self) -> &[T; N] {
        self.part().try_into().expect("as many as were lent")
    }

    fn lend_array<const N: usize>(&mut self) -> &mut [T; N] {
        self.lend().try_into().expect("as many as are lent")
    }

    /// What it is now is what the next call finds.
    pub fn settle(&mut self) {
        self.before.copy_from_slice(&self.all);
    }
}

/// The same for slices of any element.
trait Held {
    fn has_guards(&self) -> bool;
    fn is_as_before(&self) -> bool;
    fn is_set(&self) -> bool;
}

impl<T: Mark> Held for Lent<T> {
    fn has_guards(&self) -> bool {
        let end = self.all.len() - GUARD;
        self.all[..GUARD].iter().chain(&self.all[end..]).all(|guard| *guard == T::MARK)
    }

    fn is_as_before(&self) -> bool {
        self.all == self.before
    }

    fn is_set(&self) -> bool {
        !self.part().contains(&T::MARK)
    }
}

/// What a call may do with a slice.
enum May<'a> {
    /// It is const.
    Read(&'a dyn Held),
    /// It stays as it was where the call is refused.
    Change(&'a dyn Held),
    /// It is an answer, set by every call.
    Set(&'a dyn Held),
}
use May::{Change, Read, Set};

/// What a call gave; or a promise that it broke, in words.
pub type Kept<T> = Result<T, String>;

fn keeps(refused: bool, slices: &[(&str, May)]) -> Kept<()> {
    for (name, may) in slices {
        let (Read(held) | Change(held) | Set(held)) = may;
        if !held.has_guards() {
            return Err(format!("wrote outside {name}"));
        }
        match may {
            Read(held) if !held.is_as_before() => return Err(format!("changed {name}, which is const")),
            Change(held) if refused && !held.is_as_before() => {
                return Err(format!("refused the call and changed {name}"));
            }
            Set(held) if !held.is_set() => return Err(format!("did not set {name}")),
            _ => {}
        }
    }
    Ok(())
}

/// The refusal that has a need.
const NO_ROOM: u32 = 5;

/// With a refusal an answer is zeros, but for the place of the need with refusal 5.
fn zeros<T: Copy + PartialEq + Default + std::fmt::Debug>(refusal: u32, answer: &[T], need: Option<usize>) -> Kept<()> {
    let is_need = |place: usize| refusal == NO_ROOM && need == Some(place);
    let is_odd = |(place, number): (usize, &T)| *number != T::default() && !is_need(place);
    if refusal != 0 && answer.iter().enumerate().any(is_odd) {
        return Err(format!("refused the call by {refusal} and answered {answer:?}"));
    }
    Ok(())
}

/// n and the largest values.
pub type SetupNumbers = [u32; 6];
/// What a run counted.
pub type RanNumbers = [u64; 8];
/// What a question for a slot is answered, and a byte to the pod.
pub type Seven = [i32; 7];

pub fn writer_fresh(state: &mut Lent<u8>, setup: SetupNumbers, pointer: u32) -> Kept<u32> {
    let setup = Lent::of(&setup);
    let refusal = ffi::writer_fresh(state.lend(), setup.array(), pointer);
    keeps(refusal != 0, &[("the state", Change(state)), ("the setup", Read(&setup))])?;
    Ok(refusal)
}

pub fn write(state: &mut Lent<u8>, frame: &[i32], buffer: &mut Lent<u8>, at: u64) -> Kept<(u32, [u64; 3])> {
    let (frame, mut answer) = (Lent::of(frame), Lent::marks(3));
    let refusal = ffi::write(state.lend(), frame.part(), buffer.lend(), at as usize, answer.lend_array());
    wrote(refusal, state, ("the frame", &frame), buffer, &answer)
}

pub fn write_anonymous(state: &mut Lent<u8>, records: &[u8], buffer: &mut Lent<u8>, at: u64) -> Kept<(u32, [u64; 3])> {
    let (records, mut answer) = (Lent::of(records), Lent::marks(3));
    let refusal = ffi::write_anonymous(state.lend(), records.part(), buffer.lend(), at as usize, answer.lend_array());
    wrote(refusal, state, ("the records", &records), buffer, &answer)
}

fn wrote(
    refusal: u32,
    state: &Lent<u8>,
    (name, input): (&str, &dyn Held),
    buffer: &Lent<u8>,
    answer: &Lent<u64>,
) -> Kept<(u32, [u64; 3])> {
    let slices =
        [("the state", Change(state)), (name, Read(input)), ("the buffer", Change(buffer)), ("answer", Set(answer))];
    keeps(refusal != 0, &slices)?;
    zeros(refusal, answer.part(), Some(1))?;
    Ok((refusal, *answer.array()))
}

/// Whose function is called: the reader's, or the line's reader's.
#[derive(Clone, Copy, PartialEq, Eq, Debug)]
pub enum Whose {
    Reader,
    Line,
}

pub fn fresh(whose: Whose, state: &mut Lent<u8>, setup: SetupNumbers) -> Kept<u32> {
    let setup = Lent::of(&setup);
    let refusal = match whose {
        Whose::Reader => ffi::reader_fresh(state.lend(), setup.array()),
        Whose::Line => ffi::line_fresh(state.lend(), setup.array()),
    };
    keeps(refusal != 0, &[("the state", Change(state)), ("the setup", Read(&setup))])?;
    Ok(refusal)
}

/// A run over records, or one piece taken.
pub fn run(whose: Whose, state: &mut Lent<u8>, bytes: &[u8]) -> Kept<(u32, RanNumbers)> {
    let (bytes, mut answer) = (Lent::of(bytes), Lent::<u64>::marks(8));
    let refusal = match whose {
        Whose::Reader => ffi::run(state.lend(), bytes.part(), answer.lend_array()),
        Whose::Line => ffi::take(state.lend(), bytes.part(), answer.lend_array()),
    };
    let slices = [("the state", Change(state)), ("the bytes", Read(&bytes)), ("answer", Set(&answer))];
    keeps(refusal != 0, &slices)?;
    zeros(refusal, answer.part(), None)?;
    Ok((refusal, *answer.array()))
}

pub fn load(whose: Whose, state: &mut Lent<u8>, image: &[i32], current: u64) -> Kept<u32> {
    let image = Lent::of(image);
    let refusal = match whose {
        Whose::Reader => ffi::load(state.lend(), image.part(), current as usize),
        Whose::Line => ffi::line_load(state.lend(), image.part(), current as usize),
    };
    keeps(refusal != 0, &[("the state", Change(state)), ("the image", Read(&image))])?;
    Ok(refusal)
}

pub fn ask(whose: Whose, state: &Lent<u8>, slot: u64) -> Kept<(u32, Seven)> {
    let mut answer = Lent::<i32>::marks(7);
    let refusal = match whose {
        Whose::Reader => ffi::ask(state.part(), slot as usize, answer.lend_array()),
        Whose::Line => ffi::line_ask(state.part(), slot as usize, answer.lend_array()),
    };
    keeps(refusal != 0, &[("the state", Read(state)), ("answer", Set(&answer))])?;
    zeros(refusal, answer.part(), None)?;
    Ok((refusal, *answer.array()))
}

pub fn pod_fresh(state: &mut Lent<u8>) -> Kept<u32> {
    let refusal = ffi::pod_fresh(state.lend());
    keeps(refusal != 0, &[("the pod", Change(state))])?;
    Ok(refusal)
}

pub fn pod_step(state: &mut Lent<u8>, byte: u8) -> Kept<(u32, Seven)> {
    let mut answer = Lent::<i32>::marks(7);
    let refusal = ffi::pod_step(state.lend(), byte, answer.lend_array());
    keeps(refusal != 0, &[("the pod", Change(state)), ("answer", Set(&answer))])?;
    zeros(refusal, answer.part(), None)?;
    Ok((refusal, *answer.array()))
}

pub fn command_write(state: &mut Lent<u8>, command: [u32; 7], buffer: &mut Lent<u8>, at: u64) -> Kept<(u32, u64)> {
    let (command, mut answer) = (Lent::of(&command), Lent::<u64>::marks(1));
    let refusal = ffi::command_write(state.lend(), command.array(), buffer.lend(), at as usize, answer.lend_array());
    let slices = [
        ("the pod", Change(state)),
        ("the command", Read(&command)),
        ("the buffer", Change(buffer)),
        ("answer", Set(&answer)),
    ];
    keeps(refusal != 0, &slices)?;
    zeros(refusal, answer.part(), Some(0))?;
    Ok((refusal, answer.part()[0]))
}

/// Where reading goes on, and the answer.
pub fn command_read(bytes: &[u8], at: u64) -> Kept<(usize, [u32; 8])> {
    let (bytes, mut answer) = (Lent::of(bytes), Lent::<u32>::marks(8));
    let next = ffi::command_read(bytes.part(), at as usize, answer.lend_array());
    keeps(false, &[("the bytes", Read(&bytes)), ("answer", Set(&answer))])?;
    Ok((next, *answer.array()))
}

pub fn force_write(report: [i32; 6], buffer: &mut Lent<u8>, at: u64) -> Kept<(u32, u64)> {
    let (report, mut answer) = (Lent::of(&report), Lent::<u64>::marks(1));
    let refusal = ffi::force_write(report.array(), buffer.lend(), at as usize, answer.lend_array());
    let slices = [("the report", Read(&report)), ("the buffer", Change(buffer)), ("answer", Set(&answer))];
    keeps(refusal != 0, &slices)?;
    zeros(refusal, answer.part(), Some(0))?;
    Ok((refusal, answer.part()[0]))
}

/// Where reading goes on, and the answer.
pub fn force_read(bytes: &[u8], at: u64) -> Kept<(usize, Seven)> {
    let (bytes, mut answer) = (Lent::of(bytes), Lent::<i32>::marks(7));
    let next = ffi::force_read(bytes.part(), at as usize, answer.lend_array());
    keeps(false, &[("the bytes", Read(&bytes)), ("answer", Set(&answer))])?;
    Ok((next, *answer.array()))
}

pub fn make_block(number: u32, events: &[u8], block: &mut Lent<u8>) -> Kept<u32> {
    let events = Lent::of(events);
    let refusal = ffi::make_block(number, events.part(), block.lend());
    keeps(refusal != 0, &[("the events", Read(&events)), ("the block", Change(block))])?;
    Ok(refusal)
}

pub fn lay_blocks(number: u32, events: &[u8], buffer: &mut Lent<u8>, at: u64) -> Kept<(u32, [u64; 3])> {
    let (events, mut answer) = (Lent::of(events), Lent::marks(3));
    let refusal = ffi::lay_blocks(number, events.part(), buffer.lend(), at as usize, answer.lend_array());
    let slices = [("the events", Read(&events)), ("the buffer", Change(buffer)), ("answer", Set(&answer))];
    keeps(refusal != 0, &slices)?;
    Ok((refusal, *answer.array()))
}

pub fn read_block(block: &[u8], number: u32) -> Kept<(u32, [u64; 2])> {
    let (block, mut answer) = (Lent::of(block), Lent::marks(2));
    let refusal = ffi::read_block(block.part(), number, answer.lend_array());
    keeps(refusal != 0, &[("the block", Read(&block)), ("answer", Set(&answer))])?;
    zeros(refusal, answer.part(), None)?;
    Ok((refusal, *answer.array()))
}
