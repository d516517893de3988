//! A version of the writer: its calls as C has them, for the versions in Rust too, so that none has a cheaper way in. A slice is a pointer and a length.

use crate::panel::Setup;
use crate::state::State;
use std::mem::size_of;
use std::slice::{from_raw_parts, from_raw_parts_mut};

/// What a call answers beside the verdict, the state and the buffer.
#[repr(C)]
#[derive(Clone, Copy, PartialEq, Debug)]
pub struct Answer {
    pub count: u64,
    pub need: u64,
    pub changed: u64,
}

pub type Fresh = unsafe extern "C" fn(*mut u8, usize, &[u32; 6], u32) -> u32;
pub type Write = unsafe extern "C" fn(*mut u8, usize, *const i32, usize, *mut u8, usize, usize, &mut Answer) -> u32;

/// Each call answers the verdict's number; they are include/chandrulek.h's.
pub struct Version {
    pub name: &'static str,
    pub fresh: Fresh,
    pub write: Write,
}

/// The state as the bytes that a host lends.
pub fn lent(state: &mut State) -> (*mut u8, usize) {
    ((state as *mut State).cast(), size_of::<State>())
}

// SAFETY of both calls: the slices are whole, and no version reads or writes past them.
impl Version {
    pub fn fresh(&self, state: &mut State, setup: Setup, pointer: bool) -> u64 {
        let Setup { n, x, y, pressure, major, minor } = setup;
        let (bytes, size) = lent(state);
        unsafe { (self.fresh)(bytes, size, &[n, x, y, pressure, major, minor], pointer as u32) as u64 }
    }

    pub fn write(&self, state: &mut State, frame: &[i32], buf: &mut [u8], at: usize, answer: &mut Answer) -> u64 {
        let (bytes, size) = lent(state);
        unsafe {
            (self.write)(bytes, size, frame.as_ptr(), frame.len(), buf.as_mut_ptr(), buf.len(), at, answer) as u64
        }
    }
}

/// A frame that was accepted.
pub struct Sent {
    pub count: usize,
    pub changed: u32,
}

/// A refusal's number, and the need with number 5.
pub struct Refused {
    pub number: u64,
    pub need: usize,
}

/// What differs from version to version in Rust.
pub trait Writer {
    fn write(state: &mut State, frame: &[i32], buf: &mut [u8], at: usize) -> Result<Sent, Refused>;
}

pub const fn in_rust<W: Writer>(name: &'static str) -> Version {
    Version { name, fresh, write: write::<W> }
}

/// The host's bytes as a state; None where they are not as many.
unsafe fn held<'a>(bytes: *mut u8, size: usize) -> Option<&'a mut State> {
    (size == size_of::<State>()).then(|| &mut *bytes.cast())
}

unsafe extern "C" fn fresh(bytes: *mut u8, size: usize, setup: &[u32; 6], pointer: u32) -> u32 {
    let &[n, x, y, pressure, major, minor] = setup;
    let Some(fresh) = State::fresh(Setup { n, x, y, pressure, major, minor }, pointer != 0) else {
        return 1;
    };
    match held(bytes, size) {
        Some(state) if pointer <= 1 => *state = fresh,
        _ => return 2,
    }
    0
}

#[allow(clippy::too_many_arguments)]
unsafe extern "C" fn write<W: Writer>(
    bytes: *mut u8,
    size: usize,
    frame: *const i32,
    numbers: usize,
    buf: *mut u8,
    room: usize,
    at: usize,
    answer: &mut Answer,
) -> u32 {
    let outcome = match held(bytes, size) {
        Some(state) => W::write(state, from_raw_parts(frame, numbers), from_raw_parts_mut(buf, room), at),
        None => Err(Refused { number: 2, need: 0 }),
    };
    told(outcome, answer) as u32
}

/// The verdict's number, with what stands beside it in the answer.
pub fn told(outcome: Result<Sent, Refused>, answer: &mut Answer) -> u64 {
    match outcome {
        Ok(sent) => {
            *answer = Answer { count: sent.count as u64, need: 0, changed: sent.changed as u64 };
            0
        }
        Err(refused) => {
            *answer = Answer { count: 0, need: refused.need as u64, changed: 0 };
            refused.number
        }
    }
}
