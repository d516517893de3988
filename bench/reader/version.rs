//! A version of the reader: its calls as C has them, for the versions in Rust too, so that none has a cheaper way in. A slice is a pointer and a length.

use crate::loads::record;
use crate::panel::{Setup, ZERO};
use crate::state::{Counts, State, Told, UNKNOWN};
use std::mem::size_of;
use std::slice::from_raw_parts;

pub type Fresh = unsafe extern "C" fn(*mut u8, usize, &[u32; 6]) -> u32;
pub type Run = unsafe extern "C" fn(*mut u8, usize, *const u8, usize, &mut Counts) -> u32;
pub type Load = unsafe extern "C" fn(*mut u8, usize, *const i32, usize, usize) -> u32;
pub type Ask = unsafe extern "C" fn(*const u8, usize, usize, &mut Told) -> u32;

/// Each call answers the verdict's number; they are include/chandrulek.h's.
pub struct Version {
    pub name: &'static str,
    pub fresh: Fresh,
    pub run: Run,
    pub load: Load,
    pub ask: Ask,
}

/// The state as the bytes that a host lends.
pub fn lent(state: &mut State) -> (*mut u8, usize) {
    ((state as *mut State).cast(), size_of::<State>())
}

// SAFETY of all calls: the slices are whole, and no version reads past them.
impl Version {
    pub fn fresh(&self, state: &mut State, setup: Setup) -> u64 {
        let Setup { n, x, y, pressure, major, minor } = setup;
        let (bytes, size) = lent(state);
        unsafe { (self.fresh)(bytes, size, &[n, x, y, pressure, major, minor]) as u64 }
    }

    pub fn run(&self, state: &mut State, records: &[u8], counts: &mut Counts) -> u64 {
        let (bytes, size) = lent(state);
        unsafe { (self.run)(bytes, size, records.as_ptr(), records.len(), counts) as u64 }
    }

    /// One record by itself is a run over it.
    pub fn read_one(&self, state: &mut State, kind: u16, code: u16, value: u32, counts: &mut Counts) -> u64 {
        self.run(state, &record(kind, code, value), counts)
    }

    pub fn load(&self, state: &mut State, image: &[i32], current: usize) -> u64 {
        let (bytes, size) = lent(state);
        unsafe { (self.load)(bytes, size, image.as_ptr(), image.len(), current) as u64 }
    }

    pub fn ask(&self, state: &State, slot: usize, told: &mut Told) -> u64 {
        unsafe { (self.ask)((state as *const State).cast(), size_of::<State>(), slot, told) as u64 }
    }
}

/// What differs from version to version in Rust.
pub trait Reader {
    /// The counts, or the number of the refusal.
    fn run(state: &mut State, bytes: &[u8]) -> Result<Counts, u64>;
}

pub const fn in_rust<R: Reader>(name: &'static str) -> Version {
    Version { name, fresh, run: run::<R>, load, ask }
}

/// The host's bytes as a state; None where they are not as many.
unsafe fn held<'a>(bytes: *mut u8, size: usize) -> Option<&'a mut State> {
    (size == size_of::<State>()).then(|| &mut *bytes.cast())
}

pub unsafe extern "C" fn fresh(bytes: *mut u8, size: usize, setup: &[u32; 6]) -> u32 {
    let &[n, x, y, pressure, major, minor] = setup;
    let Some(fresh) = State::fresh(Setup { n, x, y, pressure, major, minor }) else {
        return 1;
    };
    match held(bytes, size) {
        Some(state) => *state = fresh,
        None => return 2,
    }
    0
}

unsafe extern "C" fn run<R: Reader>(
    bytes: *mut u8,
    size: usize,
    records: *const u8,
    len: usize,
    counts: &mut Counts,
) -> u32 {
    let outcome = held(bytes, size).map_or(Err(2), |state| R::run(state, from_raw_parts(records, len)));
    *counts = outcome.unwrap_or_default();
    outcome.err().unwrap_or(0) as u32
}

pub unsafe extern "C" fn load(bytes: *mut u8, size: usize, image: *const i32, numbers: usize, current: usize) -> u32 {
    held(bytes, size).map_or(2, |state| state.load(from_raw_parts(image, numbers), current)) as u32
}

pub unsafe extern "C" fn ask(bytes: *const u8, size: usize, slot: usize, told: &mut Told) -> u32 {
    let answer = held(bytes.cast_mut(), size).map_or(Err(2), |state| state.ask(slot));
    *told = answer.unwrap_or(Told { kind: UNKNOWN, slot: ZERO });
    answer.err().unwrap_or(0) as u32
}
