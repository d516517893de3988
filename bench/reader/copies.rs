//! The reader in plain Rust that copies: a state comes in by value and goes out by value, and each record is a match on type and code.

use crate::panel::ids_differ;
use crate::state::{Counts, State, DROPPED, FOLLOWING, STALE};
use crate::version::Reader;

struct Ran {
    state: State,
    outcome: Result<Counts, u64>,
}

fn lose(state: &mut State, mode: u8) {
    state.pending = state.shown;
    state.mode = mode;
}

/// Type 3, while following; false for a bad value.
fn absolute(state: &mut State, code: u16, value: i32, counts: &mut Counts) -> bool {
    let setup = &state.setup;
    let slot = &mut state.pending[state.current as usize];
    let within = |top: u32| value >= 0 && value as u32 <= top;
    match code {
        0x2f if value >= 0 && (value as u32) < setup.n => state.current = value as u32,
        0x39 if (-1..=65535).contains(&value) => slot.id = value,
        0x35 if within(setup.x) => slot.x = value as u32,
        0x36 if within(setup.y) => slot.y = value as u32,
        0x3a if within(setup.pressure) => slot.pressure = value as u32,
        0x30 if within(setup.major) => slot.major = value as u32,
        0x31 if within(setup.minor) => slot.minor = value as u32,
        0x2f | 0x39 | 0x35 | 0x36 | 0x3a | 0x30 | 0x31 => return false,
        _ => counts.skip(3, code),
    }
    true
}

/// A record that finds the mode not following.
fn ignore(state: &mut State, kind: u16, code: u16, counts: &mut Counts) {
    counts.ignored += 1;
    match (state.mode, kind, code) {
        (DROPPED, 0, 0) => state.mode = STALE,
        (STALE, 0, 3) => state.mode = DROPPED,
        _ => {}
    }
}

fn follow(state: &mut State, kind: u16, code: u16, value: i32, counts: &mut Counts) {
    match (kind, code) {
        (0, 0) if ids_differ(state.setup.n, &state.pending) => {
            state.shown = state.pending;
            counts.shown += 1;
        }
        (0, 0) => {
            counts.bad += 1;
            lose(state, STALE);
        }
        (0, 3) => lose(state, DROPPED),
        (3, _) => {
            if !absolute(state, code, value, counts) {
                counts.bad += 1;
                lose(state, DROPPED);
            }
        }
        _ => counts.skip(kind, code),
    }
}

#[inline(never)]
fn run(state: State, bytes: &[u8]) -> Ran {
    if !state.well_formed() {
        return Ran { state, outcome: Err(2) };
    }
    if bytes.len() % 8 != 0 {
        return Ran { state, outcome: Err(6) };
    }
    let mut state = state;
    let mut counts = Counts::default();
    for r in bytes.chunks_exact(8) {
        let kind = u16::from_le_bytes([r[0], r[1]]);
        let code = u16::from_le_bytes([r[2], r[3]]);
        let value = i32::from_le_bytes([r[4], r[5], r[6], r[7]]);
        if state.mode == FOLLOWING {
            follow(&mut state, kind, code, value, &mut counts);
        } else {
            ignore(&mut state, kind, code, &mut counts);
        }
    }
    Ran { state, outcome: Ok(counts) }
}

pub struct Copies;

impl Reader for Copies {
    fn run(state: &mut State, bytes: &[u8]) -> Result<Counts, u64> {
        let ran = run(*state, bytes);
        *state = ran.state;
        ran.outcome
    }
}
