//! The records that the reader is measured on: one call for all of a load's.

use crate::panel::{Setup, Slot, Table, RECORDS, UNUSED};
use crate::state::State;

/// What comes before each report: x and y of one slot, another one each time; every number but the id of every slot; no report comes at all; another contact in one slot. The last ones are the same with a call for each frame.
pub const LOADS: [&str; 6] = ["one", "all", "none", "ids", "one_each", "all_each"];

const FRAMES: u32 = 100;

/// Every slot in contact: the state before a load.
pub fn start(n: u32) -> State {
    let mut table: Table = [UNUSED; RECORDS];
    for (s, slot) in table.iter_mut().enumerate().take(n as usize) {
        *slot = Slot { id: s as i32, x: 10, y: 20, pressure: 30, major: 80, minor: 40 };
    }
    State::with(Setup { n, x: 4000, y: 4000, pressure: 255, major: 255, minor: 255 }, table)
}

pub fn record(kind: u16, code: u16, value: u32) -> [u8; 8] {
    (kind as u64 | (code as u64) << 16 | (value as u64) << 32).to_le_bytes()
}

/// The records of each call.
pub fn calls(load: &str, n: u32) -> Vec<Vec<u8>> {
    match load.strip_suffix("_each") {
        Some(load) => (0..FRAMES).map(|f| frame(load, n, f)).collect(),
        None => vec![(0..FRAMES).flat_map(|f| frame(load, n, f)).collect()],
    }
}

pub fn records(load: &str, n: u32) -> Vec<u8> {
    calls(load, n).concat()
}

/// What is handled: events.
pub fn things(load: &str, n: u32) -> u64 {
    records(load, n).len() as u64 / 8
}

fn frame(load: &str, n: u32, f: u32) -> Vec<u8> {
    let abs = |code, value| record(3, code, value);
    let mut frame = match load {
        "one" => vec![abs(0x2f, f % n), abs(0x35, f), abs(0x36, f)],
        "all" => (0..n)
            .flat_map(|s| {
                let small = (f + s) % 256;
                [
                    abs(0x2f, (f + s) % n),
                    abs(0x35, f + s),
                    abs(0x36, f + 2 * s),
                    abs(0x3a, small),
                    abs(0x30, small),
                    abs(0x31, small),
                ]
            })
            .collect(),
        "ids" => vec![abs(0x2f, f % n), abs(0x39, n + f), abs(0x35, f)],
        _ => return [abs(0x35, f), abs(0x36, f), abs(0x35, f + 1), abs(0x36, f + 1)].concat(),
    };
    frame.push(record(0, 0, 0));
    frame.concat()
}
