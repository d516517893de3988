//! The reader's benchmark: plain Rust that copies, plain Rust that changes its state in place, and the proved library, on the same records.

#[path = "../calls.rs"]
mod calls;
mod compare;
mod copies;
mod inplace;
mod loads;
#[path = "../measure.rs"]
mod measure;
#[path = "../panel.rs"]
mod panel;
mod state;
mod version;

use state::{Counts, Told};
use std::hint::black_box;
use version::{in_rust, Version};

extern "C" {
    fn chandrulek_reader_fresh(state: *mut u8, size: usize, setup: &[u32; 6]) -> u32;
    fn chandrulek_run(state: *mut u8, size: usize, records: *const u8, len: usize, counts: &mut Counts) -> u32;
    fn chandrulek_load(state: *mut u8, size: usize, image: *const i32, numbers: usize, current: usize) -> u32;
    fn chandrulek_ask(state: *const u8, size: usize, slot: usize, told: &mut Told) -> u32;
}

/// `late` is `inplace`, but that it tests the ids only after one came.
static VERSIONS: [Version; 4] = [
    in_rust::<copies::Copies>("copies"),
    in_rust::<inplace::InPlace<false>>("inplace"),
    in_rust::<inplace::InPlace<true>>("late"),
    Version {
        name: "rattle",
        fresh: chandrulek_reader_fresh,
        run: chandrulek_run,
        load: chandrulek_load,
        ask: chandrulek_ask,
    },
];

/// One call for all records of a load; of a load whose name ends in `_each`, one for each frame.
fn pass(version: &str, load: &str, n: u32) -> Box<dyn FnMut()> {
    let version = VERSIONS.iter().find(|v| v.name == version).expect("a version's name");
    let calls = loads::calls(load, n);
    let mut held = measure::Held((loads::start(n), Counts::default()));
    Box::new(move || {
        let (state, counts) = &mut held.0;
        for bytes in &calls {
            let verdict = version.run(black_box(&mut *state), black_box(bytes), counts);
            black_box((verdict, &mut *counts));
        }
    })
}

fn main() {
    let versions = VERSIONS.iter().map(|v| v.name).collect();
    measure::Bench { versions, loads: &loads::LOADS, calls: 1, things: loads::things, pass, compare: compare::all }
        .main();
}
