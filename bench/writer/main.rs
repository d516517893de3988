//! The writer's benchmark: plain Rust that copies, plain Rust that changes its state in place, and the proved library, on the same frames.

#[path = "../calls.rs"]
mod calls;
mod compare;
mod copies;
mod inplace;
mod loads;
#[path = "../measure.rs"]
mod measure;
#[path = "../panel.rs"]
mod panel;
mod state;
mod version;

use panel::MOST_EVENTS;
use state::BLANK;
use std::hint::black_box;
use version::{in_rust, Answer, Version};

extern "C" {
    fn chandrulek_writer_fresh(state: *mut u8, size: usize, setup: &[u32; 6], pointer: u32) -> u32;
    fn chandrulek_write(
        state: *mut u8,
        size: usize,
        frame: *const i32,
        numbers: usize,
        buf: *mut u8,
        room: usize,
        at: usize,
        answer: &mut Answer,
    ) -> u32;
}

/// What stands in the answer's place before a call, so that a number that is not told shows.
pub const UNTOLD: Answer = Answer { count: 77, need: 77, changed: 77 };
/// The most bytes that a frame can need, with the four events that K6's display can be told.
pub const ROOM: usize = 8 * (MOST_EVENTS + 4);

static VERSIONS: [Version; 3] = [
    in_rust::<copies::Copies>("copies"),
    in_rust::<inplace::InPlace>("inplace"),
    Version { name: "rattle", fresh: chandrulek_writer_fresh, write: chandrulek_write },
];

/// All frames of a load, one call each.
fn pass(version: &str, load: &str, n: u32) -> Box<dyn FnMut()> {
    let version = VERSIONS.iter().find(|v| v.name == version).expect("a version's name");
    let frames = loads::frames(load, n);
    let mut held = measure::Held((BLANK, UNTOLD, [0; ROOM]));
    let (state, answer, buf) = &mut held.0;
    version.fresh(state, loads::setup(n), loads::parts(load).1);
    version.write(state, &loads::landing(n), buf, 0, answer);
    Box::new(move || {
        let (state, answer, buf) = &mut held.0;
        for frame in &frames {
            let verdict = version.write(state, black_box(frame), buf, 0, answer);
            black_box((verdict, &mut *answer, &mut *buf));
        }
    })
}

fn main() {
    let versions = VERSIONS.iter().map(|v| v.name).collect();
    let bench = measure::Bench {
        versions,
        loads: &loads::LOADS,
        calls: loads::FRAMES as u32,
        things: loads::things,
        pass,
        compare: compare::all,
    };
    bench.main();
}
