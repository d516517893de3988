//! The line's reader beside the reader itself: the same records, handed over as one piece; and a piece of one byte beside a run over no record.

#[path = "../reader/loads.rs"]
mod loads;
#[path = "../measure.rs"]
mod measure;
#[path = "../panel.rs"]
mod panel;
#[path = "../reader/state.rs"]
#[allow(dead_code)] // the calls in Rust are the reader's benchmark's
mod state;

use state::{Counts, State};
use std::hint::black_box;
use std::mem::size_of;

/// A line's state: the reader's, of another kind, and the bytes that are held: seven places and a zero.
#[repr(C)]
#[derive(Clone, Copy, PartialEq, Debug)]
struct Line {
    reader: State,
    held: [u8; 8],
}

const LINE_KIND: u8 = 3;

extern "C" {
    fn chandrulek_run(state: *mut u8, size: usize, bytes: *const u8, len: usize, counts: &mut Counts) -> u32;
    fn chandrulek_take(state: *mut u8, size: usize, bytes: *const u8, len: usize, counts: &mut Counts) -> u32;
}

const LOADS: [&str; 5] = ["one", "all", "none", "ids", "byte"];

fn start(version: &str, n: u32) -> Line {
    let mut reader = loads::start(n);
    if version == "take" {
        reader.kind = LINE_KIND;
    }
    Line { reader, held: [0; 8] }
}

/// A version's call. SAFETY: the slices are whole, and neither call reads past them.
fn call(version: &str, line: &mut Line, bytes: &[u8], counts: &mut Counts) -> u32 {
    let (from, len) = (bytes.as_ptr(), bytes.len());
    match version {
        "run" => unsafe {
            chandrulek_run((&mut line.reader as *mut State).cast(), size_of::<State>(), from, len, counts)
        },
        _ => unsafe { chandrulek_take((line as *mut Line).cast(), size_of::<Line>(), from, len, counts) },
    }
}

/// What a version is handed: a byte alone is no record, so `run` gets none.
fn bytes_of(version: &str, load: &str, n: u32) -> Vec<u8> {
    match (load, version) {
        ("byte", "run") => Vec::new(),
        ("byte", _) => vec![3],
        _ => loads::records(load, n),
    }
}

/// What is handled: events, or one byte that ends none.
fn things(load: &str, n: u32) -> u64 {
    if load == "byte" {
        1
    } else {
        loads::things(load, n)
    }
}

fn pass(version: &str, load: &str, n: u32) -> Box<dyn FnMut()> {
    let bytes = bytes_of(version, load, n);
    let version = version.to_string();
    let mut held = measure::Held((start(&version, n), Counts::default()));
    Box::new(move || {
        let (line, counts) = &mut held.0;
        // What a piece of one byte leaves is let go again, so that the next pass finds nothing held.
        (line.held, line.reader.zero) = ([0; 8], 0);
        let verdict = call(&version, black_box(line), black_box(&bytes), counts);
        black_box((verdict, counts));
    })
}

/// Whole answers on every load: the state's bytes, the verdict and the counts.
fn compare() -> Result<String, String> {
    let mut calls = 0;
    for load in LOADS {
        for n in measure::SIZES {
            let [run, take] = ["run", "take"].map(|version| {
                let (mut line, mut counts) = (start(version, n), Counts::default());
                let verdict = call(version, &mut line, &bytes_of(version, load, n), &mut counts);
                // Of a line the kind is another, and so is what it holds of a byte.
                (line.reader.kind, line.reader.zero) = (0, 0);
                (verdict, line.reader, counts)
            });
            if run != take {
                return Err(format!("run and take differ on {load} with {n} slots"));
            }
            calls += 1;
        }
    }
    Ok(format!("compared: {calls} calls, every answer the same"))
}

fn main() {
    measure::Bench { versions: vec!["run", "take"], loads: &LOADS, calls: 1, things, pass, compare }.main();
}
