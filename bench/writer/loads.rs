//! The frames that the writer is measured on. Each load comes back to where it began, so that it can be written again and again.

use crate::panel::{Setup, PER_SLOT};

/// What changes: nothing; x of one slot, another one each time; the contact of one slot, another one each time; every number but the id of every slot; every contact is another one; every finger lifts, and lands again. The last ones are the same with K6's option on.
pub const LOADS: [&str; 9] =
    ["quiet", "one", "begin", "all", "replace", "lift", "pointer_quiet", "pointer_one", "pointer_lift"];

/// How many frames a load has: twice the most slots, so that each of them moves out and back.
pub const FRAMES: i32 = 64;

/// What is handled: frames.
pub fn things(_: &str, _: u32) -> u64 {
    FRAMES as u64
}

pub fn setup(n: u32) -> Setup {
    Setup { n, x: 4000, y: 4000, pressure: 255, major: 255, minor: 255 }
}

/// Every slot in contact: the frame before a load.
pub fn landing(n: u32) -> Vec<i32> {
    (0..n as i32).flat_map(|s| [1, 100 + s, 200 + s, 30, 80, 40]).collect()
}

/// What a load changes, and whether K6's option is on.
pub fn parts(load: &str) -> (&str, bool) {
    match load.strip_prefix("pointer_") {
        Some(change) => (change, true),
        None => (load, false),
    }
}

pub fn frames(load: &str, n: u32) -> Vec<Vec<i32>> {
    let (change, _) = parts(load);
    (0..FRAMES).map(|k| (0..n as i32).flat_map(|s| row(change, n as i32, k, s)).collect()).collect()
}

fn row(change: &str, n: i32, k: i32, s: i32) -> [i32; PER_SLOT] {
    let odd = (k + 1) % 2;
    match change {
        // Frame k moves slot k % n out or, the next time round, back; slots below it have moved already.
        "one" => [1, 100 + s + (k / n + (s <= k % n) as i32) % 2, 200 + s, 30, 80, 40],
        "begin" => [1 + (s == k % n) as i32, 100 + s, 200 + s, 30, 80, 40],
        "all" => [1, 100 + s + odd, 200 + s + odd, 30 + odd, 80 + odd, 40 + odd],
        "replace" => [2, 100 + s, 200 + s, 30, 80, 40],
        "lift" => [1 - odd, 100 + s, 200 + s, 30, 80, 40],
        _ => [1, 100 + s, 200 + s, 30, 80, 40],
    }
}
