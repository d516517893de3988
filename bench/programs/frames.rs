//! frames one|all N FRAMES: a panel's setup of N slots and so many frames on standard output, as write_frames takes them. All slots are in contact. With `one` another slot's x changes each time, with `all` all numbers of all slots.

use std::env::args;
use std::io::{self, BufWriter, Write};

const POSITION: u32 = 32767;
const SIZE: u32 = 255;

/// Kind, x, y, pressure, major and minor.
type Row = [u32; 6];

/// The frame of this number, from 0: in `one` slot s has moved as often as its turn came.
fn row(all: bool, n: u32, frame: u32, s: u32) -> Row {
    if all {
        let v = 7 * frame + 100 * s;
        return [1, v % POSITION, (v + 1) % POSITION, 1 + v % SIZE, v % SIZE, (v + 1) % SIZE];
    }
    let moves = (frame + n - s) / n;
    [1, (7 * moves + 100 * s) % POSITION, 1000 + s, 30, 5, 4]
}

fn main() -> io::Result<()> {
    let words: Vec<String> = args().collect();
    let [_, load, n, frames] = &words[..] else {
        panic!("usage: frames one|all N FRAMES");
    };
    let number = |word: &String| word.parse::<u32>().expect("a number");
    let (all, n) = (load == "all", number(n));
    let mut out = BufWriter::new(io::stdout());
    for v in [n, POSITION, POSITION, SIZE, SIZE, SIZE] {
        out.write_all(&v.to_le_bytes())?;
    }
    for frame in 0..number(frames) {
        for v in (0..n).flat_map(|s| row(all, n, frame, s)) {
            out.write_all(&v.to_le_bytes())?;
        }
    }
    out.flush()
}
