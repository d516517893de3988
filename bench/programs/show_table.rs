//! show_table in plain Rust, over the reader that changes its state in place and tests ids only after one came: it reads and shows as the proved program does, without the words on a refused setup.
#![allow(dead_code)] // the reader's files have a benchmark's calls too

#[path = "../reader/inplace.rs"]
mod inplace;
#[path = "../reader/loads.rs"]
mod loads;
#[path = "../panel.rs"]
mod panel;
#[path = "../reader/state.rs"]
mod state;
mod stream;
#[path = "../reader/version.rs"]
mod version;

use inplace::InPlace;
use panel::Slot;
use state::{Counts, State, FOLLOWING};
use std::fs::File;
use std::io::{self, Write};
use std::process::ExitCode;
use stream::{some, Output, PAGE};
use version::Reader;

const RECORD: usize = 8;

/// How many records were read while following, and how many of them were skipped, for a hint.
#[derive(Default)]
struct Tally {
    followed: u64,
    skipped: u64,
}

impl Tally {
    fn add(&mut self, records: usize, counts: &Counts) {
        self.followed += records as u64 - counts.ignored;
        self.skipped += counts.types + counts.codes;
    }

    /// Three fifths of them or more, of three or more.
    fn most_skipped(&self) -> bool {
        self.followed >= 3 && 5 * self.skipped >= 3 * self.followed
    }
}

/// Reads to the end of the input: what was counted, and how many bytes of a cut record are left.
fn read(input: &mut File, state: &mut State) -> io::Result<(Tally, usize)> {
    let mut tally = Tally::default();
    let mut buf = vec![0; PAGE];
    let mut held = 0;
    loop {
        let n = some(input, &mut buf[held..])?;
        if n == 0 {
            return Ok((tally, held));
        }
        let end = held + n;
        let whole = end - end % RECORD;
        let counts = InPlace::<true>::run(state, &buf[..whole]).expect("whole records, and a state that was fresh");
        tally.add(whole / RECORD, &counts);
        buf.copy_within(whole..end, 0);
        held = end - whole;
    }
}

fn show(state: &State, out: &mut impl Write) -> io::Result<()> {
    let mode = ["following", "dropped", "stale"][state.mode as usize];
    writeln!(out, "{mode} {}", state.current)?;
    if state.mode != FOLLOWING {
        return Ok(());
    }
    for (s, slot) in state.shown[..state.setup.n as usize].iter().enumerate() {
        let Slot { id, x, y, pressure, major, minor } = slot;
        writeln!(out, "{s} {id} {x} {y} {pressure} {major} {minor}")?;
    }
    Ok(())
}

/// Whether all was accepted.
fn run() -> io::Result<bool> {
    let mut input = stream::input()?;
    let mut out = Output::new()?;
    let fresh = stream::setup(&mut input)?.and_then(|(setup, _)| State::fresh(setup));
    let Some(mut state) = fresh else {
        out.say(b"refused 1\n")?;
        out.flush()?;
        return Ok(false);
    };
    let (tally, rest) = read(&mut input, &mut state)?;
    if rest != 0 {
        out.say(b"refused 6\n")?;
        out.flush()?;
        eprintln!("show_table: the last record is cut: {rest} of 8 bytes");
        return Ok(false);
    }
    if tally.most_skipped() {
        eprintln!("show_table: most records were skipped: Linux's struct input_event has 24 bytes, and only the last 8 are a record here");
    }
    let mut lines = Vec::new();
    show(&state, &mut lines)?;
    out.say(&lines)?;
    out.flush()?;
    Ok(true)
}

fn main() -> ExitCode {
    match run() {
        Ok(true) => ExitCode::SUCCESS,
        Ok(false) => ExitCode::from(1),
        Err(e) => {
            eprintln!("show_table: a stream failed: {e}");
            ExitCode::from(2)
        }
    }
}
