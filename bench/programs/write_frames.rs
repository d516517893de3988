//! write_frames in plain Rust, over the writer that changes its state in place: it reads and answers as the proved program does, without the words on a refused setup and without --pointer.
#![allow(dead_code)] // the writer's files have a benchmark's calls too

#[path = "../writer/inplace.rs"]
mod inplace;
#[path = "../panel.rs"]
mod panel;
#[path = "../writer/state.rs"]
mod state;
mod stream;
#[path = "../writer/version.rs"]
mod version;

#[cfg(not(typed))]
use inplace::InPlace as Kept;
#[cfg(typed)]
use inplace::Typed as Kept;
use panel::{MOST_EVENTS, PER_SLOT, RECORDS};
use state::State;
use std::io;
use std::process::ExitCode;
use stream::{some, Output, PAGE};
use version::Writer;

/// The most bytes that a frame's events take.
const ROOM: usize = 8 * MOST_EVENTS;
/// SYN_DROPPED.
const LOSS: [u8; 8] = [0, 0, 3, 0, 0, 0, 0, 0];

struct Sending {
    state: State,
    out: Output,
    numbers: [i32; PER_SLOT * RECORDS],
    /// The number of the frame that comes next, from 1.
    frame: u64,
    refused: bool,
}

impl Sending {
    /// A frame from its bytes, and fewer where the input ended inside it.
    fn send(&mut self, bytes: &[u8]) -> io::Result<()> {
        let each = bytes.chunks_exact(4);
        let numbers = &mut self.numbers[..each.len()];
        for (number, bytes) in numbers.iter_mut().zip(each) {
            *number = i32::from_le_bytes([bytes[0], bytes[1], bytes[2], bytes[3]]);
        }
        self.out.roomy(ROOM)?;
        match Kept::write(&mut self.state, numbers, &mut self.out.page, self.out.held) {
            Ok(sent) => self.out.held += 8 * sent.count,
            Err(refused) => {
                eprintln!("frame {} refused {}", self.frame, refused.number);
                self.refused = true;
            }
        }
        self.frame += 1;
        Ok(())
    }
}

/// Whether all was accepted.
fn run() -> io::Result<bool> {
    let mut input = stream::input()?;
    let Some((setup, head)) = stream::setup(&mut input)? else {
        eprintln!("refused 1");
        return Ok(false);
    };
    let Some(state) = State::fresh(setup, false) else {
        return Ok(false);
    };
    let mut sending =
        Sending { state, out: Output::new()?, numbers: [0; PER_SLOT * RECORDS], frame: 1, refused: false };
    sending.out.say(&head)?;
    sending.out.flush()?;
    let want = 4 * PER_SLOT * setup.n as usize;
    let mut buf = vec![0; PAGE];
    let mut held = 0;
    loop {
        let n = some(&mut input, &mut buf[held..])?;
        if n == 0 {
            break;
        }
        let bytes = &buf[..held + n];
        let frames = bytes.chunks_exact(want);
        let rest = frames.remainder().len();
        for frame in frames {
            sending.send(frame)?;
        }
        let end = held + n;
        buf.copy_within(end - rest..end, 0);
        held = rest;
        sending.out.flush()?;
    }
    if held != 0 {
        sending.send(&buf[..held])?;
        sending.out.say(&LOSS)?;
        eprintln!("write_frames: input was lost, so SYN_DROPPED was sent");
    }
    sending.out.flush()?;
    Ok(!sending.refused)
}

fn main() -> ExitCode {
    match run() {
        Ok(true) => ExitCode::SUCCESS,
        Ok(false) => ExitCode::from(1),
        Err(e) => {
            eprintln!("write_frames: a stream failed: {e}");
            ExitCode::from(2)
        }
    }
}
