//! The writer's benchmark, two more versions: Rust that never judges its state, and the second program. A program of their own: with one caller more the compiler would lay out the in-place version otherwise.

#[path = "../calls.rs"]
#[allow(dead_code)]
mod calls;
mod inplace;
mod loads;
#[path = "../measure.rs"]
mod measure;
#[path = "../panel.rs"]
mod panel;
#[allow(dead_code)]
mod state;
#[allow(dead_code)]
mod version;

use calls::agreed;
use panel::MOST_EVENTS;
use second::table::Setup;
use second::writer::Writer;
use state::BLANK;
use std::hint::black_box;
use version::{in_rust, Answer, Version};

static TYPED: Version = in_rust::<inplace::Typed>("typed");

const NAMES: [&str; 2] = ["typed", "second"];
/// The most bytes that a frame can need, with the four events that K6's display can be told.
const ROOM: usize = 8 * (MOST_EVENTS + 4);

/// A version's call on the next frame; what it answered lies in its own buffer.
trait Host {
    fn write(&mut self, frame: &[i32]) -> Answer;
    fn buffer(&self) -> &[u8];
}

struct Typed(measure::Held<(state::State, Answer, [u8; ROOM])>);

impl Host for Typed {
    fn write(&mut self, frame: &[i32]) -> Answer {
        let (state, answer, buf) = &mut self.0 .0;
        TYPED.write(state, frame, buf, 0, answer);
        *answer
    }

    fn buffer(&self) -> &[u8] {
        &self.0 .0 .2
    }
}

struct Second(Writer, [u8; ROOM]);

impl Host for Second {
    fn write(&mut self, frame: &[i32]) -> Answer {
        match self.0.write(frame, &mut self.1, 0) {
            Ok(written) => Answer { count: written.events.into(), need: 0, changed: written.changed.into() },
            Err(refusal) => Answer { count: 0, need: refusal.need(), changed: 0 },
        }
    }

    fn buffer(&self) -> &[u8] {
        &self.1
    }
}

/// A version's writer with every slot in contact.
fn landed(version: &str, load: &str, n: u32) -> Box<dyn Host> {
    let (setup, pointer) = (loads::setup(n), loads::parts(load).1);
    let mut host: Box<dyn Host> = if version == "typed" {
        let mut typed = Typed(measure::Held((BLANK, Answer { count: 0, need: 0, changed: 0 }, [0; ROOM])));
        TYPED.fresh(&mut typed.0 .0 .0, setup, pointer);
        Box::new(typed)
    } else {
        let largest = [setup.x, setup.y, setup.pressure, setup.major, setup.minor];
        let setup = Setup { slots: n.into(), largest };
        Box::new(Second(Writer::fresh(setup, pointer).expect("a good setup"), [0; ROOM]))
    };
    host.write(&loads::landing(n));
    host
}

fn pass(version: &str, load: &str, n: u32) -> Box<dyn FnMut()> {
    let frames = loads::frames(load, n);
    let mut host = landed(version, load, n);
    Box::new(move || {
        for frame in &frames {
            black_box(host.write(black_box(frame)));
        }
    })
}

/// Whole answers on every load; the first program compares the same frames with the library.
fn compare() -> Result<String, String> {
    let mut frames = 0;
    for (n, load) in measure::SIZES.iter().flat_map(|n| loads::LOADS.map(|load| (*n, load))) {
        let mut hosts = NAMES.map(|version| (version, landed(version, load, n)));
        for frame in loads::frames(load, n) {
            let answers = hosts.iter_mut().map(|(name, host)| {
                let answer = host.write(&frame);
                (*name, (answer, host.buffer()[..8 * answer.count as usize].to_vec()))
            });
            agreed(&frame, answers.collect::<Vec<_>>())?;
            frames += 1;
        }
    }
    Ok(format!("compared: {frames} frames, every answer the same"))
}

fn main() {
    let versions = NAMES.to_vec();
    measure::Bench {
        versions,
        loads: &loads::LOADS,
        calls: loads::FRAMES as u32,
        things: loads::things,
        pass,
        compare,
    }
    .main();
}
