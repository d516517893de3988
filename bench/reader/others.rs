//! The reader's benchmark, two more versions: Rust that never judges its state and tests ids late, and the second program. A program of their own: with one caller more the compiler would lay out the in-place version otherwise.

#[path = "../calls.rs"]
#[allow(dead_code)]
mod calls;
mod inplace;
#[allow(dead_code)]
mod loads;
#[path = "../measure.rs"]
mod measure;
#[path = "../panel.rs"]
mod panel;
#[allow(dead_code)]
mod state;
#[allow(dead_code)]
mod version;

use calls::agreed;
use second::reader::{Asked, Ran, Reader};
use second::table::{Layout, Setup, SlotNumber};
use state::{Counts, State, Told, CONTACT};
use std::hint::black_box;
use version::{in_rust, Version};

static TYPED: Version = in_rust::<inplace::Typed>("typed");

const NAMES: [&str; 2] = ["typed", "second"];

/// A version's reader; what it shows of a slot is asked for the comparison alone.
trait Host {
    fn run(&mut self, records: &[u8]) -> u64;
    fn contact(&self, slot: usize) -> Option<[i64; 6]>;
}

struct Typed(measure::Held<(State, Counts)>);

impl Host for Typed {
    fn run(&mut self, records: &[u8]) -> u64 {
        let (state, counts) = &mut self.0 .0;
        TYPED.run(state, records, counts);
        counts.shown
    }

    fn contact(&self, slot: usize) -> Option<[i64; 6]> {
        let mut told = Told { kind: 0, slot: panel::ZERO };
        TYPED.ask(&self.0 .0 .0, slot, &mut told);
        let s = told.slot;
        let numbers = [s.id.into(), s.x.into(), s.y.into(), s.pressure.into(), s.major.into(), s.minor.into()];
        (told.kind == CONTACT).then_some(numbers)
    }
}

impl Host for Reader {
    fn run(&mut self, records: &[u8]) -> u64 {
        Reader::run(self, records).map_or(0, |ran: Ran| ran.shown)
    }

    fn contact(&self, slot: usize) -> Option<[i64; 6]> {
        match self.ask(SlotNumber(slot as u64)) {
            Ok(Asked::Contact(s)) => {
                let [x, y, pressure, major, minor] = s.numbers.map(i64::from);
                Some([s.id.0.into(), x, y, pressure, major, minor])
            }
            _ => None,
        }
    }
}

/// A version's reader with every slot in contact.
fn landed(version: &str, n: u32) -> Box<dyn Host> {
    let start = loads::start(n);
    if version == "typed" {
        return Box::new(Typed(measure::Held((start, Counts::default()))));
    }
    let panel::Setup { x, y, pressure, major, minor, .. } = start.setup;
    let setup = Setup { slots: n.into(), largest: [x, y, pressure, major, minor] };
    let mut reader = Reader::fresh(Layout::Panel, setup).expect("a good setup");
    let record = |code, value: u32| loads::record(3, code, value);
    let landing = start.shown.iter().take(n as usize).enumerate().flat_map(|(s, slot)| {
        let numbers = [(0x35, slot.x), (0x36, slot.y), (0x3a, slot.pressure), (0x30, slot.major), (0x31, slot.minor)];
        let opened = [record(0x2f, s as u32), record(0x39, slot.id as u32)];
        opened.into_iter().chain(numbers.map(|(code, value)| record(code, value)))
    });
    // The current slot is 0 again behind the report, as in the state that the others start from.
    let records: Vec<[u8; 8]> = landing.chain([loads::record(0, 0, 0), record(0x2f, 0)]).collect();
    Host::run(&mut reader, &records.concat());
    Box::new(reader)
}

fn pass(version: &str, load: &str, n: u32) -> Box<dyn FnMut()> {
    let calls = loads::calls(load, n);
    let mut host = landed(version, n);
    Box::new(move || {
        for records in &calls {
            black_box(host.run(black_box(records)));
        }
    })
}

/// Reports counted and every slot's contact, after each call of every load; the first program compares the same records with the library.
fn compare() -> Result<String, String> {
    let mut calls = 0;
    for (n, load) in measure::SIZES.iter().flat_map(|n| loads::LOADS.map(|load| (*n, load))) {
        let mut hosts = NAMES.map(|version| (version, landed(version, n)));
        for records in loads::calls(load, n) {
            let answers = hosts.iter_mut().map(|(name, host)| {
                let shown = host.run(&records);
                (*name, (shown, (0..n as usize).map(|slot| host.contact(slot)).collect::<Vec<_>>()))
            });
            agreed(&load, answers.collect::<Vec<_>>())?;
            calls += 1;
        }
    }
    Ok(format!("compared: {calls} calls, every answer the same"))
}

fn main() {
    measure::Bench { versions: NAMES.to_vec(), loads: &loads::LOADS, calls: 1, things: loads::things, pass, compare }
        .main();
}
