//! Anonymous panels: a whole type A frame written, and the pairing alone, in plain Rust that changes its state in place and in the proved library.

#[path = "../calls.rs"]
mod calls;
mod compare;
mod inplace;
mod loads;
#[path = "../measure.rs"]
mod measure;
mod packets;
mod pairing;
#[path = "../panel.rs"]
mod panel;
#[path = "../writer/state.rs"]
mod state;
#[path = "../writer/version.rs"]
#[allow(dead_code)] // the versions are others here
mod version;
#[path = "../writer/inplace.rs"]
mod writer;

use loads::Pair;
use panel::{MOST_EVENTS, RECORDS};
use state::State;
use std::hint::black_box;
use version::Answer;

type Numbers = [u8; RECORDS];

extern "C" {
    fn chandrulek_write_anonymous(
        state: *mut u8,
        size: usize,
        bytes: *const u8,
        len: usize,
        buf: *mut u8,
        room: usize,
        at: usize,
        answer: &mut Answer,
    ) -> u32;
    fn rattle_pair(
        ox: *const u32,
        oy: *const u32,
        olds: usize,
        nx: *const u32,
        ny: *const u32,
        news: usize,
        pairing: &mut Numbers,
    );
}

// SAFETY of both calls: the slices are whole, and the library reads and writes in them alone. The numbers of a pairing are those of contacts that were judged.
fn rattle_writes(state: &mut State, bytes: &[u8], buf: &mut [u8], at: usize, answer: &mut Answer) -> u64 {
    let (lent, size) = version::lent(state);
    let (from, to) = (bytes.as_ptr(), buf.as_mut_ptr());
    unsafe { chandrulek_write_anonymous(lent, size, from, bytes.len(), to, buf.len(), at, answer) as u64 }
}

fn rattle_pairs(pair: &Pair, out: &mut Numbers) {
    let Pair { old: [ox, oy], olds, new: [nx, ny], news } = pair;
    unsafe { rattle_pair(ox.as_ptr(), oy.as_ptr(), *olds, nx.as_ptr(), ny.as_ptr(), *news, out) }
}

fn rust_writes(state: &mut State, bytes: &[u8], buf: &mut [u8], at: usize, answer: &mut Answer) -> u64 {
    version::told(inplace::write(state, bytes, buf, at), answer)
}

fn rust_pairs(pair: &Pair, out: &mut Numbers) {
    *out = pairing::pair_up(&pair.old, pair.olds, &pair.new, pair.news);
}

/// What is called, and answers the verdict's number; and the pairing alone.
struct Version {
    name: &'static str,
    write: fn(&mut State, &[u8], &mut [u8], usize, &mut Answer) -> u64,
    pair: fn(&Pair, &mut Numbers),
}

static VERSIONS: [Version; 2] = [
    Version { name: "inplace", write: rust_writes, pair: rust_pairs },
    Version { name: "rattle", write: rattle_writes, pair: rattle_pairs },
];

/// What stands in the answer's place before a call, so that a number that is not told shows.
const UNTOLD: Answer = Answer { count: 77, need: 77, changed: 77 };
/// The most bytes that a frame can need, with the four events that K6's display can be told.
const ROOM: usize = 8 * (MOST_EVENTS + 4);

fn pass(version: &str, load: &str, n: u32) -> Box<dyn FnMut()> {
    let version = VERSIONS.iter().find(|v| v.name == version).expect("a version's name");
    let pairs = loads::pairs(load, n);
    if load.starts_with("pair_") {
        let mut held = measure::Held((pairs, [0; RECORDS]));
        return Box::new(move || {
            let (pairs, out) = &mut held.0;
            for pair in pairs {
                (version.pair)(black_box(pair), out);
                black_box(&mut *out);
            }
        });
    }
    let frames: Vec<_> = pairs.iter().map(|pair| (loads::state(n, pair), loads::frame(pair))).collect();
    let again = load == "full";
    let mut held = measure::Held((frames[0].0, UNTOLD, [0; ROOM]));
    Box::new(move || {
        let (state, answer, buf) = &mut held.0;
        for (before, frame) in &frames {
            if again {
                *state = *before;
            }
            let verdict = (version.write)(state, black_box(frame), buf, 0, answer);
            black_box((verdict, &mut *answer, &mut *buf));
        }
    })
}

fn main() {
    let versions = VERSIONS.iter().map(|v| v.name).collect();
    let bench = measure::Bench {
        versions,
        loads: &loads::LOADS,
        calls: loads::CALLS as u32,
        things: |_, _| loads::CALLS as u64,
        pass,
        compare: compare::all,
    };
    bench.main();
}
