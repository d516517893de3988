//! Whether both versions answer a type A frame the same: the state's 844 bytes, the verdict, every number of the answer, every byte of the buffer; and the pairing alone.

use crate::calls::{agreed, Noise, Verdicts};
use crate::loads::{self, contact, record, Pair, LOADS};
use crate::measure::SIZES;
use crate::pairing::MOST;
use crate::panel::{Setup, Slot, RECORDS};
use crate::state::State;
use crate::version::Answer;
use crate::{ROOM, UNTOLD, VERSIONS};

const RANDOM_CALLS: usize = 20_000;

/// A call of `write`: what goes in, and what has come out.
#[derive(Clone, PartialEq, Debug)]
struct Call {
    state: State,
    bytes: Vec<u8>,
    buf: Vec<u8>,
    at: usize,
}

/// The verdict and what came out, the same of both versions. What is refused comes out as it went in, with zeros.
fn write(call: &Call, verdicts: &mut Verdicts) -> Result<(u64, Call), String> {
    let answers = VERSIONS.each_ref().map(|version| {
        let (mut out, mut answer) = (call.clone(), UNTOLD);
        let verdict = (version.write)(&mut out.state, &call.bytes, &mut out.buf, call.at, &mut answer);
        (version.name, (verdict, answer, out))
    });
    let (verdict, answer, out) = agreed(call, answers)?;
    let need = if verdict == 5 { answer.need } else { 0 };
    if verdict != 0 && (out != *call || answer != (Answer { count: 0, changed: 0, need })) {
        return Err(format!("refused by {verdict}, and something moved: {call:?}"));
    }
    verdicts.note(verdict)?;
    Ok((verdict, out))
}

fn paired(pair: &Pair) -> Result<[u8; RECORDS], String> {
    let answers = VERSIONS.each_ref().map(|version| {
        let mut out = [77; RECORDS];
        (version.pair)(pair, &mut out);
        (version.name, out)
    });
    agreed(pair, answers)
}

fn judged(call: &Call, number: u64, verdicts: &mut Verdicts) -> Result<(), String> {
    let verdict = write(call, verdicts)?.0;
    if verdict != number {
        return Err(format!("refused by {verdict} and not by {number}: {call:?}"));
    }
    Ok(())
}

fn over_loads(verdicts: &mut Verdicts) -> Result<(), String> {
    for (n, load) in SIZES.iter().flat_map(|n| LOADS.map(|load| (*n, load))) {
        let pairs = loads::pairs(load, n);
        let mut state = loads::state(n, &pairs[0]);
        for pair in &pairs {
            paired(pair)?;
            if load == "full" {
                state = loads::state(n, pair);
            }
            let call = Call { state, bytes: loads::frame(pair), buf: vec![0xa5; ROOM + 40], at: 20 };
            let (verdict, out) = write(&call, verdicts)?;
            if verdict != 0 {
                return Err(format!("load {load}, n {n}: refused by {verdict}"));
            }
            state = out.state;
        }
    }
    Ok(())
}

/// What is done to a good call of four slots with four contacts that move, and the number that refuses it, or 0.
const CHANGED: [(u64, fn(&mut Call)); 34] = [
    (2, |c| c.state.setup.n = 0),
    (2, |c| c.state.setup.x = 32768),
    (2, |c| c.state.table[0].id = -2),
    (2, |c| c.state.table[1].x = 4001),
    (2, |c| c.state.table[0].id = c.state.table[3].id),
    (2, |c| c.state.table[RECORDS - 1].minor = 1),
    (2, |c| c.state.current = 4),
    (2, |c| c.state.counter = 65536),
    (2, |c| c.state.on = 2),
    (2, |c| c.state.ranks[3] = 1),
    (6, |c| c.bytes.push(0)),
    (6, |c| c.bytes.truncate(129)),
    (9, |c| put(c, 0, contact(1, 1, 1))),
    (9, |c| put(c, 17, contact(1, 1, 1))),
    (9, |c| put(c, 0, record(3, 0x35, 7).into_iter().chain(record(0, 2, 0)))),
    (10, |c| c.bytes.clear()),
    (10, |c| c.bytes.truncate(128)),
    (10, |c| c.bytes.truncate(120)),
    (10, |c| put(c, 17, record(0, 0, 0))),
    (10, |c| put(c, 17, record(0, 2, 0))),
    (10, |c| put(c, 17, record(3, 0x36, 5))),
    (10, |c| put(c, 16, record(3, 0x3a, 5))),
    (10, |c| put(c, 3, record(0, 3, 0))),
    (10, |c| drop(c.bytes.drain(8..16))),
    (4, |c| put(c, 3, record(3, 0x35, 4001))),
    (4, |c| put(c, 3, record(3, 0x36, -1))),
    (4, |c| put(c, 3, record(3, 0x3a, 0))),
    (4, |c| put(c, 15, record(3, 0x3a, 256))),
    (5, |c| c.at = c.buf.len() + 1),
    (5, |c| c.at = usize::MAX),
    (5, |c| c.buf.truncate(c.at + 95)),
    (0, |c| put(c, 0, record(0, 2, 0))),
    (0, |c| put(c, 17, record(3, 0x39, 5))),
    (0, |c| put(c, 0, record(3, 0x35, -7))),
];

/// Puts records before the record k.
fn put(call: &mut Call, k: usize, records: impl IntoIterator<Item = u8>) {
    call.bytes.splice(8 * k..8 * k, records);
}

fn over_refusals(verdicts: &mut Verdicts) -> Result<(), String> {
    let pair = &loads::pairs("move", 4)[0];
    for (number, change) in CHANGED {
        let (state, bytes) = (loads::state(4, pair), loads::frame(pair));
        let mut call = Call { state, bytes, buf: vec![0xa5; ROOM], at: 20 };
        change(&mut call);
        judged(&call, number, verdicts)?;
    }
    Ok(())
}

/// A state with any of its slots in contact, and K6's option off or on. Small ranges, so that many pairings are as dear.
fn random_state(noise: &mut Noise) -> State {
    let n = 1 + noise.below(RECORDS as u32);
    let top = noise.pick(&[1, 3, 9, 32767]);
    let setup = Setup { n, x: top, y: top, pressure: 1 + noise.below(3), major: 1, minor: 1 };
    let mut state = State::fresh(setup, noise.one_in(2)).expect("a good setup");
    state.counter = noise.pick(&[0, 7, 65_500, 65_535]);
    let rare = noise.pick(&[1, 2, 8]);
    let mut row = |_| {
        let (x, y) = (noise.below(top + 1), noise.below(top + 1));
        [u32::from(noise.one_in(rare)), x, y, 1, noise.below(2), noise.below(2)].map(|v| v as i32)
    };
    let frame: Vec<i32> = (0..n).flat_map(&mut row).collect();
    let landed = state.write::<false>(&frame, &mut [0; ROOM], 0);
    assert!(landed.is_ok(), "a frame of good numbers was refused");
    state
}

/// A frame with good numbers for the most part, some told twice or not at all, and records that tell nothing.
fn random_call(state: State, noise: &mut Noise) -> Call {
    let Setup { n, x, y, pressure, .. } = state.setup;
    let most = n.min(MOST as u32) + u32::from(noise.one_in(16));
    let mut bytes = Vec::new();
    for _ in 0..noise.below(most + 1) {
        bytes.extend(contact(noise.below(x + 1) as i32, noise.below(y + 1) as i32, 1 + noise.below(pressure) as i32));
    }
    bytes.extend(record(0, 0, 0));
    let size = if noise.one_in(8) { noise.below(60) } else { ROOM as u32 + 40 };
    let mut call = Call { state, bytes, buf: vec![0xa5; size as usize], at: noise.below(41) as usize };
    for _ in 0..noise.pick(&[0, 0, 0, 1, 2]) {
        let k = noise.below(call.bytes.len() as u32 / 8 + 1) as usize;
        let (kind, code) = noise.pick(&[(0, 0), (0, 2), (0, 3), (3, 0x35), (3, 0x36), (3, 0x3a), (3, 0x39), (4, 4)]);
        put(&mut call, k, record(kind, code, noise.below(4) as i32 - 1));
    }
    if noise.one_in(16) {
        call.bytes.truncate(noise.below(call.bytes.len() as u32) as usize);
    }
    if noise.one_in(16) {
        let slot: &mut Slot = &mut call.state.table[noise.below(n) as usize];
        slot.id = noise.pick(&[-2, -1, 0, 7, 65_536]);
    }
    call
}

fn over_noise(noise: &mut Noise, verdicts: &mut Verdicts) -> Result<(), String> {
    let mut state = random_state(noise);
    for k in 0..RANDOM_CALLS {
        if k % 4 == 0 {
            state = random_state(noise);
        }
        let (verdict, out) = write(&random_call(state, noise), verdicts)?;
        if verdict == 0 {
            state = out.state;
        }
    }
    Ok(())
}

fn over_pairs(noise: &mut Noise) -> Result<(), String> {
    for _ in 0..RANDOM_CALLS {
        let top = noise.pick(&[2, 4, 100, 32768]);
        let old = [(); 2].map(|_| [(); RECORDS].map(|_| noise.below(top)));
        let new = [(); 2].map(|_| [(); MOST].map(|_| noise.below(top)));
        let (olds, news) = (noise.below(RECORDS as u32 + 1) as usize, noise.below(MOST as u32 + 1) as usize);
        paired(&Pair { old, olds, new, news })?;
    }
    Ok(())
}

pub fn all() -> Result<String, String> {
    let mut verdicts = Verdicts::default();
    let mut noise = Noise(2026);
    over_loads(&mut verdicts)?;
    over_refusals(&mut verdicts)?;
    over_noise(&mut noise, &mut verdicts)?;
    over_pairs(&mut noise)?;
    Ok(format!("{}; {RANDOM_CALLS} pairings by themselves too", verdicts.told(&[2, 4, 5, 6, 9, 10])?))
}
