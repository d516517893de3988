//! Whether all versions of the writer answer the same: the state's 848 bytes, the verdict, every number of the answer and every byte of the buffer.

use crate::calls::{agreed, Noise, Verdicts};
use crate::loads::{frames, landing, parts, setup, LOADS};
use crate::measure::SIZES;
use crate::panel::{Setup, PER_SLOT, RECORDS};
use crate::state::{Display, State, BLANK};
use crate::version::Answer;
use crate::{ROOM, UNTOLD, VERSIONS};

const RANDOM_CALLS: usize = 20_000;

/// A call of `write`: what goes in, and what has come out.
#[derive(Clone, PartialEq, Debug)]
struct Call {
    state: State,
    frame: Vec<i32>,
    buf: Vec<u8>,
    at: usize,
}

fn fresh(given: [u32; 6], pointer: bool, verdicts: &mut Verdicts) -> Result<State, String> {
    let [n, x, y, pressure, major, minor] = given;
    let answers = VERSIONS.each_ref().map(|version| {
        let mut state = State { current: 77, ..BLANK };
        let verdict = version.fresh(&mut state, Setup { n, x, y, pressure, major, minor }, pointer);
        (version.name, (verdict, state))
    });
    let (verdict, state) = agreed(&(given, pointer), answers)?;
    verdicts.note(verdict)?;
    Ok(state)
}

/// The verdict and what came out, the same of every version. What is refused comes out as it went in, with zeros.
fn write(call: &Call, verdicts: &mut Verdicts) -> Result<(u64, Call), String> {
    let answers = VERSIONS.iter().map(|version| {
        let (mut out, mut answer) = (call.clone(), UNTOLD);
        let verdict = version.write(&mut out.state, &call.frame, &mut out.buf, call.at, &mut answer);
        (version.name, (verdict, answer, out))
    });
    let (verdict, answer, out) = agreed(call, answers)?;
    let need = if verdict == 5 { answer.need } else { 0 };
    if verdict != 0 && (out != *call || answer != (Answer { count: 0, need, changed: 0 })) {
        return Err(format!("refused by {verdict}, and something moved: {call:?}"));
    }
    verdicts.note(verdict)?;
    Ok((verdict, out))
}

fn over_loads(verdicts: &mut Verdicts) -> Result<(), String> {
    for (n, load) in SIZES.iter().flat_map(|n| LOADS.map(|load| (*n, load))) {
        let Setup { x, y, pressure, major, minor, .. } = setup(n);
        let state = fresh([n, x, y, pressure, major, minor], parts(load).1, verdicts)?;
        let mut call = Call { state, frame: landing(n), buf: vec![0xa5; ROOM + 40], at: 20 };
        for frame in frames(load, n).into_iter().chain([vec![]]) {
            let (verdict, out) = write(&call, verdicts)?;
            if verdict != 0 {
                return Err(format!("load {load}, n {n}: refused by {verdict}"));
            }
            call = Call { frame, ..out };
        }
    }
    Ok(())
}

/// Setups that are out of a range.
const BAD_SETUPS: [[u32; 6]; 12] = [
    [0, 1, 1, 1, 1, 1],
    [RECORDS as u32 + 1, 1, 1, 1, 1, 1],
    [1, 0, 1, 1, 1, 1],
    [1, 32768, 1, 1, 1, 1],
    [1, 1, 0, 1, 1, 1],
    [1, 1, 32768, 1, 1, 1],
    [1, 1, 1, 0, 1, 1],
    [1, 1, 1, 256, 1, 1],
    [1, 1, 1, 1, 0, 1],
    [1, 1, 1, 1, 256, 1],
    [1, 1, 1, 1, 1, 0],
    [1, 1, 1, 1, 1, 256],
];

/// What is done to a good call of four slots in contact, and the number that refuses it.
const BROKEN: [(u64, fn(&mut Call)); 34] = [
    (2, |c| c.state.setup.n = 0),
    (2, |c| c.state.setup.n = RECORDS as u32 + 1),
    (2, |c| c.state.setup.x = 32768),
    (2, |c| c.state.setup.y = 0),
    (2, |c| c.state.setup.pressure = 256),
    (2, |c| c.state.setup.minor = 256),
    (2, |c| c.state.table[0].id = -2),
    (2, |c| c.state.table[0].id = 65536),
    (2, |c| c.state.table[1].x = 4001),
    (2, |c| c.state.table[2].y = u32::MAX),
    (2, |c| c.state.table[3].pressure = 256),
    (2, |c| c.state.table[3].major = 256),
    (2, |c| c.state.table[4].id = 9),
    (2, |c| c.state.table[RECORDS - 1].minor = 1),
    (2, |c| c.state.table[0].id = c.state.table[3].id),
    (2, |c| c.state.current = 4),
    (2, |c| c.state.counter = 65536),
    (3, |c| c.frame.clear()),
    (3, |c| c.frame.push(0)),
    (3, |c| c.frame.truncate(18)),
    (4, |c| c.frame[0] = 3),
    (4, |c| c.frame[18] = -1),
    (4, |c| c.frame[1] = -1),
    (4, |c| c.frame[7] = 4001),
    (4, |c| c.frame[2] = i32::MIN),
    (4, |c| c.frame[8] = 4001),
    (4, |c| c.frame[21] = 256),
    (4, |c| c.frame[22] = 256),
    (4, |c| c.frame[23] = -1),
    (4, |c| c.frame[3] = 0),
    (5, |c| c.at = c.buf.len() + 1),
    (5, |c| c.at = usize::MAX),
    (5, |c| c.buf.truncate(c.at + 39)),
    (5, |c| c.buf.truncate(c.at + 55)),
];

/// What is done to a state of four slots in contact with K6's option off: all is refused by 2.
const NOT_OFF: [fn(&mut State); 9] = [
    |s| s.on = 1,
    |s| s.on = 2,
    |s| s.touch = 1,
    |s| s.tool = 0x14f,
    |s| s.x = 1,
    |s| s.y = 1 << 31,
    |s| s.ranks[0] = 1,
    |s| s.ranks[3] = 255,
    |s| s.ranks[RECORDS - 1] = 1,
];

/// The same with the option on: slot 0 leads, at 100 and 200, and all ranks are 0.
const NOT_ON: [fn(&mut State); 21] = [
    |s| s.on = 0,
    |s| s.on = 3,
    |s| s.touch = 0,
    |s| s.touch = 2,
    |s| s.tool = 0,
    |s| s.tool = 0x14e,
    |s| s.tool = 0x148,
    |s| s.x = 101,
    |s| s.y = 0,
    |s| s.ranks[0] = 1,
    |s| s.ranks[1] = 2,
    |s| s.ranks[1] = RECORDS as u8,
    |s| s.ranks[2] = 255,
    |s| s.ranks[3] = RECORDS as u8 - 1,
    |s| s.ranks[4] = 1,
    |s| s.ranks[RECORDS - 1] = 1,
    |s| s.ranks[..4].copy_from_slice(&[1, 2, 1, 2]),
    |s| s.ranks[..4].copy_from_slice(&[0, 1, 3, 1]),
    |s| s.table[0].x = 101,
    |s| s.table[0].id = -1,
    |s| s.table[3].id = -1,
];

/// The same, all good: later ranks, and other contacts that lead. With no contact the display keeps any place in range.
const STILL_ON: [fn(&mut State); 6] = [
    |s| s.ranks[1..4].copy_from_slice(&[1, 1, 0]),
    |s| s.ranks[1..4].copy_from_slice(&[3, 2, 1]),
    |s| lead(s, 3, [2, 1, 1, 0]),
    |s| lead(s, 1, [1, 0, 1, 0]),
    |s| leave(s, 4000, 0),
    |s| leave(s, 7, 4000),
];

/// With no contact a place out of range, or a display that shows one.
const NOT_LEFT: [fn(&mut State); 6] = [
    |s| leave(s, 4001, 0),
    |s| leave(s, 0, u32::MAX),
    |s| s.table.iter_mut().for_each(|slot| slot.id = -1),
    |s| {
        leave(s, 1, 1);
        s.touch = 1;
    },
    |s| {
        leave(s, 1, 1);
        s.tool = 0x145;
    },
    |s| {
        leave(s, 1, 1);
        s.ranks[2] = 1;
    },
];

fn lead(state: &mut State, s: usize, ranks: [u8; 4]) {
    state.ranks[..4].copy_from_slice(&ranks);
    (state.x, state.y) = (state.table[s].x, state.table[s].y);
}

fn leave(state: &mut State, x: u32, y: u32) {
    state.table.iter_mut().for_each(|slot| slot.id = -1);
    state.show(Display { x, y, ..Display::OFF });
}

/// Four slots in contact, and a frame that moves slot 0 and replaces slot 3.
fn landed(pointer: bool, verdicts: &mut Verdicts) -> Result<Call, String> {
    let (frame, buf) = (landing(4), vec![0xa5; ROOM]);
    let mut call =
        write(&Call { state: State::fresh(setup(4), pointer).unwrap_or(BLANK), frame, buf, at: 20 }, verdicts)?.1;
    call.frame[1..6].copy_from_slice(&[7, 7, 7, 7, 7]);
    call.frame[18] = 2;
    Ok(call)
}

fn judged(call: &Call, number: u64, verdicts: &mut Verdicts) -> Result<(), String> {
    let verdict = write(call, verdicts)?.0;
    if verdict != number {
        return Err(format!("refused by {verdict} and not by {number}: {call:?}"));
    }
    Ok(())
}

fn over_refusals(verdicts: &mut Verdicts) -> Result<(), String> {
    for pointer in [false, true] {
        for given in BAD_SETUPS {
            fresh(given, pointer, verdicts)?;
        }
        for (number, damage) in BROKEN {
            let mut call = landed(pointer, verdicts)?;
            damage(&mut call);
            judged(&call, number, verdicts)?;
        }
    }
    Ok(())
}

/// States with K6's numbers, good and not.
fn over_pointing(verdicts: &mut Verdicts) -> Result<(), String> {
    let changed = |pointer, number, changes: &[fn(&mut State)], verdicts: &mut Verdicts| {
        changes.iter().try_for_each(|change| {
            let mut call = landed(pointer, verdicts)?;
            change(&mut call.state);
            judged(&call, number, verdicts)
        })
    };
    changed(false, 2, &NOT_OFF, verdicts)?;
    changed(true, 2, &NOT_ON, verdicts)?;
    changed(true, 2, &NOT_LEFT, verdicts)?;
    changed(true, 0, &STILL_ON, verdicts)
}

/// A call with good numbers for the most part.
fn random_call(state: State, noise: &mut Noise) -> Call {
    let Setup { n, x, y, pressure, major, minor } = state.setup;
    let row = |_| {
        let (x, y) = (noise.below(x + 1), noise.below(y + 1));
        [noise.below(3), x, y, 1 + noise.below(pressure), noise.below(major + 1), noise.below(minor + 1)]
    };
    let mut frame: Vec<i32> = (0..n).flat_map(row).map(|v| v as i32).collect();
    if noise.one_in(8) {
        let at = noise.below(PER_SLOT as u32 * n) as usize;
        frame[at] = noise.pick(&[-1, 0, 3, 70_000, i32::MIN]);
    }
    let size = if noise.one_in(8) { noise.below(60) } else { ROOM as u32 + 40 };
    let mut call = Call { state, frame, buf: vec![0xa5; size as usize], at: noise.below(41) as usize };
    if noise.one_in(16) {
        noise.pick(&BROKEN[..14]).1(&mut call);
    }
    if noise.one_in(16) {
        noise.pick(&NOT_ON[..16])(&mut call.state);
    }
    if noise.one_in(16) {
        let s = noise.below(n) as usize;
        call.state.ranks[s] = noise.below(4) as u8;
    }
    call
}

fn over_noise(verdicts: &mut Verdicts) -> Result<(), String> {
    let mut noise = Noise(2026);
    let mut state = BLANK;
    for k in 0..RANDOM_CALLS {
        if k % 50 == 0 {
            // Small ranges, so that numbers often stay; a counter that is about to wrap.
            let n = 1 + noise.below(RECORDS as u32);
            let given =
                [n, 1 + noise.below(5), 1 + noise.below(5), 1 + noise.below(3), 1 + noise.below(3), 1 + noise.below(3)];
            state = fresh(given, noise.one_in(2), verdicts)?;
            state.counter = noise.pick(&[0, 7, 65_500, 65_535]);
        }
        let (verdict, out) = write(&random_call(state, &mut noise), verdicts)?;
        if verdict == 0 {
            state = out.state;
        }
    }
    Ok(())
}

pub fn all() -> Result<String, String> {
    let mut verdicts = Verdicts::default();
    over_loads(&mut verdicts)?;
    over_refusals(&mut verdicts)?;
    over_pointing(&mut verdicts)?;
    over_noise(&mut verdicts)?;
    verdicts.told(&[1, 2, 3, 4, 5])
}
