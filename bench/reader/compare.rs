//! Whether all versions of the reader answer the same: the state's 1,568 bytes, the verdict, every count and all that is told of a slot.

use crate::calls::{agreed, Noise, Verdicts};
use crate::loads::{record, records, start, LOADS};
use crate::measure::SIZES;
use crate::panel::{Setup, Slot, PER_SLOT, RECORDS, ZERO};
use crate::state::{Counts, State, Told, DROPPED, STALE, UNKNOWN};
use crate::version::Version;
use crate::VERSIONS;

const RANDOM_CALLS: usize = 20_000;

#[derive(Clone, Debug)]
enum Call {
    Fresh([u32; 6]),
    Run(Vec<u8>),
    ReadOne(u16, u16, u32),
    Load(Vec<i32>, usize),
    Ask(usize),
}

#[derive(Clone, Copy, PartialEq, Debug)]
struct Answer {
    verdict: u64,
    state: State,
    counts: Counts,
    told: Told,
}

// What stands in an answer's place before a call that tells it, so that a number that is not told shows; and zeros.
const UNTOLD: (Counts, Told) =
    (Counts::all(77), Told { kind: 77, slot: Slot { id: 77, x: 77, y: 77, pressure: 77, major: 77, minor: 77 } });
const ZEROS: (Counts, Told) = (Counts::all(0), Told { kind: UNKNOWN, slot: ZERO });

fn answer_of(version: &Version, state: &State, call: &Call) -> Answer {
    let (mut state, mut counts, mut told) = (*state, ZEROS.0, ZEROS.1);
    let verdict = match call {
        &Call::Fresh([n, x, y, pressure, major, minor]) => {
            version.fresh(&mut state, Setup { n, x, y, pressure, major, minor })
        }
        Call::Run(bytes) => {
            counts = UNTOLD.0;
            version.run(&mut state, bytes, &mut counts)
        }
        &Call::ReadOne(kind, code, value) => {
            counts = UNTOLD.0;
            version.read_one(&mut state, kind, code, value, &mut counts)
        }
        Call::Load(image, current) => version.load(&mut state, image, *current),
        Call::Ask(slot) => {
            told = UNTOLD.1;
            version.ask(&state, *slot, &mut told)
        }
    };
    Answer { verdict, state, counts, told }
}

/// What every version answers. What is refused comes out as it went in, with zeros.
fn answer(state: &State, call: &Call, verdicts: &mut Verdicts) -> Result<Answer, String> {
    let answers = VERSIONS.iter().map(|version| (version.name, answer_of(version, state, call)));
    let answer = agreed(&(call, state), answers)?;
    let kept = Answer { verdict: answer.verdict, state: *state, counts: ZEROS.0, told: ZEROS.1 };
    if answer.verdict != 0 && answer != kept {
        return Err(format!("{call:?} is refused by {}, and something moved: {state:?}", answer.verdict));
    }
    verdicts.note(answer.verdict)?;
    Ok(answer)
}

/// A load's records in one run, and one by one, with what is told of a slot between them.
fn over_loads(verdicts: &mut Verdicts) -> Result<(), String> {
    for (n, load) in SIZES.iter().flat_map(|n| LOADS.map(|load| (*n, load))) {
        let bytes = records(load, n);
        let whole = answer(&start(n), &Call::Run(bytes.clone()), verdicts)?;
        let mut state = start(n);
        for (k, r) in bytes.chunks_exact(8).enumerate() {
            let (kind, code) = (u16::from_le_bytes([r[0], r[1]]), u16::from_le_bytes([r[2], r[3]]));
            let one = Call::ReadOne(kind, code, u32::from_le_bytes([r[4], r[5], r[6], r[7]]));
            state = answer(&state, &one, verdicts)?.state;
            answer(&state, &Call::Ask(k % (RECORDS + 1)), verdicts)?;
        }
        if whole.verdict != 0 || whole.state != state {
            return Err(format!("load {load}, n {n}: one run ends as {whole:?}, record by record as {state:?}"));
        }
    }
    Ok(())
}

/// What makes a state of four slots in contact not well formed.
const DAMAGE: [fn(&mut State); 21] = [
    |s| s.setup.n = 0,
    |s| s.setup.n = RECORDS as u32 + 1,
    |s| s.setup.x = 0,
    |s| s.setup.y = 32768,
    |s| s.setup.pressure = 256,
    |s| s.setup.major = 0,
    |s| s.setup.minor = 256,
    |s| s.shown[0].id = -2,
    |s| s.pending[0].id = 65536,
    |s| s.shown[1].x = 4001,
    |s| s.pending[1].x = u32::MAX,
    |s| s.shown[2].y = 4001,
    |s| s.pending[3].pressure = 256,
    |s| s.shown[3].minor = 256,
    |s| s.shown[4].id = 9,
    |s| s.pending[RECORDS - 1].pressure = 1,
    |s| s.shown[0].id = s.shown[3].id,
    |s| s.current = s.setup.n,
    |s| s.mode = 3,
    |s| (s.mode, s.pending[0].x) = (DROPPED, s.shown[0].x + 1),
    |s| (s.mode, s.shown[3].id) = (STALE, 77),
];

/// What is done to a good image of four slots, and its current slot, that makes it a bad one.
const BAD_IMAGE: [fn(&mut Vec<i32>, &mut usize); 13] = [
    |image, _| image.truncate(23),
    |image, _| image.push(0),
    |image, _| image.clear(),
    |image, _| image[0] = -2,
    |image, _| image[0] = 65536,
    |image, _| image[7] = -1,
    |image, _| image[7] = 4001,
    |image, _| image[14] = i32::MIN,
    |image, _| image[21] = 256,
    |image, _| image[22] = 256,
    |image, _| image[23] = -1,
    |image, _| image[0] = image[6],
    |_, current| *current = 4,
];

fn refused(number: u64, state: &State, call: Call, verdicts: &mut Verdicts) -> Result<(), String> {
    match answer(state, &call, verdicts)?.verdict {
        verdict if verdict == number => Ok(()),
        verdict => Err(format!("{call:?} of {state:?} is refused by {verdict} and not by {number}")),
    }
}

fn over_refusals(verdicts: &mut Verdicts) -> Result<(), String> {
    let good = start(4);
    let image = vec![5, 1, 2, 3, 4, 5, 6, 4, 5, 6, 7, 8, -1, 7, 8, 9, 10, 11, 7, 0, 0, 0, 0, 0];
    let bytes = records("one", 4);
    let bad = [0, RECORDS as u32 + 1, 0, 32768, 0, 32768, 0, 256, 0, 256, 0, 256];
    for (k, bad) in bad.into_iter().enumerate() {
        let mut given = [1; 6];
        given[k / 2] = bad;
        refused(1, &good, Call::Fresh(given), verdicts)?;
    }
    for damage in DAMAGE {
        let mut state = good;
        damage(&mut state);
        let calls = [Call::Run(bytes.clone()), Call::ReadOne(0, 0, 0), Call::Load(image.clone(), 0), Call::Ask(0)];
        calls.into_iter().try_for_each(|call| refused(2, &state, call, verdicts))?;
    }
    for length in [1, 7, 9] {
        refused(6, &good, Call::Run(bytes[..length].to_vec()), verdicts)?;
    }
    refused(7, &good, Call::Load(image.clone(), 0), verdicts)?;
    refused(7, &State { mode: DROPPED, ..good }, Call::Load(image.clone(), 0), verdicts)?;
    let stale = State { mode: STALE, ..good };
    refused(0, &stale, Call::Load(image.clone(), 3), verdicts)?;
    for spoil in BAD_IMAGE {
        let (mut bad, mut current) = (image.clone(), 0);
        spoil(&mut bad, &mut current);
        refused(8, &stale, Call::Load(bad, current), verdicts)?;
    }
    Ok(())
}

/// Records with good values for the most part, and few ids, so that they often repeat.
fn random_records(n: u32, noise: &mut Noise) -> Vec<u8> {
    let mut one = |_| {
        let edge = noise.pick(&[0, 4000, 4001, 65535, 65536, u32::MAX, 1 << 31]);
        let value = if noise.one_in(60) { edge } else { noise.below(2 * n) };
        match noise.below(40) {
            0 => record(0, 3, value),
            1 => record(noise.pick(&[0, 1, 3, 4]), noise.pick(&[0, 2, 0x32, 0xffff]), value),
            2..=9 => record(0, 0, value),
            10..=14 => record(3, 0x2f, value % n),
            15 => record(3, 0x39, u32::MAX),
            _ => record(3, noise.pick(&[0x35, 0x36, 0x3a, 0x30, 0x31, 0x39]), value),
        }
    };
    (0..30).flat_map(&mut one).collect()
}

fn over_noise(verdicts: &mut Verdicts) -> Result<(), String> {
    let mut noise = Noise(2026);
    let mut state = start(4);
    for _ in 0..RANDOM_CALLS {
        let n = state.setup.n;
        let call = match noise.below(8) {
            0 => Call::Ask(noise.below(RECORDS as u32 + 2) as usize),
            1 => Call::Load(
                (0..PER_SLOT as u32 * n).map(|_| noise.below(40) as i32 - 1).collect(),
                noise.below(n + 1) as usize,
            ),
            _ => Call::Run(random_records(n, &mut noise)),
        };
        let mut given = state;
        if noise.one_in(16) {
            noise.pick(&DAMAGE)(&mut given);
        }
        let came = answer(&given, &call, verdicts)?;
        if came.verdict == 0 && given == state {
            state = came.state;
        }
        if noise.one_in(6) {
            state = start(1 + noise.below(RECORDS as u32));
        }
    }
    Ok(())
}

pub fn all() -> Result<String, String> {
    let mut verdicts = Verdicts::default();
    over_loads(&mut verdicts)?;
    over_refusals(&mut verdicts)?;
    over_noise(&mut verdicts)?;
    verdicts.told(&[1, 2, 6, 7, 8])
}
