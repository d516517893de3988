//! What the anonymous panel is measured on: old contacts in the first slots, and a frame of new ones. Each load comes back to where it began but `full`, whose state is copied in before each call, since no frame of five lands so many.

use crate::calls::Noise;
use crate::pairing::{Places, MOST};
use crate::panel::{Setup, Slot, RECORDS};
use crate::state::State;

/// n contacts and up to five new ones, all anywhere; up to five that all move a little; one that does; up to five lift, and land again. Then the pairing alone, of the first two.
pub const LOADS: [&str; 6] = ["full", "move", "one", "lift", "pair_full", "pair_move"];

/// How many calls a load has.
pub const CALLS: usize = 64;

const SIDE: u32 = 4000;
const PRESSURE: u32 = 30;

/// Where the old contacts and the new ones are, and how many there are of each.
#[derive(Clone, Debug)]
pub struct Pair {
    pub old: Places<RECORDS>,
    pub olds: usize,
    pub new: Places<MOST>,
    pub news: usize,
}

pub fn setup(n: u32) -> Setup {
    Setup { n, x: SIDE, y: SIDE, pressure: 255, major: 255, minor: 255 }
}

/// How many old and new contacts the call k of a load has.
fn counts(load: &str, n: usize, k: usize) -> (usize, usize) {
    let few = n.min(MOST);
    match load {
        "full" => (n, few),
        "one" => (1, 1),
        "lift" if k % 2 == 0 => (few, 0),
        "lift" => (0, few),
        _ => (few, few),
    }
}

/// The calls of a load, each from where the one before it ended.
pub fn pairs(load: &str, n: u32) -> Vec<Pair> {
    let load = load.strip_prefix("pair_").unwrap_or(load);
    let mut noise = Noise(7 + u64::from(n));
    let anywhere = places(&mut noise, SIDE - 8);
    let near = |k: usize, noise: &mut Noise| anywhere.map(|axis| axis.map(|at| at + 2 * noise.below(4) + k as u32 % 2));
    let path: Vec<_> = (0..CALLS).map(|k| near(k, &mut noise)).collect();
    let call = |k: usize| {
        let (olds, news) = counts(load, n as usize, k);
        let (old, new) = match load {
            "full" => (places(&mut noise, SIDE), places(&mut noise, SIDE)),
            _ => (path[k], path[(k + 1) % CALLS]),
        };
        Pair { old, olds, new: new.map(|axis| std::array::from_fn(|c| axis[c])), news }
    };
    (0..CALLS).map(call).collect()
}

fn places(noise: &mut Noise, side: u32) -> Places<RECORDS> {
    [(); 2].map(|_| [(); RECORDS].map(|_| noise.below(side)))
}

/// The state with these old contacts, in the first of n slots.
pub fn state(n: u32, pair: &Pair) -> State {
    let mut state = State::fresh(setup(n), false).expect("a good setup");
    for (s, slot) in state.table[..pair.olds].iter_mut().enumerate() {
        let [x, y] = pair.old.map(|old| old[s]);
        *slot = Slot { id: s as i32, x, y, pressure: PRESSURE, major: 0, minor: 0 };
    }
    state.counter = pair.olds as u32;
    state
}

/// The type A frame of these new contacts.
pub fn frame(pair: &Pair) -> Vec<u8> {
    let contacts = (0..pair.news).flat_map(|c| contact(pair.new[0][c] as i32, pair.new[1][c] as i32, PRESSURE as i32));
    contacts.chain(record(0, 0, 0)).collect()
}

pub fn contact(x: i32, y: i32, pressure: i32) -> impl Iterator<Item = u8> {
    [record(3, 0x35, x), record(3, 0x36, y), record(3, 0x3a, pressure), record(0, 2, 0)].into_iter().flatten()
}

pub fn record(kind: u16, code: u16, value: i32) -> [u8; 8] {
    (u64::from(kind) | u64::from(code) << 16 | u64::from(value as u32) << 32).to_le_bytes()
}
