//! Changes of a state's bytes: in the head above all, anywhere, in the length, and bytes that are wholly random.

use second::random::Random;

use crate::states::{Kind, VERSION};

/// A head's bytes, before the first number of every state but the pod's.
const HEAD: u64 = 8;

/// Room for a fresh state: as it should be, or of another length.
pub fn room(random: &mut Random, kind: Kind, mut bytes: Vec<u8>) -> Vec<u8> {
    if random.once_in(2) {
        bytes.resize(other_length(random, kind), 0);
    }
    bytes
}

/// The packed bytes with one change, or as they are.
pub fn changed(random: &mut Random, kind: Kind, mut bytes: Vec<u8>) -> Vec<u8> {
    match random.below(16) {
        0..=4 => {}
        5 => bytes[0] = other(random, VERSION, &[0, 2, 3, 255]),
        6 => bytes[1] = other(random, kind.number(), &[0, 1, 2, 3, 4, 5]),
        7 => bytes[2] = random.pick(&[0, 1, 2, 3, 255]),
        8 => {
            let at = random.pick(kind.zeros());
            bytes[at] = other(random, 0, &[1, 128, 255]);
        }
        9 => bytes[3] = random.pick(&[0, 1, 2, 7, 8, 255]),
        10 => {
            let at = random.below(HEAD) as usize;
            bytes[at] ^= 1 << random.below(8);
        }
        11 | 12 => {
            for _ in 0..random.from_to(1, 3) {
                let at = random.below(bytes.len() as u64) as usize;
                bytes[at] = random.word() as u8;
            }
        }
        13 => {
            let length = other_length(random, kind);
            // What is added is zeros or bytes of another state.
            let more = random.pick(&[0, VERSION]);
            bytes.resize(length, more);
        }
        14 => bytes.fill_with(|| random.word() as u8),
        _ => {
            bytes.fill_with(|| random.word() as u8);
            form(random, kind, &mut bytes);
        }
    }
    bytes
}

/// One of these or any byte, but not the one that is right.
fn other(random: &mut Random, right: u8, likely: &[u8]) -> u8 {
    let byte = match random.once_in(2) {
        true => random.pick(likely),
        false => random.word() as u8,
    };
    if byte == right {
        right.wrapping_add(1)
    } else {
        byte
    }
}

fn other_length(random: &mut Random, kind: Kind) -> usize {
    let own = kind.length();
    let another = random.pick(&Kind::ALL).length();
    let length = random.pick(&[own - 1, own - 1, own + 1, own + 1, 0, 1, 2 * own, another]);
    if length == own {
        own + 8
    } else {
        length
    }
}

/// Makes random bytes formed, so that their numbers are looked at.
fn form(random: &mut Random, kind: Kind, bytes: &mut [u8]) {
    bytes[0] = VERSION;
    bytes[1] = kind.number();
    bytes[2] = random.from_to(0, u64::from(kind.largest_choice())) as u8;
    kind.zeros().iter().for_each(|at| bytes[*at] = 0);
}
