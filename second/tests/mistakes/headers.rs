//! Wrong programs that noise must notice: each reads the setup at the front of its input otherwise.

use second::noise::noise;
use second::programs::{run, HEADER, WITH_POINTER};

/// Far fewer inputs than the gate's noise has for each program.
pub const INPUTS: u64 = 200;

/// A program that answers an input as one of these answers another input.
pub struct Reads {
    pub name: &'static str,
    program: &'static str,
    answered_by: &'static str,
    other: fn(&[u8]) -> Vec<u8>,
}

/// What is to be seen of a program: status, output and words.
fn seen(program: &str, bytes: &[u8]) -> (u8, Vec<u8>, String) {
    let (mut out, mut err) = (Vec::new(), Vec::new());
    let status = run(program, bytes, &mut out, &mut err).expect("a program's name");
    (status.number(), out, String::from_utf8(err).expect("words"))
}

impl Reads {
    /// After how many inputs of a seed it is noticed.
    pub fn noticed(&self, seed: u64) -> Option<u64> {
        (0..INPUTS).find(|index| {
            let bytes = noise(self.program, seed, *index).expect("a program's name");
            let (status, out, err) = seen(self.answered_by, &(self.other)(&bytes));
            // An argument is not said on standard error.
            let [program, other] = [self.program, self.answered_by].map(|name| name.split(' ').next().unwrap_or(name));
            seen(self.program, &bytes) != (status, out, err.replace(other, program))
        })
    }
}

/// Largest sizes of 255 behind the first sixteen bytes.
fn without_sizes(bytes: &[u8]) -> Vec<u8> {
    if bytes.len() < 16 {
        return bytes.to_vec();
    }
    [&bytes[..16], &[255, 0, 0, 0, 255, 0, 0, 0], &bytes[16..]].concat()
}

/// The header's numbers changed, where there is a whole one.
fn with_numbers(bytes: &[u8], change: fn(&mut [u32])) -> Vec<u8> {
    if bytes.len() < HEADER {
        return bytes.to_vec();
    }
    let (header, rest) = bytes.split_at(HEADER);
    let mut numbers: Vec<u32> = header.chunks_exact(4).map(|b| u32::from_le_bytes([b[0], b[1], b[2], b[3]])).collect();
    change(&mut numbers);
    numbers.iter().flat_map(|number| number.to_le_bytes()).chain(rest.iter().copied()).collect()
}

/// A setup that is refused where a size's largest value is out of its range.
fn judged_sizes(bytes: &[u8]) -> Vec<u8> {
    with_numbers(bytes, |numbers| {
        if numbers[4..].iter().any(|size| !(1..=255).contains(size)) {
            numbers[0] = 0;
        }
    })
}

/// Another n in place of one that is so.
fn with_n(bytes: &[u8], of: fn(u32) -> u32) -> Vec<u8> {
    if bytes.len() < HEADER {
        return bytes.to_vec();
    }
    let n = of(u32::from_le_bytes([bytes[0], bytes[1], bytes[2], bytes[3]]));
    [&n.to_le_bytes(), &bytes[4..]].concat()
}

/// Each mistake of this file.
pub fn all() -> Vec<Reads> {
    let mut all = Vec::new();
    let mut reads = |name, program, answered_by, other| all.push(Reads { name, program, answered_by, other });
    for program in ["show_table", "write_frames", "crane_table"] {
        reads("a setup of sixteen bytes is whole", program, program, without_sizes);
    }
    for program in ["show_table", "write_frames"] {
        reads("a panel has 16 slots at most", program, program, |bytes| {
            with_n(bytes, |n| if (17..=32).contains(&n) { 0 } else { n })
        });
        reads("a panel of 33 slots has 32", program, program, |bytes| with_n(bytes, |n| if n == 33 { 32 } else { n }));
        reads("the largest major is not judged", program, program, |bytes| {
            with_numbers(bytes, |numbers| numbers[4] = numbers[4].clamp(1, 255))
        });
        reads("the largest minor is not judged", program, program, |bytes| {
            with_numbers(bytes, |numbers| numbers[5] = numbers[5].clamp(1, 255))
        });
        reads("the largest sizes are swapped", program, program, |bytes| {
            with_numbers(bytes, |numbers| numbers.swap(4, 5))
        });
    }
    reads("a crane judges the largest sizes", "crane_table", "crane_table", judged_sizes);
    reads("a crane shows the first 16 slots of a wide panel", "crane_table", "crane_table", |bytes| {
        with_n(bytes, |n| if (17..=32).contains(&n) { 16 } else { n })
    });
    reads("a crane prints six numbers", "crane_table", "show_table", <[u8]>::to_vec);
    reads("the panel's table has four numbers", "show_table", "crane_table", <[u8]>::to_vec);
    reads("--pointer is passed over", WITH_POINTER, "write_frames", <[u8]>::to_vec);
    reads("a display is always told", "write_frames", WITH_POINTER, <[u8]>::to_vec);
    all
}
