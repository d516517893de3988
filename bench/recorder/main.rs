//! The shift recorder beside plain Rust: n blocks laid, and n blocks read one after the other.

#[path = "../calls.rs"]
#[allow(dead_code)] // the recorder has verdicts and names of its own
mod calls;
mod inplace;
#[path = "../measure.rs"]
mod measure;

use calls::{agreed, Noise};
use inplace::{Laid, Read, BLOCK, FULL};
use std::hint::black_box;

extern "C" {
    fn rattle_lay(
        number: u32,
        events: *const u8,
        len: usize,
        buf: *mut u8,
        size: usize,
        at: usize,
        answer: &mut [u64; 3],
    ) -> u64;
    fn rattle_read(block: *const u8, len: usize, number: u32, answer: &mut [u64; 2]) -> u64;
}

// SAFETY of both calls: the slices are whole, and the library reads and writes in them alone.
fn rattle_lays(number: u32, events: &[u8], buf: &mut [u8], at: usize) -> Laid {
    let mut answer = [0; 3];
    let verdict =
        unsafe { rattle_lay(number, events.as_ptr(), events.len(), buf.as_mut_ptr(), buf.len(), at, &mut answer) };
    (verdict, answer)
}

fn rattle_reads(block: &[u8], number: u32) -> Read {
    let mut answer = [0; 2];
    let name = unsafe { rattle_read(block.as_ptr(), block.len(), number, &mut answer) };
    (name, answer)
}

type Lay = fn(u32, &[u8], &mut [u8], usize) -> Laid;
type ReadOne = fn(&[u8], u32) -> Read;

const VERSIONS: [(&str, Lay, ReadOne); 2] =
    [("inplace", inplace::lay, inplace::read), ("rattle", rattle_lays, rattle_reads)];

/// lay: full blocks. short: the last has one event. read: full blocks. damaged: one byte of each is another.
const LOADS: [&str; 4] = ["lay", "short", "read", "damaged"];

fn noisy(noise: &mut Noise, len: usize) -> Vec<u8> {
    (0..len).map(|_| noise.below(256) as u8).collect()
}

fn events(load: &str, n: u32) -> Vec<u8> {
    let spared = if load == "short" { FULL - 8 } else { 0 };
    noisy(&mut Noise(7 + u64::from(n)), FULL * n as usize - spared)
}

fn blocks(load: &str, n: u32) -> Vec<u8> {
    let mut buf = vec![0; BLOCK * n as usize];
    inplace::lay(1, &events(load, n), &mut buf, 0);
    if load == "damaged" {
        buf.chunks_mut(BLOCK).zip(0..).for_each(|(block, k)| block[37 * k % BLOCK] ^= 1);
    }
    buf
}

fn pass(version: &str, load: &str, n: u32) -> Box<dyn FnMut()> {
    let (_, lay, read) = VERSIONS[VERSIONS.iter().position(|(name, ..)| *name == version).expect("a version")];
    let events = events(load, n);
    let mut held = measure::Held((blocks(load, n), 0));
    match load {
        "lay" | "short" => Box::new(move || {
            let buf = &mut held.0 .0;
            black_box(lay(1, black_box(&events), black_box(buf), 0));
        }),
        _ => Box::new(move || {
            for (block, number) in held.0 .0.chunks(BLOCK).zip(1..) {
                black_box(read(black_box(block), number));
            }
        }),
    }
}

/// Blocks that each name refuses, and good ones: a good block with up to three bytes changed and its check made right again, or left as it is.
fn block_at_random(noise: &mut Noise) -> Vec<u8> {
    let count = noise.below(62) as usize + 1;
    let number = noise.pick(&[1, 2, 0xffff_ffff]);
    let mut block = vec![0; BLOCK];
    let events = noisy(noise, 8 * count);
    inplace::lay(number, &events, &mut block, 0);
    for _ in 0..noise.below(3) {
        let place = noise.pick(&[0, 4, 5, 6, 7, 8, 500, 507, 508, 511]);
        block[place] = noise.below(256) as u8;
    }
    if noise.one_in(2) {
        let sum: u32 = block[..508].iter().zip(1..).map(|(&b, w)| u32::from(b) * w).sum();
        block[508..].copy_from_slice(&sum.to_le_bytes());
    }
    if noise.one_in(16) {
        block.resize(noise.below(600) as usize, 0);
    }
    block
}

fn compare_reading(noise: &mut Noise) -> Result<[usize; 5], String> {
    let mut names = [0; 5];
    for _ in 0..20_000 {
        let block = block_at_random(noise);
        let number = noise.pick(&[1, 2, 0xffff_ffff]);
        let (name, _) = agreed(&(number, &block), VERSIONS.map(|(name, _, read)| (name, read(&block, number))))?;
        names[name as usize] += 1;
    }
    Ok(names)
}

fn compare_laying(noise: &mut Noise) -> Result<[usize; 7], String> {
    let mut verdicts = [0; 7];
    for _ in 0..5_000 {
        let most = noise.pick(&[0, 1, 8, 496, 497, 504, 2000]);
        let len = noise.below(most + 1) as usize / noise.pick(&[1, 8]) * noise.pick(&[1, 8]);
        let events = noisy(noise, len);
        let number = noise.pick(&[0, 1, 9, 0xffff_fffe, 0xffff_ffff]);
        let size = noise.below(3000) as usize;
        let at = noise.pick(&[0, 1, 512, size, size + 1, usize::MAX]);
        let before = noisy(noise, size);
        let call = (number, len, size, at);
        let (answer, _) = agreed(
            &call,
            VERSIONS.map(|(name, lay, _)| {
                let mut buf = before.clone();
                (name, (lay(number, &events, &mut buf, at), buf))
            }),
        )?;
        verdicts[answer.0 as usize] += 1;
    }
    Ok(verdicts)
}

/// Whole answers, and every byte of the buffer: the loads, and calls at random, of which each refusal must have been one.
fn compare() -> Result<String, String> {
    for load in LOADS {
        for n in measure::SIZES {
            let (events, given) = (events(load, n), blocks(load, n));
            agreed(
                &(load, n),
                VERSIONS.map(|(name, lay, read)| {
                    let mut buf = given.clone();
                    let read: Vec<Read> =
                        buf.chunks(BLOCK).zip(1..).map(|(block, number)| read(block, number)).collect();
                    (name, (lay(1, &events, &mut buf, 0), buf, read))
                }),
            )?;
        }
    }
    let mut noise = Noise(2026);
    let (names, verdicts) = (compare_reading(&mut noise)?, compare_laying(&mut noise)?);
    if names.contains(&0) || [0, 4, 5, 6].iter().any(|&verdict| verdicts[verdict] == 0) {
        return Err(format!("an answer was never given: read {names:?}, laid {verdicts:?}"));
    }
    Ok(format!("compared: blocks read by name {names:?}, laid by verdict {verdicts:?}; every answer the same"))
}

fn main() {
    let versions = VERSIONS.iter().map(|(name, ..)| *name).collect();
    measure::Bench { versions, loads: &LOADS, calls: 1, things: |_, n| n.into(), pass, compare }.main();
}
