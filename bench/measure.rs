//! What every benchmark does with its versions: compares them, counts a pass over a load, times it. bench/run calls it.

use std::hint::black_box;
use std::time::Instant;

/// How many slots are in contact.
pub const SIZES: [u32; 5] = [1, 2, 4, 16, 32];
/// How often each version is timed.
const ROUNDS: usize = 51;
/// The least time that is measured, in seconds.
const LEAST: f64 = 0.0005;

/// What a pass is given, at the same place in every run.
#[repr(align(4096))]
pub struct Held<T>(pub T);

pub struct Bench {
    /// The proved library is the last.
    pub versions: Vec<&'static str>,
    pub loads: &'static [&'static str],
    /// How many calls a pass makes.
    pub calls: u32,
    /// How many frames, events or the like a pass handles, for what is handled each second.
    pub things: fn(load: &str, n: u32) -> u64,
    /// A version's pass over a load with n slots. It leaves things as it found them, so that it can be made again.
    pub pass: fn(version: &str, load: &str, n: u32) -> Box<dyn FnMut()>,
    /// What was compared, or what differs.
    pub compare: fn() -> Result<String, String>,
}

impl Bench {
    /// bench compare: whether all versions answer the same. bench cases: each load, n and version, and the calls of a pass.
    /// bench pass LOAD N VERSION: one pass in `measured`, for a profiler. bench count: the same for all cases, between marks. bench time: how many things each version handles in a second.
    pub fn main(&self) {
        let args: Vec<String> = std::env::args().skip(1).collect();
        let words: Vec<&str> = args.iter().map(String::as_str).collect();
        match words[..] {
            ["compare"] => self.report((self.compare)()),
            ["cases"] => self.each(|_, load, n, version| println!("{load} {n} {version} {}", self.calls)),
            ["pass", load, n, version] => self.count(load, n.parse().unwrap_or(1), version, None),
            ["count"] => self.each(|k, load, n, version| {
                self.count(load, n, version, Some(k));
                println!("{} {load} {n} {version} {}", 2 * k, self.calls);
            }),
            ["time"] => self.time(),
            _ => self.report(Err("usage: bench compare | cases | pass LOAD N VERSION | count | time".to_string())),
        }
    }

    fn report(&self, outcome: Result<String, String>) {
        match outcome {
            Ok(what) => println!("{what}"),
            Err(what) => {
                eprintln!("bench: {what}");
                std::process::exit(1);
            }
        }
    }

    fn each(&self, mut f: impl FnMut(i32, &str, u32, &str)) {
        let mut k = 0;
        for load in self.loads {
            for n in SIZES {
                for version in &self.versions {
                    f(k, load, n, version);
                    k += 1;
                }
            }
        }
    }

    /// A pass that was made once before, between marks 2k and 2k + 1 where k is given.
    fn count(&self, load: &str, n: u32, version: &str, k: Option<i32>) {
        let mut pass = (self.pass)(version, load, n);
        pass();
        on_a_page(&mut || {
            k.map(|k| mark(2 * k));
            measured(&mut *pass);
            k.map(|k| mark(2 * k + 1));
        });
    }

    /// A line for each load, n and version: the things that it handles in a second, of its best round; and the last version's time over its own, round by round: the median, and the middle half.
    fn time(&self) {
        for load in self.loads {
            for n in SIZES {
                let mut passes: Vec<_> = self.versions.iter().map(|v| (self.pass)(v, load, n)).collect();
                let times = timed(&mut passes);
                let last = times.last().expect("a version");
                for (version, own) in self.versions.iter().zip(&times) {
                    let rate = (self.things)(load, n) as f64 / sorted(own.clone())[0];
                    let ratios = sorted(last.iter().zip(own).map(|(a, b)| a / b).collect());
                    let [low, median, high] = [1, 2, 3].map(|quarter| ratios[quarter * ROUNDS / 4]);
                    println!("{load} {n} {version} {rate:.0} {median:.2} {low:.2} {high:.2}");
                }
            }
        }
    }
}

fn sorted(mut numbers: Vec<f64>) -> Vec<f64> {
    numbers.sort_by(f64::total_cmp);
    numbers
}

/// The seconds of one pass of each version in each round; all are repeated as often.
fn timed(passes: &mut [Box<dyn FnMut()>]) -> Vec<Vec<f64>> {
    let mut repeats = 1;
    while seconds(&mut passes[0], repeats) < LEAST {
        repeats *= 2;
    }
    let mut times = vec![vec![0.0; ROUNDS]; passes.len()];
    for round in 0..ROUNDS {
        // In turn, so that what slows the machine for a while slows all of them, and each round another one first.
        for turn in 0..passes.len() {
            let version = (round + turn) % passes.len();
            times[version][round] = seconds(&mut passes[version], repeats) / repeats as f64;
        }
    }
    times
}

fn seconds(pass: &mut Box<dyn FnMut()>, repeats: u32) -> f64 {
    let start = Instant::now();
    for _ in 0..repeats {
        pass();
    }
    start.elapsed().as_secs_f64()
}

extern "C" {
    fn close(fd: i32) -> i32;
}

/// A call that fails and changes nothing; the instruction counter looks for it.
fn mark(k: i32) {
    // SAFETY: no file has a negative number.
    unsafe { close(-1000 - k) };
}

/// What a profiler counts: all that is done in here.
#[no_mangle]
#[inline(never)]
pub fn measured(pass: &mut dyn FnMut()) {
    pass();
    black_box(());
}

/// The environment lies above the stack and shifts it, and what a copy costs depends on where it begins: below a page of our own all begins at the same place.
#[inline(never)]
fn on_a_page(f: &mut dyn FnMut()) {
    let mut page = Held([0u8; 4096]);
    black_box(&mut page);
    f();
    black_box(&mut page.0);
}
