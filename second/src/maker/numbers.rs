//! Setups and numbers: good ones, those at the edges, and those just outside.

use super::Maker;
use crate::table::{Layout, Setup, LIMITS, MAJOR, MINOR, NARROW, NUMBERS, PRESSURE, SLOTS, X, Y};

/// What is tried where one of a setup's largest values is wrong.
const LARGEST: [&str; NUMBERS] =
    ["setup: largest x", "setup: largest y", "setup: largest pressure", "setup: largest major", "setup: largest minor"];

impl Maker {
    /// A good setup, now and then at an end of a range.
    pub(crate) fn setup(&mut self, layout: Layout) -> Setup {
        let mut setup = Setup { slots: self.good_n(layout), ..Setup::ZEROS };
        for (largest, limit) in setup.largest.iter_mut().zip(LIMITS).take(layout.numbers()) {
            *largest = self.largest(limit);
        }
        setup
    }

    /// Few slots mostly, which try what is not of the width at its best; then both sides of a crane's edge, and the most.
    fn good_n(&mut self, layout: Layout) -> u64 {
        let (most, narrow) = (layout.slots() as u64, NARROW as u64);
        match (layout, self.random.below(12)) {
            (_, 0..=4) => self.random.from_to(1, 3),
            (_, 5 | 6) => most,
            (Layout::Crane, _) | (_, 7 | 8) => self.random.from_to(1, narrow),
            (_, 9) => self.random.pick(&[narrow, narrow + 1]),
            (_, 10) => most - 1,
            _ => self.random.from_to(narrow + 1, most),
        }
    }

    /// A slot below n. Of a wide panel it is often one that no crane has, and the last of all.
    pub(super) fn slot(&mut self, n: u64) -> u64 {
        if n > NARROW as u64 && self.random.once_in(2) {
            let high = self.random.from_to(NARROW as u64, n - 1);
            return self.random.pick(&[high, high, n - 1]);
        }
        self.random.below(n)
    }

    /// A panel's setup that a crane knows so.
    pub(crate) fn panel_setup(&mut self, known: &Setup) -> Setup {
        let mut setup = self.setup(Layout::Panel);
        setup.slots = known.slots;
        let numbers = Layout::Crane.numbers();
        setup.largest[..numbers].copy_from_slice(&known.largest[..numbers]);
        setup
    }

    fn largest(&mut self, limit: u32) -> u32 {
        match self.random.below(4) {
            0 => self.random.from_to(1, 3) as u32,
            1 => limit,
            2 => limit.min(4000),
            _ => self.random.from_to(1, u64::from(limit)) as u32,
        }
    }

    /// A setup that is to make a fresh state or to be refused.
    pub(crate) fn any_setup(&mut self, layout: Layout) -> Setup {
        let good = self.setup(layout);
        if self.random.once_in(3) {
            self.tag("setup: good");
            if good.slots == layout.slots() as u64 {
                self.tag("setup: the most slots");
            }
            return good;
        }
        let mut setup = good;
        for _ in 0..self.random.pick(&[1, 1, 1, 2]) {
            match self.random.below(2 + layout.numbers() as u64) as usize {
                0 | 1 => {
                    self.tag("setup: n");
                    setup.slots = self.bad_n(layout, good.slots);
                    self.tag_width(layout, setup.slots);
                }
                which => {
                    let i = which - 2;
                    self.tag(LARGEST[i]);
                    setup.largest[i] = self.bad_largest(good.largest[i], LIMITS[i]);
                }
            }
        }
        setup
    }

    /// Sums with 2^8, 2^16 and 2^32 are good numbers again where they are cut to fewer bits. A crane takes no n of a wide panel.
    pub(crate) fn bad_n(&mut self, layout: Layout, good: u64) -> u64 {
        let next = layout.slots() as u64 + 1;
        if layout == Layout::Crane && self.random.once_in(3) {
            return self.random.from_to(next, SLOTS as u64);
        }
        if self.random.once_in(2) {
            return self.random.pick(&[0, next, next]);
        }
        self.random.pick(&[
            next + 1,
            200,
            (1 << 8) + good,
            (1 << 16) + good,
            (1 << 31) + good,
            (1 << 32) + good,
            (1 << 63) + good,
            u64::MAX,
        ])
    }

    /// What an n that is too large tries of the width.
    fn tag_width(&mut self, layout: Layout, n: u64) {
        if n == layout.slots() as u64 + 1 {
            self.tag("setup: one slot too many");
        }
        if layout == Layout::Crane && (NARROW as u64 + 1..=SLOTS as u64).contains(&n) {
            self.tag("setup: a wide panel's n");
        }
    }

    /// Cut to 8 or 16 bits, or without its sign, some are the good number again.
    pub(crate) fn bad_largest(&mut self, good: u32, limit: u32) -> u32 {
        if self.random.once_in(3) {
            return self.random.pick(&[0, limit + 1]);
        }
        self.random.pick(&[limit + 2, 65_535, limit + 1 + good, (1 << 16) + good, (1 << 31) + good, u32::MAX])
    }

    /// A slot number of n or more, which cut to fewer bits may be a good one.
    pub(super) fn bad_slot(&mut self, layout: Layout, n: u64) -> u64 {
        let most = layout.slots() as u64;
        if self.random.once_in(2) {
            return self.random.pick(&[n, n, n + 1, most, most + 1]);
        }
        let looks_good = (1 << self.random.pick(&[8, 16, 31, 32, 63])) + self.random.below(n);
        self.random.pick(&[looks_good, looks_good, looks_good, u64::MAX])
    }

    /// 0 to `largest`, often one of the ends.
    pub(super) fn number(&mut self, largest: u32) -> u32 {
        match self.random.below(5) {
            0 => 0,
            1 => largest,
            2 => largest.min(self.random.from_to(0, 3) as u32),
            _ => self.random.from_to(0, u64::from(largest)) as u32,
        }
    }

    /// Which of a slot's numbers: those with more bits more often.
    pub(super) fn any_number(&mut self) -> usize {
        self.random.pick(&[X, X, X, Y, Y, Y, PRESSURE, PRESSURE, MAJOR, MAJOR, MINOR, MINOR])
    }

    /// The pressure of a contact in a frame: 1 to `largest`, often 1.
    pub(super) fn pressing(&mut self, largest: u32) -> u32 {
        self.number(largest).max(1)
    }

    /// Another number in the range, often the next one or one that differs in a bit alone.
    pub(super) fn other_number(&mut self, old: u32, largest: u32) -> u32 {
        let one_bit: Vec<u32> = (0..15).map(|bit| old ^ 1 << bit).filter(|other| *other <= largest).collect();
        match self.random.below(7) {
            0 => old.saturating_add(1).min(largest),
            1 => old.saturating_sub(1).min(largest),
            2..=4 if !one_bit.is_empty() => self.random.pick(&one_bit),
            _ => self.number(largest),
        }
    }

    /// For a state: its numbers have no sign.
    pub(super) fn bad_held_number(&mut self, largest: u32) -> u32 {
        let cut = self.number(largest.min(255));
        let next = largest.saturating_add(1);
        self.random.pick(&[next, next, 32_768, (1 << 16) + cut, (1 << 31) + cut, u32::MAX])
    }

    /// For an event, an image or a frame.
    pub(super) fn bad_number(&mut self, largest: u32) -> i32 {
        let cut = self.number(largest.min(255)) as i32;
        let next = largest.saturating_add(1).min(i32::MAX as u32) as i32;
        self.random.pick(&[
            next,
            next,
            next.saturating_add(cut),
            -1,
            -1,
            -5,
            32_768,
            (1 << 16) + cut,
            (1 << 16) + cut,
            i32::MIN + cut,
            i32::MIN + cut,
            i32::MAX,
        ])
    }

    /// Neither -1 nor 0 to 65,535.
    pub(super) fn bad_id(&mut self) -> i32 {
        let cut = self.random.below(20) as i32;
        self.random.pick(&[-2, -9, 65_536, 70_000, 65_536 + cut, -65_536 + cut, i32::MIN, i32::MAX])
    }

    /// Any number, where it must not matter.
    pub(super) fn junk(&mut self) -> i32 {
        self.random.word() as i32
    }
}
