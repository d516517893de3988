//! Tracking ids for tables: neighbours, ids that are equal but for one bit, and blocks without a gap; and counters that meet them.

use super::Maker;
use crate::table::{Table, TrackingId, LARGEST_ID, SLOTS};

/// How many neighbours a table's ids are taken from, so that there are gaps between them.
const WINDOW: u32 = SLOTS as u32 + 8;
/// Steps between far ids are powers of two from this one on. Neighbours differ in lower bits anyway.
const LOWEST_BIT: u64 = 4;
const HIGHEST_BIT: u64 = 15;
const COUNT: u32 = LARGEST_ID + 1;

/// Which ids a table takes.
#[derive(Clone, Copy)]
pub(super) enum Ids {
    Near {
        base: u32,
    },
    /// Whoever compares fewer bits takes some of them for one.
    Far {
        base: u32,
        step: u32,
    },
    /// A search for a free one passes them all.
    Block {
        base: u32,
    },
}

impl Maker {
    pub(super) fn ids(&mut self) -> Ids {
        let base = self.window();
        match self.random.below(8) {
            0 | 1 => {
                self.tag("ids: far apart");
                Ids::Far { base, step: 1 << self.random.from_to(LOWEST_BIT, HIGHEST_BIT) }
            }
            2 => {
                self.tag("ids: a block without a gap");
                Ids::Block { base }
            }
            _ => Ids::Near { base },
        }
    }

    /// Where ids begin: anywhere, at 0, or before the wrap.
    pub(super) fn window(&mut self) -> u32 {
        match self.random.below(4) {
            0 => 0,
            1 => {
                self.tag("ids: near the wrap");
                self.random.from_to(u64::from(COUNT - WINDOW - 2), u64::from(LARGEST_ID)) as u32
            }
            _ => self.random.below(u64::from(COUNT)) as u32,
        }
    }

    /// An id for each slot, no two the same.
    pub(super) fn ids_of_slots(&mut self, ids: Ids) -> Vec<TrackingId> {
        let count = if let Ids::Near { .. } = ids { WINDOW } else { SLOTS as u32 };
        let mut places: Vec<u32> = (0..count).collect();
        for i in (1..places.len()).rev() {
            places.swap(i, self.random.below(i as u64 + 1) as usize);
        }
        places.iter().map(|place| TrackingId((ids.at(*place) % COUNT) as i32)).collect()
    }

    /// A counter that comes to the table's ids, or to one that only looks like theirs.
    pub(super) fn counter(&mut self, ids: Ids, table: &Table) -> u32 {
        let counter = match ids {
            Ids::Near { base } => base + COUNT - 3 + self.random.below(u64::from(WINDOW) + 6) as u32,
            Ids::Far { base, step } => {
                let live: Vec<i32> = table.iter().map(|slot| slot.id.0).filter(|id| *id >= 0).collect();
                let met = if live.is_empty() { base } else { self.random.pick(&live) as u32 };
                met ^ step
            }
            Ids::Block { base } => base + COUNT - self.random.pick(&[0, 0, 0, 1, 2]),
        };
        counter % COUNT
    }
}

impl Ids {
    /// The id at a place; equal ones modulo 2^16 are those of equal places only.
    fn at(self, place: u32) -> u32 {
        match self {
            Ids::Near { base } | Ids::Block { base } => base + place,
            Ids::Far { base, step } => {
                let per_turn = COUNT / step;
                base + place % per_turn * step + place / per_turn
            }
        }
    }
}

#[cfg(test)]
mod tests {
    use super::*;

    #[test]
    fn no_two_slots_have_one_id() {
        let mut maker = Maker::new(12);
        for base in [0, 5, 65_530] {
            let far = (0..16).map(|bit| Ids::Far { base, step: 1 << bit });
            for ids in far.chain([Ids::Near { base }, Ids::Block { base }]) {
                let mut list: Vec<i32> = maker.ids_of_slots(ids).iter().map(|id| id.0).collect();
                list.sort_unstable();
                list.dedup();
                assert!(list.len() >= SLOTS && list[0] >= 0 && list[list.len() - 1] <= LARGEST_ID as i32);
            }
        }
    }
}
