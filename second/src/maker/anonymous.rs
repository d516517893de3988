//! Calls of K12: writers whose contacts stand on small grids or in corners, and new contacts near them, so that many pairings cost the same.

use super::writing::move_on_by;
use super::{Maker, KEPT_STATES};
use crate::events::RECORD;
use crate::pairing::MOST_CONTACTS;
use crate::script::Call;
use crate::table::{Layout, Setup, TrackingId, LARGEST_ID, LIMITS, PRESSURE, X, Y};
use crate::writer::{Writer, LARGEST_FRAME};

/// Panels that have room for fewer contacts than a frame may have, for as many, and for more.
const WIDTHS: &[u64] = &[1, 2, 3, 4, 5, 5, 6, 6, 7, 8, 17, 32, 32];
/// A grid has so many lines each way.
const GRID: u64 = 3;

/// x, y and pressure.
pub(super) type Contact = [i32; 3];

impl Maker {
    pub(super) fn anonymous_call(&mut self) -> Call {
        let (which, mut writer) = self.anonymous_writer();
        let kept = !self.random.once_in(8);
        let events = self.type_a_frame(&writer);
        if !kept {
            match writer.pointer.on && self.random.once_in(2) {
                true => self.break_pointer(&mut writer),
                false => self.break_writer(&mut writer),
            }
        }
        let mut records: Vec<u8> = events.iter().flat_map(|event| event.to_bytes()).collect();
        if self.random.once_in(10) {
            self.tag("anonymous: ragged");
            let bytes = self.random.from_to(1, RECORD as u64 - 1);
            records.extend((0..bytes).map(|_| self.random.pick(&[0, 0, 3, 255])));
        }
        let need = need_of(&writer, &records).unwrap_or_else(|| self.random.pick(&[0, 16, 48]));
        let (position, size) = self.room(need);
        if kept && self.anonymous[which] == writer {
            move_on_by(&mut self.anonymous[which], size, |writer, buffer| {
                writer.write_anonymous(&records, buffer, position)
            });
        }
        Call::Anonymous { writer, position, size, records }
    }

    fn fresh_anonymous(&mut self) -> Writer {
        let mut setup = Setup { slots: self.random.pick(WIDTHS), ..self.setup(Layout::Panel) };
        // Only three contacts that cross the widest panel have a total of more than 32 bits.
        if self.random.once_in(4) {
            (setup.largest[X], setup.largest[Y]) = (LIMITS[X], LIMITS[Y]);
        }
        Writer::fresh(setup, self.random.once_in(4)).expect("a good setup")
    }

    /// A kept writer and its number, or any other; some are full, and many have their contacts on a grid.
    fn anonymous_writer(&mut self) -> (usize, Writer) {
        // Not made at the start: a script without these calls is to stay as it was.
        while self.anonymous.len() < KEPT_STATES {
            let fresh = self.fresh_anonymous();
            self.anonymous.push(fresh);
        }
        let which = self.random.below(KEPT_STATES as u64) as usize;
        if self.random.once_in(25) {
            self.anonymous[which] = self.fresh_anonymous();
        }
        if self.random.once_in(2) {
            self.tag("state: reached by calls");
            return (which, self.anonymous[which].clone());
        }
        self.tag("state: any well-formed one");
        let fresh = self.fresh_anonymous();
        let mut writer = self.any_writer(fresh.setup);
        if self.random.once_in(4) {
            self.tag("anonymous: a full table");
            self.fill(&mut writer);
        }
        if !self.random.once_in(3) {
            self.huddle(&mut writer);
        }
        if fresh.pointer.on {
            writer.pointer = self.any_pointer(&writer.setup, &writer.table);
        }
        if self.random.once_in(3) {
            self.anonymous[which] = writer.clone();
        }
        (which, writer)
    }

    /// Every slot has a contact.
    fn fill(&mut self, writer: &mut Writer) {
        let mut id = self.random.below(u64::from(LARGEST_ID)) as i32;
        for s in 0..writer.setup.slots as usize {
            while !writer.table[s].id.is_live() {
                let free = TrackingId(id);
                if writer.table.iter().all(|slot| slot.id != free) {
                    writer.table[s].id = free;
                }
                id = (id + 1) % (LARGEST_ID as i32 + 1);
            }
        }
    }

    /// All of them stand on a grid, or in the panel's corners.
    fn huddle(&mut self, writer: &mut Writer) {
        let (corner, setup) = (self.corner(&writer.setup), writer.setup);
        let is_far = self.random.once_in(3);
        let all_here = self.random.once_in(2).then(|| self.in_corner(&setup));
        for slot in &mut writer.table[..setup.slots as usize] {
            let [x, y] = match is_far {
                true => all_here.unwrap_or_else(|| self.in_corner(&setup)),
                false => self.on_grid(&setup, corner),
            };
            (slot.numbers[X], slot.numbers[Y]) = (x, y);
        }
    }

    fn in_corner(&mut self, setup: &Setup) -> [u32; 2] {
        [X, Y].map(|i| self.random.pick(&[0, setup.largest[i]]))
    }

    /// Where a grid begins: often at 0, so that grids of two calls meet.
    fn corner(&mut self, setup: &Setup) -> [u32; 2] {
        match self.random.below(3) {
            0 | 1 => [0, 0],
            _ => [self.number(setup.largest[X]), self.number(setup.largest[Y])],
        }
    }

    fn on_grid(&mut self, setup: &Setup, corner: [u32; 2]) -> [u32; 2] {
        [X, Y].map(|i| (corner[i] + self.random.below(GRID) as u32).min(setup.largest[i]))
    }

    /// Good contacts, as many as a frame may have of this writer or fewer.
    pub(super) fn contacts(&mut self, writer: &Writer) -> Vec<Contact> {
        let most = (writer.setup.slots as usize).min(MOST_CONTACTS);
        let live: Vec<[u32; 2]> = writer
            .table
            .iter()
            .filter(|slot| slot.id.is_live())
            .map(|slot| [slot.numbers[X], slot.numbers[Y]])
            .collect();
        let any = self.random.below(most as u64 + 1) as usize;
        let count = self.random.pick(&[any, any, most, live.len(), live.len() + 1, live.len().saturating_sub(1)]);
        self.contacts_of(&writer.setup, &live, count.min(most))
    }

    /// So many good contacts: near the old ones or between them, on a grid, far apart or anywhere.
    pub(super) fn contacts_of(&mut self, setup: &Setup, old: &[[u32; 2]], count: usize) -> Vec<Contact> {
        let how = self.random.below(10);
        let corner = match old.is_empty() {
            false => self.one_of(old).map(|number| number.saturating_sub(1)),
            true => self.corner(setup),
        };
        self.tag(match how {
            0 | 1 if !old.is_empty() => "anonymous: near the old contacts",
            2..=4 => "anonymous: on a grid",
            5 => "anonymous: in the corners",
            6 if !old.is_empty() => "anonymous: where old contacts are",
            7 | 8 if old.len() > 1 => "anonymous: in the middle of two old contacts",
            _ => "anonymous: anywhere",
        });
        if count == 3 && old.len() >= 3 && how == 7 {
            return self.triangle(setup, old);
        }
        if how == 5 && !old.is_empty() && self.random.once_in(2) {
            let across = opposite(setup, self.one_of(old));
            return (0..count).map(|_| self.pressed(setup, across)).collect();
        }
        (0..count).map(|_| self.one_contact(setup, old, corner, how)).collect()
    }

    /// An old contact, the last one more often than chance has it.
    fn one_of(&mut self, old: &[[u32; 2]]) -> [u32; 2] {
        let any = self.random.pick(old);
        self.random.pick(&[any, any, any, old[old.len() - 1]])
    }

    /// One contact in the middle of each side of a triangle of old ones: each of the three may move on either way round, at the same price.
    fn triangle(&mut self, setup: &Setup, old: &[[u32; 2]]) -> Vec<Contact> {
        let from = self.random.below(old.len() as u64 - 2) as usize;
        let [a, b, c] = [old[from], old[from + 1], old[from + 2]];
        [(b, c), (c, a), (a, b)].map(|(one, other)| self.pressed(setup, between(one, other))).to_vec()
    }

    fn pressed(&mut self, setup: &Setup, [x, y]: [u32; 2]) -> Contact {
        [x as i32, y as i32, self.pressing(setup.largest[PRESSURE]) as i32]
    }

    fn one_contact(&mut self, setup: &Setup, old: &[[u32; 2]], corner: [u32; 2], how: u64) -> Contact {
        let place = match how {
            0 | 1 if !old.is_empty() => {
                let at = self.one_of(old);
                [X, Y].map(|i| self.near(at[i], setup.largest[i]))
            }
            2..=4 => self.on_grid(setup, corner),
            5 => self.in_corner(setup),
            6 if !old.is_empty() => self.one_of(old),
            7 | 8 if old.len() > 1 => between(self.random.pick(old), self.random.pick(old)),
            _ => [X, Y].map(|i| self.number(setup.largest[i])),
        };
        self.pressed(setup, place)
    }

    /// A number that is at most a few away.
    fn near(&mut self, number: u32, largest: u32) -> u32 {
        let away = self.random.pick(&[0, 0, 1, 1, 2, 3, 40]);
        match self.random.once_in(2) {
            true => number.saturating_sub(away),
            false => (number + away).min(largest),
        }
    }
}

/// The corner that is farthest from a place.
fn opposite(setup: &Setup, place: [u32; 2]) -> [u32; 2] {
    [X, Y].map(|i| if 2 * place[i] > setup.largest[i] { 0 } else { setup.largest[i] })
}

fn between(one: [u32; 2], other: [u32; 2]) -> [u32; 2] {
    [X, Y].map(|i| (one[i] + other[i]) / 2)
}

/// The bytes that a frame needs; `None` where it is refused.
pub(crate) fn need_of(writer: &Writer, records: &[u8]) -> Option<usize> {
    let written = writer.clone().write_anonymous(records, &mut [0; LARGEST_FRAME], 0).ok()?;
    Some(written.events as usize * RECORD)
}

#[cfg(test)]
mod tests {
    use super::*;

    /// Too few frames that are taken would try little of the pairing.
    #[test]
    fn most_frames_are_taken_and_ties_are_many() {
        let mut maker = Maker::new(21);
        let (mut taken, mut tied) = (0, 0);
        for _ in 0..2_000 {
            let Call::Anonymous { writer, records, .. } = maker.anonymous_call() else { unreachable!("it is one") };
            taken += u32::from(need_of(&writer, &records).is_some());
            let live = writer.table.iter().filter(|slot| slot.id.is_live());
            let mut places: Vec<_> = live.map(|slot| (slot.numbers[X], slot.numbers[Y])).collect();
            let count = places.len();
            places.sort_unstable();
            places.dedup();
            tied += u32::from(places.len() < count);
        }
        assert!(taken > 1_000 && taken < 1_500, "{taken}");
        assert!(tied > 300, "{tied}");
    }
}
