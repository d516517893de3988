//! States that are not well formed: each part of well-formedness broken in turn.

use super::Maker;
use crate::reader::{Mode, Reader};
use crate::table::{
    Layout, Setup, Slot, SlotNumber, Table, TrackingId, EMPTY, LIMITS, NARROW, NUMBERS, PRESSURE, X, Y,
};
use crate::writer::Writer;

/// What is tried where one of a state's largest values is wrong.
const LARGEST: [&str; NUMBERS] = [
    "broken: largest x",
    "broken: largest y",
    "broken: largest pressure",
    "broken: largest major",
    "broken: largest minor",
];

/// What is tried where a table is broken: its ids, its numbers, and its records past n.
type Parts = [&'static str; 3];

const WRITERS: Parts = [
    "broken: id in the writer's table",
    "broken: number in the writer's table",
    "broken: record past n in the writer's table",
];
const SHOWN: Parts =
    ["broken: id in the shown table", "broken: number in the shown table", "broken: record past n in the shown table"];
const PENDING: Parts = [
    "broken: id in the pending table",
    "broken: number in the pending table",
    "broken: record past n in the pending table",
];

impl Maker {
    /// One part of what all states share is broken.
    fn break_setup(&mut self, layout: Layout, setup: &mut Setup, current: &mut SlotNumber) {
        match self.random.below(2 + layout.numbers() as u64) as usize {
            0 => {
                self.tag("broken: n");
                setup.slots = self.bad_n(layout, setup.slots);
            }
            1 => {
                self.tag("broken: current slot");
                current.0 = self.bad_slot(layout, setup.slots);
            }
            which => {
                let i = which - 2;
                self.tag(LARGEST[i]);
                setup.largest[i] = self.bad_largest(setup.largest[i], LIMITS[i]);
            }
        }
    }

    /// Whether a table is to be empty behind a broken setup: mostly where a largest value is 0, since nearly every table has a number above it.
    fn clears(&mut self, layout: Layout, setup: &Setup) -> bool {
        self.random.once_in(4) || setup.largest[..layout.numbers()].contains(&0) && !self.random.once_in(4)
    }

    /// One number of a table broken, within n or past it.
    fn break_table(&mut self, layout: Layout, setup: &Setup, table: &mut Table, parts: Parts) {
        let n = setup.slots as usize;
        let s = self.slot(setup.slots) as usize;
        let i = self.random.below(layout.numbers() as u64) as usize;
        match self.random.below(3) {
            0 => {
                self.tag(parts[0]);
                table[s].id = TrackingId(self.bad_id());
            }
            1 => {
                self.tag(parts[1]);
                table[s].numbers[i] = self.bad_held_number(setup.largest[i]);
            }
            _ if n < layout.slots() => {
                self.tag(parts[2]);
                let s = self.random.from_to(setup.slots, layout.slots() as u64 - 1) as usize;
                if self.random.once_in(1 + layout.numbers() as u64) {
                    table[s].id = TrackingId(self.random.pick(&[0, 1, 65_535, -2]));
                } else {
                    table[s].numbers[i] = 1;
                }
            }
            _ => self.break_table(layout, setup, table, parts),
        }
    }

    pub(super) fn break_writer(&mut self, writer: &mut Writer) {
        let setup = writer.setup;
        let n = setup.slots;
        match self.random.below(10) {
            0..=3 => {
                self.break_setup(Layout::Panel, &mut writer.setup, &mut writer.current);
                // Then no number is above a largest value that is too small, and nothing else is broken.
                if self.clears(Layout::Panel, &writer.setup) {
                    writer.table = EMPTY;
                }
            }
            4 => {
                self.tag("broken: counter");
                writer.counter = self.random.pick(&[65_536, 65_537, (1 << 16) + writer.counter, u32::MAX]);
            }
            5 if n > 1 => {
                self.tag("broken: id repeated in the writer's table");
                self.repeat_id(&mut writer.table, n);
            }
            6 if n > 1 => {
                self.tag("broken: n cuts off a record in use");
                writer.table[n as usize - 1].id = TrackingId(40_000);
                writer.setup.slots = n - 1;
                writer.current.0 = 0;
            }
            7 => {
                self.tag("broken: largest below a number in use");
                let i = self.random.below(NUMBERS as u64) as usize;
                writer.table[0].numbers[i] = 2;
                writer.setup.largest[i] = 1;
            }
            _ => self.break_table(Layout::Panel, &setup, &mut writer.table, WRITERS),
        }
    }

    pub(super) fn break_reader(&mut self, reader: &mut Reader) {
        let (layout, setup) = (reader.layout, reader.setup);
        match self.random.below(14) {
            0..=3 => {
                self.break_setup(layout, &mut reader.setup, &mut reader.current);
                if self.clears(layout, &reader.setup) {
                    (reader.shown, reader.pending) = (EMPTY, EMPTY);
                }
            }
            4 | 13 if setup.slots > 1 => {
                self.tag("broken: id repeated in the shown table");
                self.repeat_id(&mut reader.shown, setup.slots);
                reader.pending = reader.shown;
            }
            5 if setup.slots > 1 => self.cut_off(reader),
            6 => {
                self.tag("broken: largest below a number in use");
                let i = self.random.below(layout.numbers() as u64) as usize;
                reader.pending[0].numbers[i] = 2;
                reader.setup.largest[i] = 1;
                if reader.mode != Mode::Following {
                    reader.shown = reader.pending;
                }
            }
            7 | 8 => self.part_pending(reader),
            9 | 10 => {
                let mut table = reader.shown;
                self.break_table(layout, &setup, &mut table, SHOWN);
                reader.shown = table;
                // While lost the two must be equal, or something else would be broken too.
                if reader.mode != Mode::Following {
                    reader.pending = table;
                }
            }
            _ => {
                reader.mode = Mode::Following;
                self.break_table(layout, &setup, &mut reader.pending, PENDING);
            }
        }
    }

    /// n is one less than the records that are in use.
    fn cut_off(&mut self, reader: &mut Reader) {
        self.tag("broken: n cuts off a record in use");
        reader.setup.slots -= 1;
        reader.current.0 = 0;
        let last = reader.setup.slots as usize;
        let i = self.random.pick(&[X, Y, PRESSURE]);
        reader.shown[last].numbers[i] = 1;
        if self.random.once_in(2) || reader.mode != Mode::Following {
            reader.pending = reader.shown;
        } else {
            reader.pending[last] = Slot::UNUSED;
        }
    }

    /// While lost, one number is pending that is not shown.
    fn part_pending(&mut self, reader: &mut Reader) {
        self.tag("broken: pending differs while lost");
        reader.mode = self.random.pick(&[Mode::Dropped, Mode::Stale]);
        reader.pending = reader.shown;
        let slot = &mut reader.pending[self.slot(reader.setup.slots) as usize];
        match self.random.below(reader.layout.slot_numbers() as u64) as usize {
            0 if slot.id.is_live() => slot.id = TrackingId::UNUSED,
            0 => slot.id = TrackingId(40_000),
            which => slot.numbers[which - 1] = u32::from(slot.numbers[which - 1] == 0),
        }
    }

    /// Two of the first n slots, near each other or not, with one live id; n is 2 or more.
    pub(super) fn repeat_id(&mut self, table: &mut Table, n: u64) {
        let any = self.random.below(n);
        let from = self.random.pick(&[any, any, 0, n - 1]);
        let to = match NARROW as u64 {
            // Across the halves more often than chance has it.
            edge if n > edge && from < edge && self.random.once_in(2) => self.random.from_to(edge, n - 1),
            _ => (from + self.random.from_to(1, n - 1)) % n,
        };
        if from.min(to) < NARROW as u64 && NARROW as u64 <= from.max(to) {
            self.tag("ids: one in both halves");
        }
        if !table[from as usize].id.is_live() || self.random.once_in(4) {
            table[from as usize].id = TrackingId(self.random.pick(&[0, 7, 65_535]));
        }
        table[to as usize].id = table[from as usize].id;
    }
}
