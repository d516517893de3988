//! States: those that the calls before reached, and any well-formed ones.

use super::ids::Ids;
use super::{Maker, KEPT_STATES};
use crate::pointer::Pointer;
use crate::reader::{Mode, Reader};
use crate::table::{Layout, Setup, SlotNumber, Table, TrackingId, EMPTY, PRESSURE};
use crate::writer::Writer;

impl Maker {
    /// A well-formed table; about half its slots are live, or all.
    pub(super) fn any_table(&mut self, layout: Layout, setup: &Setup, ids: Ids) -> Table {
        let all = self.random.once_in(4) || matches!(ids, Ids::Block { .. });
        let mut table = EMPTY;
        for (slot, id) in table.iter_mut().zip(self.ids_of_slots(ids)).take(setup.slots as usize) {
            if all || self.random.once_in(2) {
                slot.id = id;
            }
            // An unused slot keeps numbers too, but many are as they were at the start.
            if slot.id.is_live() || self.random.once_in(2) {
                for i in 0..layout.numbers() {
                    slot.numbers[i] = self.number(setup.largest[i]);
                }
            }
        }
        table
    }

    /// A well-formed writer of this setup, with the option off.
    pub(super) fn any_writer(&mut self, setup: Setup) -> Writer {
        let ids = self.ids();
        let mut table = self.any_table(Layout::Panel, &setup, ids);
        // Where contacts press with 0, as older tables have it, no frame leaves the table as it is.
        if !self.random.once_in(3) {
            for slot in table.iter_mut().filter(|slot| slot.id.is_live() && slot.numbers[PRESSURE] == 0) {
                slot.numbers[PRESSURE] = self.pressing(setup.largest[PRESSURE]);
            }
        }
        let current = SlotNumber(self.slot(setup.slots));
        Writer { setup, current, counter: self.counter(ids, &table), table, pointer: Pointer::OFF }
    }

    fn any_reader(&mut self, layout: Layout) -> Reader {
        let setup = self.setup(layout);
        let ids = self.ids();
        let shown = self.any_table(layout, &setup, ids);
        let mut reader = Reader {
            layout,
            setup,
            current: SlotNumber(self.slot(setup.slots)),
            mode: self.random.pick(&[Mode::Following, Mode::Following, Mode::Dropped, Mode::Stale]),
            shown,
            pending: shown,
        };
        if reader.mode == Mode::Following && self.random.once_in(2) {
            self.change_pending(&mut reader);
        }
        reader
    }

    /// What events could have done to the pending table since the last report.
    fn change_pending(&mut self, reader: &mut Reader) {
        let setup = reader.setup;
        for _ in 0..self.random.from_to(1, 4) {
            let s = self.slot(setup.slots) as usize;
            match self.random.below(2 + reader.layout.numbers() as u64) as usize {
                0 => reader.pending[s].id = TrackingId(self.random.below(65_536) as i32),
                1 => reader.pending[s].id = TrackingId::UNUSED,
                which => reader.pending[s].numbers[which - 2] = self.number(setup.largest[which - 2]),
            }
        }
        if setup.slots > 1 && !self.random.once_in(3) {
            self.tag("allowed: id repeated in the pending table");
            for _ in 0..self.random.pick(&[1, 1, 2, 3]) {
                self.repeat_id(&mut reader.pending, setup.slots);
            }
        }
    }

    /// Which of the kept states a call goes on from, and the state: kept ones move on as their calls do.
    pub(super) fn writer(&mut self) -> (usize, Writer) {
        let which = self.random.below(KEPT_STATES as u64) as usize;
        if self.random.once_in(25) {
            let setup = self.setup(Layout::Panel);
            self.writers[which] = Writer::fresh(setup, false).expect("a good setup");
        }
        if self.random.once_in(3) {
            self.tag("state: any well-formed one");
            let setup = self.setup(Layout::Panel);
            let writer = self.any_writer(setup);
            if self.random.once_in(3) {
                self.writers[which] = writer.clone();
            }
            return (which, writer);
        }
        self.tag("state: reached by calls");
        (which, self.writers[which].clone())
    }

    /// The same of such a reader.
    pub(super) fn reader(&mut self, layout: Layout) -> (usize, Reader) {
        let which = self.random.below(KEPT_STATES as u64) as usize;
        let lost = self.kept(layout)[which].mode != Mode::Following;
        if self.random.once_in(if lost { 3 } else { 25 }) {
            let setup = self.setup(layout);
            self.kept(layout)[which] = Reader::fresh(layout, setup).expect("a good setup");
        }
        if self.random.once_in(3) {
            self.tag("state: any well-formed one");
            let reader = self.any_reader(layout);
            if self.random.once_in(3) {
                self.kept(layout)[which] = reader.clone();
            }
            return (which, reader);
        }
        self.tag("state: reached by calls");
        (which, self.kept(layout)[which].clone())
    }

    pub(super) fn kept(&mut self, layout: Layout) -> &mut [Reader] {
        match layout {
            Layout::Panel => &mut self.readers,
            Layout::Crane => &mut self.cranes,
        }
    }

    /// The kept reader moves on by a call, where the call was on it.
    pub(super) fn keep(&mut self, which: usize, reader: &Reader, call: impl FnOnce(&mut Reader) -> bool) {
        let mut moved = reader.clone();
        let kept = &mut self.kept(reader.layout)[which];
        if *kept == *reader && call(&mut moved) {
            *kept = moved;
        }
    }
}
