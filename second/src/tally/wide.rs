//! What K7 asks: panels of up to 32 slots, and what happens in the half that no crane has.

use super::writing::lands;
use super::{Tally, Words};
use crate::events::EV_SYN;
use crate::reader::{Mode, Reader};
use crate::script::{reader_numbers, Call};
use crate::table::{Layout, Setup, Slot, NARROW, SLOTS};
use crate::writer::Writer;

/// The last slot of the widest panel.
const LAST: usize = SLOTS - 1;

impl Tally {
    /// Of any answer but those that a frame is accepted with.
    pub(super) fn count_width(&mut self, call: &Call, said: &Words) {
        let verdict = said.at(0);
        let is_refused = match call {
            Call::Good { .. } => verdict == "0",
            Call::Ask { .. } => verdict == "refused",
            _ => verdict == "2",
        };
        if is_refused && call.reader().is_some_and(|reader| is_in_both(&ids(&reader.shown))) {
            self.note("reader: refused for an id in both halves");
        }
        match call {
            Call::Fresh(layout, setup) => self.count_slots(&call.name(), *layout, setup, verdict),
            Call::New { setup, .. } => self.count_slots("new", Layout::Panel, setup, verdict),
            Call::Write { writer, .. } if verdict == "2" && is_in_both(&ids(&writer.table)) => {
                self.note("write: refused for an id in both halves");
            }
            Call::Load { reader, image, .. } => self.count_load(reader, image, verdict),
            Call::Ask { reader, slot } if verdict == "contact" && reader.layout == Layout::Panel => {
                self.count_if(slot.0 >= NARROW as u64, "ask: a contact from slot 16 on");
            }
            Call::Run { reader, .. } | Call::One { reader, .. } if verdict == "0" && reader.layout == Layout::Panel => {
                let numbers = reader_numbers(Layout::Panel);
                if let Some(Call::Good { reader: after }) = said.as_call("good", numbers, "") {
                    self.count_last(call, reader, &after);
                }
            }
            _ => {}
        }
    }

    fn count_if(&mut self, is_so: bool, what: impl Into<String>) {
        if is_so {
            self.note(what);
        }
    }

    /// A setup, made or refused. What refuses it may be another number.
    fn count_slots(&mut self, name: &str, layout: Layout, setup: &Setup, verdict: &str) {
        let others = Setup { slots: 1, ..*setup }.is_good(layout);
        let n = match (layout, setup.slots, verdict) {
            (Layout::Panel, 17..=31, "0") => "17 to 31 slots accepted",
            (Layout::Panel, 32, "0") => "32 slots accepted",
            (Layout::Panel, 33, "1") if others => "33 slots refused",
            (Layout::Crane, 16, "0") => "16 slots accepted",
            (Layout::Crane, 17..=32, "1") if others => "17 to 32 slots refused",
            _ => return,
        };
        self.note(format!("{name}: {n}"));
    }

    fn count_load(&mut self, reader: &Reader, image: &[i32], verdict: &str) {
        let width = reader.layout.slot_numbers();
        let ids: Vec<i32> = image.chunks_exact(width).map(|row| row[0]).collect();
        let is_last_live = ids.get(LAST).is_some_and(|id| *id != -1);
        self.count_if(verdict == "0" && is_last_live, "load: slot 31 is live");
        let is_whole = image.len() as u64 == width as u64 * reader.setup.slots.min(SLOTS as u64);
        self.count_if(verdict == "8" && is_whole && is_in_both(&ids), "load: refused for an id in both halves");
    }

    /// The last slot, and ids that meet across the halves at a report.
    fn count_last(&mut self, call: &Call, before: &Reader, after: &Reader) {
        let last = LAST as u64;
        match call {
            Call::Run { .. } => {
                self.count_if(before.shown[LAST] != after.shown[LAST], "run: another slot 31 is shown");
            }
            Call::One { event, .. } => {
                self.count_if(before.current.0 != last && after.current.0 == last, "one: slot 31 is current");
                self.count_if(before.pending[NARROW..] != after.pending[NARROW..], "one: a slot from 16 on is set");
                let is_stale = before.mode == Mode::Following && after.mode == Mode::Stale && event.kind == EV_SYN;
                let is_met = is_stale && is_in_both(&ids(&before.pending));
                self.count_if(is_met, "one: an id in both halves makes it stale");
            }
            _ => {}
        }
    }

    /// An accepted frame: which slots changed.
    pub(super) fn count_halves(&mut self, before: &Writer, after: &Writer) {
        let (old, new) = (&before.table, &after.table);
        let changed: Vec<usize> = (0..SLOTS).filter(|s| old[*s] != new[*s]).collect();
        let (is_low, is_high) = (changed.iter().any(|s| *s < NARROW), changed.iter().any(|s| *s >= NARROW));
        for (what, is_so) in [
            ("slot 31 alone", changed == [LAST]),
            ("the upper half alone", is_high && !is_low),
            ("slots of both halves", is_high && is_low),
            ("slot 31 lifts", lands(&new[LAST], &old[LAST])),
            ("slot 31 lands", lands(&old[LAST], &new[LAST])),
        ] {
            if is_so {
                self.accepted(what);
            }
        }
    }
}

fn ids(slots: &[Slot]) -> Vec<i32> {
    slots.iter().map(|slot| slot.id.0).collect()
}

/// Whether a live id stands in both halves of a table.
fn is_in_both(ids: &[i32]) -> bool {
    let (low, high) = ids.split_at(ids.len().min(NARROW));
    high.iter().any(|id| *id != -1 && low.contains(id))
}
