//! What the answer to a run or to one record tells.

use super::{mode_name, Tally, Words};
use crate::events::{events, Event, ABS_MT_TOUCH_MAJOR, ABS_MT_TOUCH_MINOR, EV_ABS, KNOWN_TYPES};
use crate::reader::{Mode, Reader};
use crate::script::{reader_numbers, Call};
use crate::table::{Layout, MAJOR, MINOR};

pub(super) const COUNTS: [&str; 5] = ["tables shown", "unknown type", "unknown code", "bad", "ignored"];
const SIZES: [(&str, u16, usize); 2] = [("major", ABS_MT_TOUCH_MAJOR, MAJOR), ("minor", ABS_MT_TOUCH_MINOR, MINOR)];

impl Tally {
    /// An accepted run, or one accepted record.
    pub(super) fn count_run(&mut self, call: &Call, said: &Words) {
        let Some(before) = call.reader() else {
            return;
        };
        let numbers = reader_numbers(before.layout);
        let good = if before.layout == Layout::Crane { "crane_good" } else { "good" };
        let Some(Call::Good { reader: after }) = said.as_call(good, numbers, "") else {
            return;
        };
        let name = call.name();
        match call {
            Call::One { event, .. } => {
                self.note(format!("{name}: {} to {}", mode_name(before.mode), mode_name(after.mode)));
                self.count_size(&name, before, &after, *event);
            }
            Call::Run { bytes, .. } => {
                self.note(format!("{name}: ends {}", mode_name(after.mode)));
                self.count_sizes(&name, before, &after, bytes);
            }
            _ => {}
        }
        for (i, what) in COUNTS.iter().enumerate() {
            if !matches!(said.at(numbers + 1 + i), "" | "0") {
                self.note(format!("{name}: {what}"));
            }
        }
        self.count_first(&name, said, numbers + 1 + COUNTS.len());
    }

    /// What was skipped first, which stands at this place.
    fn count_first(&mut self, name: &str, said: &Words, place: usize) {
        let first = match said.at(place) {
            "" => return,
            "none" => "none skipped",
            kind if KNOWN_TYPES.iter().any(|known| kind == known.to_string()) => "first skipped by its code",
            _ => "first skipped by its type",
        };
        self.note(format!("{name}: {first}"));
        for (size, code, _) in SIZES {
            if (said.at(place), said.at(place + 1)) == (&EV_ABS.to_string(), &code.to_string()) {
                self.note(format!("{name}: {size} is skipped first"));
            }
        }
    }

    /// A touch size that is set while following.
    fn count_size(&mut self, name: &str, before: &Reader, after: &Reader, event: Event) {
        let (s, is_followed) = (before.current.0 as usize, after.mode == Mode::Following);
        for (size, code, i) in SIZES {
            let is_set = after.pending.get(s).is_some_and(|slot| slot.numbers[i] as i32 == event.value);
            if (event.kind, event.code) == (EV_ABS, code) && is_followed && is_set && before.layout == Layout::Panel {
                self.note(format!("{name}: {size} is set"));
            }
        }
    }

    /// Touch sizes among the records, and those that are shown otherwise than before.
    fn count_sizes(&mut self, name: &str, before: &Reader, after: &Reader, records: &[u8]) {
        let is_size = |event: Event| SIZES.iter().any(|(_, code, _)| (event.kind, event.code) == (EV_ABS, *code));
        if before.mode == Mode::Following && events(records).any(is_size) {
            self.note(format!("{name}: touch sizes are given"));
        }
        for (size, _, i) in SIZES {
            if before.shown.iter().zip(&after.shown).any(|(old, new)| old.numbers[i] != new.numbers[i]) {
                self.note(format!("{name}: another {size} is shown"));
            }
        }
    }
}
