//! What the answer to a frame tells.

use super::{Tally, Words};
use crate::script::{Call, WRITER_NUMBERS};
use crate::table::{Slot, MAJOR, MINOR, PRESSURE, SLOT_NUMBERS};
use crate::writer::{Writer, LARGEST_FRAME, MOST_CONTACT_EVENTS};

/// Places in the answer; between the first two stands the number of the changed slots, and behind the third the `:`.
pub(super) const EVENTS: usize = WRITER_NUMBERS + 1;
pub(super) const NEED: usize = WRITER_NUMBERS + 3;
pub(super) const BYTES: usize = NEED + 2;

impl Tally {
    pub(super) fn count_write(&mut self, writer: &Writer, frame: &[i32], said: &Words) {
        match said.at(0) {
            "0" => {
                self.count_written(writer, said);
                self.count_pressures(writer, frame);
            }
            "4" if is_unpressed_alone(writer, frame) => self.note("write: refused for pressure 0 alone"),
            "5" => match said.at(NEED) {
                "" => {}
                "0" => self.note("write: no room, no need"),
                _ => self.note("write: no room, a need"),
            },
            _ => {}
        }
    }

    pub(super) fn accepted(&mut self, what: &str) {
        self.note(format!("write: accepted, {what}"));
    }

    fn count_written(&mut self, writer: &Writer, said: &Words) {
        let Some(Call::Write { writer: after, .. }) = said.as_call("write", WRITER_NUMBERS, "0 0") else {
            return;
        };
        match said.at(EVENTS) {
            "" => return,
            "0" => self.accepted("no event"),
            events if events == MOST_CONTACT_EVENTS.to_string() => self.accepted(&format!("{events} events")),
            _ => self.accepted("some events"),
        }
        if after.counter < writer.counter {
            self.note("write: the counter wrapped");
        }
        self.count_halves(writer, &after);
        self.count_sizes_sent(writer, &after);
    }

    /// What K1 asks of frames.
    fn count_sizes_sent(&mut self, before: &Writer, after: &Writer) {
        let changed = || before.table.iter().zip(&after.table).filter(|(old, new)| old != new);
        let sizes = |slot: &Slot| (slot.numbers[MAJOR], slot.numbers[MINOR]);
        if let (Some((old, new)), 1) = (changed().next(), changed().count()) {
            let with_new_sizes = |places: &[usize]| {
                let mut slot = *old;
                places.iter().for_each(|i| slot.numbers[*i] = new.numbers[*i]);
                slot
            };
            if with_new_sizes(&[MAJOR]) == *new {
                self.accepted("major and nothing else");
            } else if with_new_sizes(&[MINOR]) == *new {
                self.accepted("minor and nothing else");
            } else if with_new_sizes(&[MAJOR, MINOR]) == *new {
                self.accepted("both sizes and nothing else");
            }
        }
        for (what, is_there) in [
            ("a landing with other sizes", changed().any(|(old, new)| lands(old, new) && sizes(old) != sizes(new))),
            (
                "a landing with the sizes that were there",
                changed().any(|(old, new)| lands(old, new) && sizes(old) == sizes(new) && sizes(new) != (0, 0)),
            ),
            ("a lift keeps the sizes", changed().any(|(old, new)| lands(new, old) && sizes(new) != (0, 0))),
        ] {
            if is_there {
                self.accepted(what);
            }
        }
    }

    /// What K8 asks of frames, and what it leaves.
    fn count_pressures(&mut self, writer: &Writer, frame: &[i32]) {
        let rows = || frame.chunks_exact(SLOT_NUMBERS).map(|row| (row[0], row[1 + PRESSURE]));
        let is_unpressed = |old: &Slot| old.id.is_live() && old.numbers[PRESSURE] == 0;
        let unpressed = || writer.table.iter().zip(rows()).filter(|(old, _)| is_unpressed(old));
        for (what, is_there) in [
            ("a contact of pressure 1", rows().any(|(kind, pressure)| kind != 0 && pressure == 1)),
            ("pressure 0 in kind 0", rows().any(|row| row == (0, 0))),
            ("a contact of pressure 0 lifts", unpressed().any(|(_, (kind, _))| kind == 0)),
            ("a contact of pressure 0 presses", unpressed().any(|(_, (kind, _))| kind != 0)),
        ] {
            if is_there {
                self.accepted(what);
            }
        }
    }
}

pub(super) fn lands(old: &Slot, new: &Slot) -> bool {
    !old.id.is_live() && new.id.is_live()
}

/// Whether the frame would be taken if its contacts of pressure 0 pressed.
fn is_unpressed_alone(writer: &Writer, frame: &[i32]) -> bool {
    let mut pressing = frame.to_vec();
    for row in pressing.chunks_exact_mut(SLOT_NUMBERS) {
        row[1 + PRESSURE] += i32::from(row[1 + PRESSURE] == 0);
    }
    writer.clone().write(&pressing, &mut [0; LARGEST_FRAME], 0).is_ok()
}
