//! Mistakes in what K1 asks: touch sizes in what a writer sends, and cranes that skip them.

use second::events::*;
use second::reader::{Mode, Ran, Reader};
use second::script::Call;
use second::table::{Layout, Slot, TrackingId, MAJOR, MINOR, PRESSURE};

use crate::sent::{cleared, last};
use crate::slow_writer::{numbers_of, six, writes, RIGHT};
use crate::wrong::{right_step, says, skipped, steps, takes, Wrong};

fn is_size(event: &Event) -> bool {
    matches!(event.code, ABS_MT_TOUCH_MAJOR | ABS_MT_TOUCH_MINOR) && event.kind == EV_ABS
}

/// The right events of a slot, and those of its others that are so.
fn and_others(old: &Slot, new: &Slot, is_so: impl Fn(&Event) -> bool) -> Vec<Event> {
    let right = (RIGHT.numbers)(old, new);
    six(new).into_iter().filter(|event| right.contains(event) || is_so(event)).collect()
}

/// The right events of a slot without those of this code.
fn without(code: u16, old: &Slot, new: &Slot) -> Vec<Event> {
    (RIGHT.numbers)(old, new).into_iter().filter(|event| event.code != code).collect()
}

/// The right events of a slot, one of them with another code.
fn recoded(old: &Slot, new: &Slot, from: u16, to: u16) -> Vec<Event> {
    let other = |event: Event| if event.code == from { Event::abs(to, event.value) } else { event };
    (RIGHT.numbers)(old, new).into_iter().map(other).collect()
}

fn order() -> Vec<Wrong> {
    vec![
        writes("minor is sent before major", |parts| {
            parts.numbers = |old, new| {
                let mut events = (RIGHT.numbers)(old, new);
                events.sort_by_key(|event| (is_size(event), event.code == ABS_MT_TOUCH_MAJOR));
                events
            };
        }),
        writes("the sizes are sent before pressure", |parts| {
            parts.numbers = |old, new| last(ABS_MT_PRESSURE, old, new);
        }),
        writes("the sizes are sent behind the id", |parts| {
            parts.numbers = |old, new| {
                let mut events = (RIGHT.numbers)(old, new);
                events.sort_by_key(|event| (event.code != ABS_MT_TRACKING_ID, !is_size(event)));
                events
            };
        }),
    ]
}

fn what_is_sent() -> Vec<Wrong> {
    vec![
        writes("equal sizes are sent", |parts| parts.numbers = |old, new| and_others(old, new, is_size)),
        writes("a landing sends its sizes", |parts| {
            parts.numbers = |old, new| {
                let lands = !old.id.is_live() && new.id.is_live();
                and_others(old, new, |event| lands && is_size(event))
            };
        }),
        writes("one size is sent with the other", |parts| {
            parts.numbers = |old, new| {
                let is_sent = (RIGHT.numbers)(old, new).iter().any(is_size);
                and_others(old, new, |event| is_sent && is_size(event))
            };
        }),
        writes("pressure is sent with a size", |parts| {
            parts.numbers = |old, new| {
                let is_sent = (RIGHT.numbers)(old, new).iter().any(is_size);
                and_others(old, new, |event| is_sent && event.code == ABS_MT_PRESSURE)
            };
        }),
        writes("major is not sent", |parts| parts.numbers = |old, new| without(ABS_MT_TOUCH_MAJOR, old, new)),
        writes("minor is not sent", |parts| parts.numbers = |old, new| without(ABS_MT_TOUCH_MINOR, old, new)),
        writes("major has the code of minor", |parts| {
            parts.numbers = |old, new| recoded(old, new, ABS_MT_TOUCH_MAJOR, ABS_MT_TOUCH_MINOR);
        }),
        writes("minor has the code of major", |parts| {
            parts.numbers = |old, new| recoded(old, new, ABS_MT_TOUCH_MINOR, ABS_MT_TOUCH_MAJOR);
        }),
        writes("minor has the code behind it", |parts| {
            parts.numbers = |old, new| recoded(old, new, ABS_MT_TOUCH_MINOR, 0x32);
        }),
    ]
}

fn lifts() -> Vec<Wrong> {
    vec![
        writes("kind 0 clears the sizes", |parts| parts.lifted = |old, _| cleared(old, &[MAJOR, MINOR])),
        writes("kind 0 clears major", |parts| parts.lifted = |old, _| cleared(old, &[MAJOR])),
        writes("kind 0 clears minor", |parts| parts.lifted = |old, _| cleared(old, &[MINOR])),
        writes("kind 0 takes the frame's sizes", |parts| {
            parts.lifted = |old, row| {
                let mut slot = Slot { id: TrackingId::UNUSED, ..old };
                slot.numbers[MAJOR..].copy_from_slice(&numbers_of(row)[MAJOR..]);
                slot
            };
        }),
    ]
}

/// A frame's row with its sizes as another program takes them.
fn rows(name: &str, change: fn(&mut [i32])) -> Wrong {
    takes(name, move |call| {
        if let Call::Write { frame, .. } = call {
            frame.chunks_exact_mut(1 + Layout::Panel.numbers()).for_each(change);
        }
    })
}

fn frames() -> Vec<Wrong> {
    vec![
        rows("the sizes of a frame are swapped", |row| row.swap(1 + MAJOR, 1 + MINOR)),
        rows("pressure stands behind the sizes", |row| row[1 + PRESSURE..].rotate_left(1)),
        rows("a size of 256 is 255", |row| {
            row[1 + MAJOR..].iter_mut().filter(|size| **size == 256).for_each(|size| *size = 255);
        }),
        rows("minor is not above major", |row| row[1 + MINOR] = row[1 + MINOR].min(row[1 + MAJOR])),
        rows("a size may not be 0", |row| {
            row[1 + MAJOR..].iter_mut().filter(|size| **size == 0).for_each(|size| *size = -1);
        }),
    ]
}

/// Each mistake of this file in a writer.
pub fn of_writers() -> Vec<Wrong> {
    [order(), what_is_sent(), lifts(), frames()].into_iter().flatten().collect()
}

/// It reads a touch size otherwise while following; the reader is a crane's.
fn reads_size(name: &str, read: fn(&mut Reader, Event) -> Ran) -> Wrong {
    steps(name, move |reader, event| {
        if is_size(&event) && reader.mode == Mode::Following {
            return read(reader, event);
        }
        right_step(reader, event)
    })
}

fn loses(reader: &mut Reader) {
    reader.mode = Mode::Dropped;
    reader.pending = reader.shown;
}

fn sizes_read() -> Vec<Wrong> {
    vec![
        steps("a crane loses track at code 0x30", |reader, event| {
            if reader.mode != Mode::Following || (event.kind, event.code) != (EV_ABS, ABS_MT_TOUCH_MAJOR) {
                return right_step(reader, event);
            }
            loses(reader);
            Ran { bad: 1, ..Ran::NOTHING }
        }),
        reads_size("a crane loses track at a size, and skips it", |reader, event| {
            loses(reader);
            skipped(event)
        }),
        reads_size("a crane judges sizes by 255", |reader, event| {
            if (0..256).contains(&event.value) {
                return skipped(event);
            }
            loses(reader);
            Ran { bad: 1, ..Ran::NOTHING }
        }),
        reads_size("a crane shows a table at a size", |reader, event| {
            reader.shown = reader.pending;
            skipped(event)
        }),
        steps("a crane sets pressure by major", |reader, event| {
            let is_major = (event.kind, event.code) == (EV_ABS, ABS_MT_TOUCH_MAJOR);
            right_step(reader, Event { code: if is_major { ABS_MT_PRESSURE } else { event.code }, ..event })
        }),
        steps("a crane sets pressure by minor, and skips it", |reader, event| {
            let ran = right_step(reader, event);
            let is_minor = (event.kind, event.code) == (EV_ABS, ABS_MT_TOUCH_MINOR);
            if is_minor && ran.skipped() == 1 && (0..=reader.setup.largest[PRESSURE] as i32).contains(&event.value) {
                reader.pending[reader.current.0 as usize].numbers[PRESSURE] = event.value as u32;
            }
            ran
        }),
    ]
}

fn sizes_told() -> Vec<Wrong> {
    vec![
        reads_size("a crane takes sizes and counts none", |_, _| Ran::NOTHING),
        reads_size("a crane takes a size for an unknown type", |_, event| Ran {
            unknown_type: 1,
            unknown_code: 0,
            ..skipped(event)
        }),
        reads_size("a crane names no size", |_, event| Ran { first_skipped: None, ..skipped(event) }),
        reads_size("a crane names minor as major", |_, event| Ran {
            first_skipped: Some((EV_ABS, ABS_MT_TOUCH_MAJOR)),
            ..skipped(event)
        }),
    ]
}

fn loads_and_questions() -> Vec<Wrong> {
    vec![
        takes("a crane takes an image of six numbers a slot", |call| match call {
            Call::Load { reader, image, .. } if image.len() as u64 == reader.setup.slots.saturating_mul(6) => {
                *image = image.chunks_exact(6).flat_map(|row| row[..4].to_vec()).collect();
            }
            _ => {}
        }),
        says("a crane answers six numbers", |call, words| {
            if matches!(call, Call::Ask { .. }) && words[0] == "contact" {
                words.extend(["0".to_string(), "0".to_string()]);
            }
        }),
        says("a crane's setup is told with sizes", |call, words| {
            if matches!(call, Call::Fresh(..)) && words[0] == "0" {
                words.splice(5..5, ["255".to_string(), "255".to_string()]);
            }
        }),
    ]
}

/// Each mistake of this file in a crane's reader.
pub fn of_cranes() -> Vec<Wrong> {
    [sizes_read(), sizes_told(), loads_and_questions()].into_iter().flatten().collect()
}
