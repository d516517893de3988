//! Mistakes in what K7 asks: 32 slots and a number of the changed ones that has 32 bits, for panels and not for cranes.

use second::events::*;
use second::reader::{Mode, Ran, Reader};
use second::script::{Call, WRITER_NUMBERS};
use second::table::{Layout, Setup, Slot, TrackingId, NARROW, PRESSURE, SLOTS, SLOT_NUMBERS};

use crate::loads::{ends, image};
use crate::losses::{after, is_lost};
use crate::slow_writer::{writes, RIGHT};
use crate::states::{mend_repeats, reader_of, writer_of, Find, SHOWN, WRITERS_TABLE};
use crate::wrong::{answers, refuses, right_step, says, steps, takes, Wrong};

/// The last slot of the widest panel.
const LAST: usize = SLOTS - 1;
/// What a frame needed at most when there were 16 slots.
const NARROW_NEED: usize = 896;

fn changed_slots() -> Vec<Wrong> {
    vec![
        writes("slot 31 has no bit", |parts| parts.changed = |slots| (RIGHT.changed)(slots) & i32::MAX as u32),
        writes("the changed slots have 16 bits", |parts| parts.changed = |slots| (RIGHT.changed)(slots) & 0xffff),
        writes("slots 16 apart share a bit", |parts| {
            parts.changed = |slots| slots.iter().fold(0, |bits, s| bits | 1 << (s % NARROW));
        }),
        says("the changed slots have a sign", |call, words| {
            if let Call::Write { .. } = call {
                let changed = &mut words[WRITER_NUMBERS + 2];
                *changed = (changed.parse::<u32>().expect("32 bits") as i32).to_string();
            }
        }),
    ]
}

/// It sends the changed slots that are so, and no others.
fn sends(name: &str, order: fn(&[usize], usize) -> Vec<usize>) -> Wrong {
    writes(name, |parts| parts.order = order)
}

fn what_is_sent() -> Vec<Wrong> {
    vec![
        sends("slot 31 is not sent", |changed, current| {
            (RIGHT.order)(changed, current).into_iter().filter(|s| *s != LAST).collect()
        }),
        sends("slots from 16 on are not sent", |changed, current| {
            (RIGHT.order)(changed, current).into_iter().filter(|s| *s < NARROW).collect()
        }),
        sends("the upper half is sent first", |changed, current| {
            let mut order = (RIGHT.order)(changed, current);
            order.sort_by_key(|s| (*s != current, *s < NARROW));
            order
        }),
        writes("a slot is named by its low four bits", |parts| parts.name = |slot| (slot % NARROW) as i32),
        writes("896 bytes are always room", |parts| {
            parts.has_room = |position, size, need| (RIGHT.has_room)(position, size, need.min(NARROW_NEED));
        }),
        writes("the need is 896 at most", |parts| {
            parts.need = |events, position, size| (RIGHT.need)(events, position, size).min(NARROW_NEED as u64);
        }),
        writes("ids of the upper half are free", |parts| parts.is_old_taken = |s, _| s < NARROW),
        writes("the id of slot 31 is free", |parts| parts.is_old_taken = |s, _| s != LAST),
    ]
}

/// A row of a frame as a program takes it that does not judge it.
fn mend_row(setup: &Setup, row: &mut [i32]) {
    if !(0..=2).contains(&row[0]) {
        row[0] = 0;
    }
    if row[0] != 0 {
        for (number, largest) in row[1..].iter_mut().zip(setup.largest) {
            *number = if *number as u32 > largest { 1 } else { *number };
        }
        row[1 + PRESSURE] = row[1 + PRESSURE].max(1);
    }
}

/// It does not judge the rows of a frame from this slot on.
fn overlooks_rows(name: &str, from: usize) -> Wrong {
    takes(name, move |call| {
        if let Call::Write { writer, frame, .. } = call {
            frame.chunks_exact_mut(SLOT_NUMBERS).skip(from).for_each(|row| mend_row(&writer.setup, row));
        }
    })
}

fn frames() -> Vec<Wrong> {
    vec![
        overlooks_rows("rows of the upper half are not judged", NARROW),
        overlooks_rows("the row of slot 31 is not judged", LAST),
        refuses("a frame has 96 numbers at most", 3, |call| match call {
            Call::Write { frame, .. } => frame.len() > NARROW * SLOT_NUMBERS,
            _ => false,
        }),
        refuses("a new writer has 16 slots at most", 1, |call| match call {
            Call::New { setup, .. } => setup.slots > NARROW as u64,
            _ => false,
        }),
        refuses("a writer has 16 slots at most", 2, |call| {
            writer_of(&mut call.clone()).is_some_and(|writer| writer.setup.slots > NARROW as u64)
        }),
    ]
}

/// A record that is not well formed as a program takes it that does not judge it.
fn mend_record(setup: &Setup, s: usize, slot: &mut Slot) {
    if s as u64 >= setup.slots {
        *slot = Slot::UNUSED;
    }
    if !(-1..=65_535).contains(&slot.id.0) {
        slot.id = TrackingId::UNUSED;
    }
    for (number, largest) in slot.numbers.iter_mut().zip(setup.largest) {
        *number = (*number).min(largest);
    }
}

fn tables((name, find): (&'static str, Find)) -> Vec<Wrong> {
    let mut all = vec![takes(format!("{name} records from 16 on are not judged"), move |call| {
        find(call, &|setup, table| {
            table.iter_mut().enumerate().skip(NARROW).for_each(|(s, slot)| mend_record(setup, s, slot));
        });
    })];
    for (what, is_seen) in LAPSES {
        all.push(takes(format!("{name} ids {what}"), move |call| {
            find(call, &|_, table| mend_repeats(table, |t, s, _| is_seen(t, s)));
        }));
    }
    all
}

/// Ids that are not compared: in words, and whether those of two slots are, the lower one first.
type Lapse = (&'static str, fn(usize, usize) -> bool);
const LAPSES: [Lapse; 4] = [
    ("of the upper half are not compared", |_, s| s < NARROW),
    ("of the upper half are compared with the lower alone", |t, _| t < NARROW),
    ("are compared within each half", |t, s| (t < NARROW) == (s < NARROW)),
    ("are not compared with that of slot 31", |_, s| s != LAST),
];

/// Each mistake of this file in a writer.
pub fn of_writers() -> Vec<Wrong> {
    [changed_slots(), what_is_sent(), frames(), tables(WRITERS_TABLE)].into_iter().flatten().collect()
}

/// It takes one value of ABS_MT_SLOT for another.
fn slot_values(name: &str, of: fn(i32, i32) -> i32) -> Wrong {
    steps(name, move |reader, event| {
        let is_slot = (event.kind, event.code) == (EV_ABS, ABS_MT_SLOT);
        let value = of(event.value, reader.setup.slots as i32);
        right_step(reader, Event { value: if is_slot { value } else { event.value }, ..event })
    })
}

/// Whether no live id of these slots stands twice.
fn differ(reader: &Reader, slots: std::ops::Range<usize>) -> bool {
    let mut few = reader.clone();
    let others = few.pending.iter_mut().enumerate().filter(|(s, _)| !slots.contains(s));
    others.for_each(|(_, slot)| slot.id = TrackingId::UNUSED);
    right_step(&mut few, Event::REPORT).shown == 1
}

/// At a report it looks at ids in this way alone.
fn reports(name: &str, is_good: fn(&Reader) -> bool) -> Wrong {
    steps(name, move |reader, event| {
        let is_report = (event.kind, event.code) == (EV_SYN, SYN_REPORT);
        if is_report && reader.mode == Mode::Following && reader.is_well_formed() && is_good(reader) {
            reader.shown = reader.pending;
            return Ran { shown: 1, ..Ran::NOTHING };
        }
        right_step(reader, event)
    })
}

fn records() -> Vec<Wrong> {
    vec![
        slot_values("slot 31 is a bad value", |value, _| if value == LAST as i32 { -1 } else { value }),
        slot_values("slots from 16 on are bad values", |value, _| if value >= NARROW as i32 { -1 } else { value }),
        slot_values("a slot is cut to four bits", |value, n| if (0..n).contains(&value) { value & 15 } else { value }),
        slot_values("slot 32 is slot 0", |value, _| if value == SLOTS as i32 { 0 } else { value }),
        reports("a report compares the ids of the lower half", |reader| differ(reader, 0..NARROW)),
        reports("a report compares ids within each half", |reader| {
            differ(reader, 0..NARROW) && differ(reader, NARROW..SLOTS)
        }),
        reports("a report does not compare the id of slot 31", |reader| differ(reader, 0..LAST)),
        after("a report shows the lower half", |before, _, now, _| {
            now.shown[NARROW..].copy_from_slice(&before.shown[NARROW..]);
        }),
        after("slot 31 is never shown", |before, _, now, _| now.shown[LAST] = before.shown[LAST]),
        after("a loss keeps what is pending in the upper half", |before, _, now, _| {
            if is_lost(before, now) {
                now.pending[NARROW..].copy_from_slice(&before.pending[NARROW..]);
            }
        }),
    ]
}

fn loads() -> Vec<Wrong> {
    let mut all = vec![
        ends("the upper half of an image is not loaded", |before, loaded| {
            loaded.shown[NARROW..].copy_from_slice(&before.shown[NARROW..]);
            loaded.pending[NARROW..].copy_from_slice(&before.pending[NARROW..]);
        }),
        ends("slot 31 of an image is not loaded", |before, loaded| {
            (loaded.shown[LAST], loaded.pending[LAST]) = (before.shown[LAST], before.pending[LAST]);
        }),
        image("rows of an image from 16 on are not judged", |reader, _, image| {
            for row in image.chunks_exact_mut(SLOT_NUMBERS).skip(NARROW) {
                row[0] = if (-1..=65_535).contains(&row[0]) { row[0] } else { -1 };
                let numbers = row[1..].iter_mut().zip(reader.setup.largest);
                numbers.for_each(|(number, largest)| *number = if *number as u32 > largest { 0 } else { *number });
            }
        }),
        refuses("an image has 96 numbers at most", 8, |call| match call {
            Call::Load { image, .. } => image.len() > NARROW * SLOT_NUMBERS,
            _ => false,
        }),
    ];
    for (what, is_seen) in LAPSES {
        all.push(image(format!("ids of an image {what}"), move |_, _, image| {
            let ids: Vec<i32> = image.chunks_exact(SLOT_NUMBERS).map(|row| row[0]).collect();
            for s in 0..ids.len() {
                if ids[s] != -1 && (0..s).any(|t| ids[t] == ids[s] && !is_seen(t, s)) {
                    image[SLOT_NUMBERS * s] = 33_000 + s as i32;
                }
            }
        }));
    }
    all
}

/// It takes the slot that is asked for for another.
fn asks(name: &str, of: fn(u64) -> u64) -> Wrong {
    takes(name, move |call| {
        if let Call::Ask { slot, .. } = call {
            slot.0 = of(slot.0);
        }
    })
}

fn questions_and_setups() -> Vec<Wrong> {
    vec![
        answers("there is no slot 31", |asked| match asked.call? {
            Call::Ask { slot, .. } if slot.0 == LAST as u64 && !asked.right.starts_with("refused") => {
                Some("none".to_string())
            }
            _ => None,
        }),
        asks("the slot that is asked for is cut to four bits", |slot| if slot < 32 { slot & 15 } else { slot }),
        asks("the slot that is asked for is cut to five bits", |slot| slot & 31),
        refuses("a fresh reader has 16 slots at most", 1, |call| match call {
            Call::Fresh(_, setup) => setup.slots > NARROW as u64,
            _ => false,
        }),
        refuses("a reader has 16 slots at most", 2, |call| {
            call.reader().is_some_and(|reader| reader.setup.slots > NARROW as u64)
        }),
    ]
}

/// Each mistake of this file in the panel's reader.
pub fn of_readers() -> Vec<Wrong> {
    [tables(SHOWN), records(), loads(), questions_and_setups()].into_iter().flatten().collect()
}

/// A wide panel's n becomes 16.
fn narrowed(setup: &mut Setup) {
    if (NARROW as u64 + 1..=SLOTS as u64).contains(&setup.slots) {
        setup.slots = NARROW as u64;
    }
}

/// Each mistake of this file in a crane's reader.
pub fn of_cranes() -> Vec<Wrong> {
    vec![
        takes("a crane takes a wide panel for one of 16 slots", |call| {
            if let Call::Fresh(Layout::Crane, setup) = call {
                narrowed(setup);
            }
        }),
        takes("a crane of 17 to 32 slots is well formed", |call| {
            reader_of(call).into_iter().for_each(|reader| narrowed(&mut reader.setup));
        }),
        says("a crane's table is told with 32 records", |call, words| {
            if let Call::Fresh(..) = call {
                words.extend(vec!["0".to_string(); (SLOTS - NARROW) * Layout::Crane.slot_numbers()]);
            }
        }),
    ]
}
