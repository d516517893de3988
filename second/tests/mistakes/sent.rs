//! Mistakes in what a frame is sent as: the ids given, the events and their order, the counter and the current slot afterwards.

use second::events::{Event, ABS_MT_POSITION_X, ABS_MT_TRACKING_ID};
use second::table::{Slot, TrackingId, PRESSURE, SLOTS};
use second::writer::MOST_EVENTS;

use crate::slow_writer::{numbers_of, six, writes, RIGHT};
use crate::states::too_few_bits;
use crate::wrong::Wrong;

fn ids() -> Vec<Wrong> {
    let mut all = vec![
        writes("a replaced id is free in its own frame", |parts| parts.is_old_taken = |_, kind| kind != 2),
        writes("a lifted id is free in its own frame", |parts| parts.is_old_taken = |_, kind| kind != 0),
        writes("an id that goes on is free", |parts| parts.is_old_taken = |_, kind| kind != 1),
        writes("an id given in this frame is free", |parts| {
            parts.is_given_taken = false;
            parts.start = |counter, _| counter;
        }),
        writes("a search begins behind the counter", |parts| {
            parts.start = |counter, given| ((RIGHT.start)(counter, given) + 1) % 65_536;
        }),
        writes("the current slot gets its id first", |parts| {
            parts.giving = |slots, current| [current].into_iter().chain((0..slots).filter(|s| *s != current)).collect();
        }),
        writes("the last slot gets its id first", |parts| parts.giving = |slots, _| (0..slots).rev().collect()),
        writes("65,535 is never given", |parts| parts.behind = |id| (id + 1) % 65_535),
        writes("behind 65,535 comes 1", |parts| parts.behind = |id| if id == 65_535 { 1 } else { id + 1 }),
        writes("behind 32,767 comes 0", |parts| parts.behind = |id| (id + 1) % 32_768),
    ];
    for (how, bits) in too_few_bits() {
        all.push(writes(format!("a new id is compared {how}"), |parts| parts.compared = bits as u32));
    }
    for passes in 0..SLOTS as u32 {
        all.push(writes(format!("a search passes {passes} ids at most"), |parts| parts.passes = passes));
    }
    all
}

fn counters() -> Vec<Wrong> {
    vec![
        writes("the counter counts the ids given", |parts| {
            parts.counter = |counter, given| (counter + given.len() as u32) % 65_536;
        }),
        writes("the counter is the last id", |parts| {
            parts.counter = |counter, given| given.last().copied().unwrap_or(counter);
        }),
        writes("the counter is behind the first id", |parts| {
            parts.counter = |counter, given| given.first().map_or(counter, |id| (id + 1) % 65_536);
        }),
        writes("the counter is behind the largest id", |parts| {
            parts.counter = |counter, given| given.iter().max().map_or(counter, |id| (id + 1) % 65_536);
        }),
        writes("the counter stays", |parts| parts.counter = |counter, _| counter),
        writes("the counter becomes 65,536", |parts| {
            parts.counter = |counter, given| given.last().map_or(counter, |id| id + 1);
        }),
    ]
}

fn rows() -> Vec<Wrong> {
    vec![
        writes("kind 1 always begins", |parts| parts.begins = |_, _| true),
        writes("kind 2 goes on", |parts| parts.begins = |_, is_live| !is_live),
        writes("kind 2 begins nothing in an unused slot", |parts| {
            parts.begins = |kind, is_live| (kind == 2) == is_live;
        }),
        writes("kind 0 keeps the id", |parts| parts.lifted = |old, _| old),
        writes("a lift clears the numbers", |parts| parts.lifted = |_, _| Slot::UNUSED),
        writes("a lift clears pressure", |parts| {
            parts.lifted = |old, _| cleared(old, &[PRESSURE]);
        }),
        writes("a lift takes the frame's numbers", |parts| {
            parts.lifted = |_, row| Slot { id: TrackingId::UNUSED, numbers: numbers_of(row) };
        }),
    ]
}

/// The lifted slot with these numbers 0.
pub fn cleared(old: Slot, numbers: &[usize]) -> Slot {
    let mut slot = Slot { id: TrackingId::UNUSED, ..old };
    numbers.iter().for_each(|i| slot.numbers[*i] = 0);
    slot
}

/// The right events of a slot, those of this code last.
pub fn last(code: u16, old: &Slot, new: &Slot) -> Vec<Event> {
    let mut events = (RIGHT.numbers)(old, new);
    events.sort_by_key(|event| event.code == code);
    events
}

fn events() -> Vec<Wrong> {
    vec![
        writes("slots are sent in rising order", |parts| {
            parts.order = |changed, _| changed.to_vec();
            parts.is_named = |slot, current, before| before.unwrap_or(current) != slot;
        }),
        writes("the other slots are sent in falling order", |parts| {
            parts.order = |changed, current| {
                let mut order = (RIGHT.order)(changed, current);
                let others = usize::from(order.first() == Some(&current));
                order[others..].reverse();
                order
            };
        }),
        writes("the current slot is named too", |parts| parts.is_named = |_, _, _| true),
        writes("the slot behind the one before is not named", |parts| {
            parts.is_named = |slot, current, before| slot != current && before.map_or(0, |before| before + 1) != slot;
        }),
        writes("equal numbers are sent", |parts| parts.numbers = |_, new| six(new).to_vec()),
        writes("a new contact's numbers are all sent", |parts| {
            parts.numbers = |old, new| match new.id != old.id && new.id.is_live() {
                true => six(new).to_vec(),
                false => (RIGHT.numbers)(old, new),
            };
        }),
        writes("the id is sent last", |parts| parts.numbers = |old, new| last(ABS_MT_TRACKING_ID, old, new)),
        writes("x is sent last", |parts| parts.numbers = |old, new| last(ABS_MT_POSITION_X, old, new)),
        writes("a lift is sent as 65,535", |parts| {
            parts.numbers = |old, new| {
                let cut = |event: Event| Event { value: event.value & 0xffff, ..event };
                (RIGHT.numbers)(old, new).into_iter().map(cut).collect()
            };
        }),
        writes("no report is sent", |parts| parts.end = |events| events),
        writes("a report is always sent", |parts| parts.end = |events| [events, vec![Event::REPORT]].concat()),
        writes("the report counts the events", |parts| {
            parts.end = |events| {
                let count = events.len() as i32;
                (RIGHT.end)(events)
                    .into_iter()
                    .map(|event| if event == Event::REPORT { Event { value: count, ..event } } else { event })
                    .collect()
            };
        }),
        writes("one event less is the most", |parts| {
            parts.end = |events| (RIGHT.end)(events).into_iter().take(MOST_EVENTS - 1).collect();
        }),
        writes("80 events are the most", |parts| {
            parts.end = |events| (RIGHT.end)(events).into_iter().take(80).collect();
        }),
        writes("112 events are the most", |parts| {
            parts.end = |events| (RIGHT.end)(events).into_iter().take(112).collect();
        }),
    ]
}

fn answers() -> Vec<Wrong> {
    vec![
        writes("the current slot stays", |parts| parts.current = |_, current| current),
        writes("the current slot is the highest sent", |parts| {
            parts.current = |sent, current| sent.iter().max().copied().unwrap_or(current);
        }),
        writes("the current slot becomes 0 where nothing is sent", |parts| {
            parts.current = |sent, _| sent.last().copied().unwrap_or(0);
        }),
        writes("slots from 8 on have no bit", |parts| parts.changed = |slots| (RIGHT.changed)(slots) & 0xff),
        writes("slot 0 has the highest bit", |parts| {
            parts.changed = |slots| (RIGHT.changed)(slots).reverse_bits();
        }),
    ]
}

/// Each mistake of this file.
pub fn all() -> Vec<Wrong> {
    [ids(), counters(), rows(), events(), answers()].into_iter().flatten().collect()
}
