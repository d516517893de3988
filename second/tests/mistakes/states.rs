//! Mistakes in what is judged of a setup and a state: each end of each range, widths, and ids that stand twice.

use second::reader::Mode;
use second::script::Call;
use second::table::{Layout, Setup, Slot, Table, TrackingId, LARGEST_ID, LIMITS, NUMBERS, SLOTS, X};

use crate::wrong::{refuses, takes, Wrong};

/// Where a setup stands: name, the refusal that it is judged by there, and how to find it.
type Place = (&'static str, u8, fn(&mut Call) -> Option<&mut Setup>);
const READER_PLACES: [Place; 2] = [
    ("fresh", 1, |call| match call {
        Call::Fresh(_, setup) => Some(setup),
        _ => None,
    }),
    ("a reader's", 2, |call| reader_of(call).map(|reader| &mut reader.setup)),
];
const WRITER_PLACES: [Place; 2] = [
    ("new", 1, |call| match call {
        Call::New { setup, .. } => Some(setup),
        _ => None,
    }),
    ("a writer's", 2, |call| writer_of(call).map(|writer| &mut writer.setup)),
];

/// What a slot's numbers are called, in their order.
pub const NAMES: [&str; NUMBERS] = ["x", "y", "pressure", "major", "minor"];

/// A setup's number: n where `i` is 0, and behind it the largest values.
fn number_of(setup: &Setup, i: usize) -> u64 {
    match i {
        0 => setup.slots,
        _ => setup.largest[i - 1].into(),
    }
}

fn set_number(setup: &mut Setup, i: usize, number: u64) {
    match i {
        0 => setup.slots = number,
        _ => setup.largest[i - 1] = number as u32,
    }
}

/// The reader that a call is on.
pub fn reader_of(call: &mut Call) -> Option<&mut second::reader::Reader> {
    match call {
        Call::Run { reader, .. }
        | Call::One { reader, .. }
        | Call::Load { reader, .. }
        | Call::Ask { reader, .. }
        | Call::Good { reader } => Some(reader),
        _ => None,
    }
}

/// The writer that a call is on.
pub fn writer_of(call: &mut Call) -> Option<&mut second::writer::Writer> {
    match call {
        Call::Write { writer, .. } => Some(writer),
        _ => None,
    }
}

fn setups(layout: Layout, places: &[Place]) -> Vec<Wrong> {
    let numbers = || (0..1 + layout.numbers()).map(move |i| (i, number_name(i), number_limit(layout, i)));
    places.iter().flat_map(|place| numbers().flat_map(|number| setup_number(*place, number))).collect()
}

fn number_name(i: usize) -> String {
    match i {
        0 => "n".to_string(),
        _ => format!("largest {}", NAMES[i - 1]),
    }
}

fn number_limit(layout: Layout, i: usize) -> u64 {
    match i {
        0 => layout.slots() as u64,
        _ => LIMITS[i - 1].into(),
    }
}

fn setup_number((place, refusal, find): Place, (i, name, limit): (usize, String, u64)) -> Vec<Wrong> {
    let mut all = Vec::new();
    for (bad, mended) in [(0, 1), (limit + 1, limit)] {
        // No current slot is below an n of 0, so that a state is refused all the same.
        if (bad, i, refusal) == (0, 0, 2) {
            continue;
        }
        all.push(takes(format!("{place} {name} may be {bad}"), move |call| {
            let setup = find(call).filter(|setup| number_of(setup, i) == bad);
            setup.into_iter().for_each(|setup| set_number(setup, i, mended));
        }));
    }
    for good in [1, limit] {
        all.push(refuses(format!("{place} {name} may not be {good}"), refusal, move |call| {
            find(&mut call.clone()).is_some_and(|setup| number_of(setup, i) == good)
        }));
    }
    let widths: &[u32] = if i == 0 { &[8, 16, 31, 32, 63] } else { &[16, 31] };
    for bits in widths {
        let mask = (1u64 << bits) - 1;
        all.push(takes(format!("{place} {name} is cut to {bits} bits"), move |call| {
            find(call).into_iter().for_each(|setup| set_number(setup, i, number_of(setup, i) & mask));
        }));
    }
    all
}

/// A table of a call's state that is judged by itself; while lost a reader has but one.
pub type Find = fn(&mut Call, &dyn Fn(&Setup, &mut Table));
pub const WRITERS_TABLE: (&str, Find) = ("writer's", |call, change| {
    if let Some(writer) = writer_of(call) {
        change(&writer.setup, &mut writer.table);
    }
});
pub const SHOWN: (&str, Find) = ("shown", |call, change| {
    if let Some(reader) = reader_of(call) {
        let is_one = reader.mode != Mode::Following && reader.shown == reader.pending;
        change(&reader.setup, &mut reader.shown);
        if is_one {
            reader.pending = reader.shown;
        }
    }
});
const PENDING: (&str, Find) = ("pending", |call, change| {
    if let Some(reader) = reader_of(call).filter(|reader| reader.mode == Mode::Following) {
        change(&reader.setup, &mut reader.pending);
    }
});

/// A bad record made good, as a program sees it that does not judge that part.
type Mend = Box<dyn Fn(&Setup, usize, &mut Slot)>;

fn mends(layout: Layout) -> Vec<(String, Mend)> {
    let mut all: Vec<(String, Mend)> = vec![
        ("id may be 65,536".to_string(), Box::new(|_, s, slot| mend_id(slot, 65_536, s))),
        (
            "id may be -2".to_string(),
            Box::new(|_, _, slot| {
                if slot.id.0 == -2 {
                    slot.id = TrackingId::UNUSED;
                }
            }),
        ),
        (
            "id past n is not judged".to_string(),
            Box::new(|setup, s, slot| {
                if s as u64 >= setup.slots {
                    slot.id = TrackingId::UNUSED;
                }
            }),
        ),
        ("x is cut to 16 bits".to_string(), Box::new(|_, _, slot| slot.numbers[X] &= 0xffff)),
    ];
    for (i, name) in NAMES.into_iter().enumerate().take(layout.numbers()) {
        all.push((
            format!("{name} may be one too large"),
            Box::new(move |setup, _, slot| mend_number(&mut slot.numbers[i], setup.largest[i])),
        ));
        all.push((
            format!("{name} is judged by {} alone", LIMITS[i]),
            Box::new(move |setup, _, slot| judge_by(&mut slot.numbers[i], setup.largest[i], LIMITS[i])),
        ));
        all.push((
            format!("{name} past n is not judged"),
            Box::new(move |setup, s, slot| slot.numbers[i] *= u32::from((s as u64) < setup.slots)),
        ));
    }
    all
}

/// An id that the table has not, where it had this one.
fn mend_id(slot: &mut Slot, bad: i32, s: usize) {
    if slot.id.0 == bad {
        slot.id = TrackingId(33_000 + s as i32);
    }
}

/// A number that passes for good by another largest value.
fn judge_by(number: &mut u32, largest: u32, other: u32) {
    if (largest..=other).contains(number) {
        *number = largest;
    }
}

fn mend_number(number: &mut u32, largest: u32) {
    if *number > 0 && *number - 1 == largest {
        *number = largest;
    }
}

fn tables(layout: Layout, of: &[(&'static str, Find)]) -> Vec<Wrong> {
    let mut all = Vec::new();
    for (table, find) in of.iter().copied() {
        for (name, mend) in mends(layout) {
            all.push(takes(format!("{table} {name}"), move |call| {
                find(call, &|setup, table| {
                    table.iter_mut().enumerate().for_each(|(s, slot)| mend(setup, s, slot));
                });
            }));
        }
        all.push(takes(format!("of the {table} records past n the first alone is judged"), move |call| {
            find(call, &|setup, table| table.iter_mut().skip((setup.slots as usize).saturating_add(1)).for_each(clear));
        }));
        let last = layout.slots() - 1;
        all.push(takes(format!("the last {table} record is not judged"), move |call| {
            find(call, &|setup, table| table[last..].iter_mut().filter(|_| setup.slots <= last as u64).for_each(clear));
        }));
    }
    all
}

fn clear(slot: &mut Slot) {
    *slot = Slot::UNUSED;
}

/// Whether two slots hold the same live id as far as these bits tell.
pub fn ids_meet(ids: impl Iterator<Item = i32>, bits: i32) -> bool {
    let mut seen: Vec<i32> = ids.filter(|id| *id != -1).map(|id| id & bits).collect();
    seen.sort_unstable();
    seen.windows(2).any(|pair| pair[0] == pair[1])
}

/// The ways to compare ids by too few bits: each bit left out, and remainders.
pub fn too_few_bits() -> Vec<(String, i32)> {
    let left_out = (0..16).map(|bit| (format!("without bit {bit}"), 0xffff & !(1 << bit)));
    let remainders = [64, 256, 4_096].map(|count| (format!("modulo {count}"), count - 1));
    left_out.chain(remainders).collect()
}

/// Gives another id to each slot that has one of those before it, if such repeats are not seen.
pub fn mend_repeats(table: &mut Table, is_seen: impl Fn(usize, usize, i32) -> bool) {
    for s in 1..SLOTS {
        for t in 0..s {
            if table[s].id.is_live() && table[s].id == table[t].id && !is_seen(t, s, table[s].id.0) {
                table[s].id = TrackingId(33_000 + s as i32);
            }
        }
    }
}

fn ids(layout: Layout, (name, find): (&'static str, Find)) -> Vec<Wrong> {
    let mut all = Vec::new();
    for (how, bits) in too_few_bits() {
        all.push(refuses(format!("{name} ids are compared {how}"), 2, move |call| {
            let meet = std::cell::Cell::new(false);
            find(&mut call.clone(), &|_, table| meet.set(ids_meet(table.iter().map(|slot| slot.id.0), bits)));
            meet.get()
        }));
    }
    let mut lapse = |what: &str, is_seen: fn(usize, usize, i32) -> bool| {
        all.push(takes(format!("{name} ids may repeat{what}"), move |call| {
            find(call, &|_, table| mend_repeats(table, is_seen));
        }));
    };
    lapse("", |_, _, _| false);
    lapse(" if it is 0", |_, _, id| id != 0);
    lapse(" if it is 65,535", |_, _, id| id != 65_535);
    lapse(" in neighbours", |t, s, _| s - t != 1);
    lapse(" but in neighbours", |t, s, _| s - t == 1);
    lapse(" if one is in slot 0", |t, _, _| t != 0);
    let last = layout.slots() - 1;
    all.push(takes(format!("{name} ids may repeat if one is in slot {last}"), move |call| {
        find(call, &|_, table| mend_repeats(table, |_, s, _| s != last));
    }));
    all
}

fn counters() -> Vec<Wrong> {
    vec![
        takes("the counter may be 65,536", |call| {
            if let Some(writer) = writer_of(call).filter(|writer| writer.counter == LARGEST_ID + 1) {
                writer.counter = 0;
            }
        }),
        takes("the counter is cut to 16 bits", |call| {
            writer_of(call).into_iter().for_each(|writer| writer.counter &= 0xffff);
        }),
        refuses("the counter may not be 65,535", 2, |call| {
            writer_of(&mut call.clone()).is_some_and(|writer| writer.counter == LARGEST_ID)
        }),
        refuses("an unused slot holds zeros", 2, |call| {
            writer_of(&mut call.clone())
                .is_some_and(|writer| writer.table.iter().any(|slot| !slot.id.is_live() && *slot != Slot::UNUSED))
        }),
    ]
}

fn pending(layout: Layout) -> Vec<Wrong> {
    let mut all = vec![
        takes("pending is not judged", |call| {
            if let Some(reader) = reader_of(call).filter(|reader| reader.mode == Mode::Following) {
                reader.pending = reader.shown;
            }
        }),
        refuses("pending is as shown in every mode", 2, |call| {
            call.reader().is_some_and(|reader| reader.shown != reader.pending)
        }),
        refuses("pending ids may not repeat", 2, |call| {
            call.reader().is_some_and(|reader| ids_meet(reader.pending.iter().map(|slot| slot.id.0), -1))
        }),
    ];
    for (name, mode) in [("dropped", Mode::Dropped), ("stale", Mode::Stale)] {
        for i in 0..layout.slot_numbers() {
            let what = if i == 0 { "id" } else { NAMES[i - 1] };
            all.push(takes(format!("pending {what} may differ while {name}"), move |call| {
                if let Some(reader) = reader_of(call).filter(|reader| reader.mode == mode) {
                    reader.pending.iter_mut().zip(&reader.shown).for_each(|(pending, shown)| match i {
                        0 => pending.id = shown.id,
                        _ => pending.numbers[i - 1] = shown.numbers[i - 1],
                    });
                }
            }));
        }
    }
    all
}

/// n and the current slot of a call's state.
fn current_of(call: &mut Call) -> Option<(u64, &mut u64)> {
    match call {
        Call::Write { writer, .. } => Some((writer.setup.slots, &mut writer.current.0)),
        _ => reader_of(call).map(|reader| (reader.setup.slots, &mut reader.current.0)),
    }
}

fn current_slots() -> Vec<Wrong> {
    let mut all = Vec::new();
    let mut slots = |what: &str, change: fn(u64, u64) -> u64| {
        all.push(takes(format!("the current slot {what}"), move |call| {
            if let Some((n, current)) = current_of(call) {
                *current = change(n, *current);
            }
        }));
    };
    slots("may be n", |n, current| current - u64::from(current == n && n > 0));
    slots("is cut to 8 bits", |_, current| current & 0xff);
    slots("is cut to 16 bits", |_, current| current & 0xffff);
    slots("is cut to 32 bits", |_, current| current & 0xffff_ffff);
    slots("is cut to 63 bits", |_, current| current << 1 >> 1);
    all
}

/// Each mistake of this file in a reader's setup and state.
pub fn of_readers(layout: Layout) -> Vec<Wrong> {
    let tables = tables(layout, &[SHOWN, PENDING]);
    let all = [setups(layout, &READER_PLACES), tables, ids(layout, SHOWN), pending(layout), current_slots()];
    all.into_iter().flatten().collect()
}

/// Each mistake of this file in a writer's.
pub fn of_writers() -> Vec<Wrong> {
    let panel = Layout::Panel;
    let tables = tables(panel, &[WRITERS_TABLE]);
    let all = [setups(panel, &WRITER_PLACES), tables, ids(panel, WRITERS_TABLE), counters(), current_slots()];
    all.into_iter().flatten().collect()
}
