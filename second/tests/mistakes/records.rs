//! Mistakes in what a record is taken for: types and codes, and the ranges of values.

use second::events::*;
use second::reader::Ran;
use second::table::{Layout, Setup, LIMITS};

use crate::states::NAMES;
use crate::wrong::{right_step, skipped, steps, Wrong};

/// The types that Linux has, and the codes of its types EV_ABS and EV_SYN.
const TYPES: u16 = 0x20;
const ABS_CODES: u16 = 0x40;
const SYN_CODES: u16 = 0x10;

/// It takes one type and code for another, but counts and names what it skips by its own.
fn takes_code(name: String, of: impl Fn(u16, u16) -> (u16, u16) + 'static) -> Wrong {
    steps(name, move |reader, event| {
        let (kind, code) = of(event.kind, event.code);
        let ran = right_step(reader, Event { kind, code, ..event });
        if ran.skipped() == 1 {
            skipped(event)
        } else {
            ran
        }
    })
}

fn types_and_codes(layout: Layout) -> Vec<Wrong> {
    let mut all = Vec::new();
    for bit in 6..16 {
        all.push(takes_code(format!("bit {bit} of a code is ignored"), move |kind, code| (kind, code & !(1 << bit))));
    }
    for bit in 2..16 {
        all.push(takes_code(format!("bit {bit} of a type is ignored"), move |kind, code| (kind & !(1 << bit), code)));
    }
    for (right, bit) in listed(layout).iter().flat_map(|pair| (0..32).map(move |bit| (*pair, bit))) {
        let flipped = (u32::from(right.0) << 16 | u32::from(right.1)) ^ 1 << bit;
        let other = ((flipped >> 16) as u16, flipped as u16);
        if !listed(layout).contains(&other) {
            all.push(takes_code(format!("{other:x?} is taken for {right:x?}"), move |kind, code| {
                if (kind, code) == other {
                    right
                } else {
                    (kind, code)
                }
            }));
        }
    }
    for (kind, taken) in (0..TYPES).flat_map(|kind| [(kind, EV_SYN), (kind, EV_ABS)]) {
        if kind != taken {
            all.push(takes_code(format!("type {kind} is taken for {taken}"), move |other, code| {
                let is_new = other == kind && !listed(layout).contains(&(other, code));
                (if is_new { taken } else { other }, code)
            }));
        }
    }
    all
}

/// It counts no skipped record of one type and code.
fn uncounted(layout: Layout) -> Vec<Wrong> {
    let abs = (0..ABS_CODES).map(|code| (EV_ABS, code));
    let syn = (0..SYN_CODES).map(|code| (EV_SYN, code));
    abs.chain(syn)
        .filter(|unknown| !listed(layout).contains(unknown))
        .map(|(kind, code)| {
            steps(format!("type {kind}, code {code:#x} is not counted"), move |reader, event| {
                let ran = right_step(reader, event);
                if (event.kind, event.code) == (kind, code) {
                    Ran { unknown_type: 0, unknown_code: 0, ..ran }
                } else {
                    ran
                }
            })
        })
        .collect()
}

/// An event with a range: name, code, and the two ends.
type Ranged = (&'static str, u16, i32, Box<dyn Fn(&Setup) -> i32>);

/// It takes one value of this event for another, from the value and the two ends.
fn takes_value((name, code, low, high): Ranged, what: &str, other: fn(i32, i32, i32) -> i32) -> Wrong {
    steps(format!("{name} {what}"), move |reader, event| {
        let is_it = (event.kind, event.code) == (EV_ABS, code);
        let value = other(event.value, low, high(&reader.setup));
        right_step(reader, Event { value: if is_it { value } else { event.value }, ..event })
    })
}

/// The events with a range of such a reader.
fn ranged(layout: Layout) -> Vec<Ranged> {
    let numbers = (0..layout.numbers()).map(|i| {
        let largest: Box<dyn Fn(&Setup) -> i32> = Box::new(move |setup| setup.largest[i] as i32);
        (NAMES[i], CODES[i], 0, largest)
    });
    let mut all: Vec<Ranged> = numbers.collect();
    all.push(("slot", ABS_MT_SLOT, 0, Box::new(|setup| setup.slots as i32 - 1)));
    all.push(("id", ABS_MT_TRACKING_ID, -1, Box::new(|_| 65_535)));
    all
}

fn ranges(layout: Layout) -> Vec<Wrong> {
    let mut all = Vec::new();
    let mut values = |what: &str, other: fn(i32, i32, i32) -> i32| {
        all.extend(ranged(layout).into_iter().map(|ranged| takes_value(ranged, what, other)));
    };
    values("may be one too large", |value, _, high| value - i32::from(value == high + 1));
    values("may be one too small", |value, low, _| value + i32::from(value == low - 1));
    values("may not be the largest", |value, _, high| value + i32::from(value == high));
    values("may not be the smallest", |value, low, _| value - i32::from(value == low));
    values("is clamped above", |value, _, high| value.min(high));
    values("is clamped below", |value, low, _| value.max(low));
    values("is cut to 16 bits", |value, low, high| if (low..=high).contains(&value) { value } else { value & 0xffff });
    values("has no sign", |value, low, _| if value < low { value & i32::MAX } else { value });
    all
}

/// It judges one of a slot's numbers, or a slot, by another largest value.
fn judged_by_others(layout: Layout) -> Vec<Wrong> {
    let numbers = layout.numbers();
    let pairs = (0..numbers).flat_map(|i| (0..numbers).map(move |j| (i, j))).filter(|(i, j)| i != j);
    let mut all: Vec<Wrong> = pairs
        .map(|(i, j)| {
            let name = format!("{} is judged by the largest {}", NAMES[i], NAMES[j]);
            judges(name, CODES[i], move |setup| (setup.largest[i], setup.largest[j]))
        })
        .collect();
    for i in 0..numbers {
        let name = format!("{} is judged by {} alone", NAMES[i], LIMITS[i]);
        all.push(judges(name, CODES[i], move |setup| (setup.largest[i], LIMITS[i])));
    }
    let most = layout.slots() as u32;
    let name = format!("a slot is judged by {most} alone");
    all.push(judges(name, ABS_MT_SLOT, move |setup| (setup.slots as u32 - 1, most - 1)));
    all
}

/// It judges the value of this code by the second largest value, where the first is right.
fn judges(name: String, code: u16, largest: impl Fn(&Setup) -> (u32, u32) + 'static) -> Wrong {
    steps(name, move |reader, event| {
        let (own, other) = largest(&reader.setup);
        let value = judged_by(event.value, own as i32, other as i32);
        let is_it = (event.kind, event.code) == (EV_ABS, code);
        right_step(reader, Event { value: if is_it { value } else { event.value }, ..event })
    })
}

/// What passes for good, and for bad, where another largest value is looked at.
pub fn judged_by(value: i32, own: i32, other: i32) -> i32 {
    match value {
        _ if value < 0 || value > own && value > other => value,
        _ if value > other => i32::MAX,
        _ => value.min(own),
    }
}

/// Each mistake of this file.
pub fn all(layout: Layout) -> Vec<Wrong> {
    let ranges = [ranges(layout), judged_by_others(layout)];
    [types_and_codes(layout), uncounted(layout)].into_iter().chain(ranges).flatten().collect()
}
