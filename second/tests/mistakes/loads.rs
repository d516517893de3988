//! Mistakes in a load and in what a slot is answered.

use second::reader::{Mode, Reader};
use second::script::Call;
use second::table::{Layout, Setup, SlotNumber, EMPTY};

use crate::records::judged_by;
use crate::states::{ids_meet, too_few_bits, NAMES};
use crate::wrong::{answers, judges_early, reader_text, refuses, says, takes, Wrong};

/// It takes an image or a current slot for another.
pub fn image(name: impl Into<String>, change: impl Fn(&Reader, &mut SlotNumber, &mut Vec<i32>) + 'static) -> Wrong {
    takes(name, move |call| {
        if let Call::Load { reader, current, image } = call {
            change(reader, current, image);
        }
    })
}

/// It takes the rows of an image for others.
fn rows(name: impl Into<String>, change: impl Fn(&Setup, &mut [i32]) + 'static) -> Wrong {
    image(name, move |reader, _, image| {
        image.chunks_exact_mut(reader.layout.slot_numbers()).for_each(|row| change(&reader.setup, row));
    })
}

/// It accepts a load, and ends in another state.
pub fn ends(name: &str, change: impl Fn(&Reader, &mut Reader) + 'static) -> Wrong {
    answers(name, move |asked| {
        let Call::Load { reader, current, image } = asked.call? else {
            return None;
        };
        let mut loaded = reader.clone();
        loaded.load(image, *current).ok()?;
        change(reader, &mut loaded);
        Some(format!("0 {}", reader_text(&loaded)))
    })
}

fn image_ids(layout: Layout, image: &[i32]) -> impl Iterator<Item = i32> + '_ {
    image.chunks_exact(layout.slot_numbers()).map(|row| row[0])
}

fn ids() -> Vec<Wrong> {
    let mut all = Vec::new();
    for (how, bits) in too_few_bits() {
        all.push(refuses(format!("ids of an image are compared {how}"), 8, move |call| match call {
            Call::Load { reader, image, .. } => ids_meet(image_ids(reader.layout, image), bits),
            _ => false,
        }));
    }
    for (what, is_seen) in [
        ("", (|_, _| false) as fn(usize, i32) -> bool),
        (" if it is 0", |_, id| id != 0),
        (" if it is 65,535", |_, id| id != 65_535),
        (" in neighbours", |apart, _| apart != 1),
        (" but in neighbours", |apart, _| apart == 1),
    ] {
        all.push(image(format!("ids of an image may repeat{what}"), move |reader, _, image| {
            let ids: Vec<i32> = image_ids(reader.layout, image).collect();
            for (s, id) in ids.iter().enumerate() {
                let unseen = |t: &usize| ids[*t] == *id && *id != -1 && !is_seen(s - t, *id);
                if (0..s).any(|t| unseen(&t)) {
                    image[reader.layout.slot_numbers() * s] = 33_000 + s as i32;
                }
            }
        }));
    }
    all
}

fn image_ids_judged() -> Vec<Wrong> {
    vec![
        rows("an image's id may be 65,536", |_, row| row[0] -= i32::from(row[0] == 65_536)),
        rows("an image's id may be -2", |_, row| row[0] += i32::from(row[0] == -2)),
        rows("an image's id is cut to 16 bits", |_, row| row[0] = if row[0] == -1 { -1 } else { row[0] & 0xffff }),
        rows("a bad id of an image is -1", |_, row| row[0] = if row[0] < -1 { -1 } else { row[0] }),
        refuses("an image's id may not be 65,535", 8, |call| match call {
            Call::Load { reader, image, .. } => image_ids(reader.layout, image).any(|id| id == 65_535),
            _ => false,
        }),
        rows("numbers of an unused slot are not judged", |setup, row| {
            let is_unused = row[0] == -1;
            for (number, largest) in row[1..].iter_mut().zip(setup.largest) {
                *number = if is_unused && *number as u32 > largest { 0 } else { *number };
            }
        }),
        ends("numbers of an unused slot become 0", |_, loaded| {
            for slot in loaded.shown.iter_mut().chain(&mut loaded.pending).filter(|slot| !slot.id.is_live()) {
                *slot = EMPTY[0];
            }
        }),
    ]
}

fn numbers(layout: Layout) -> Vec<Wrong> {
    let mut all = Vec::new();
    for (i, name) in NAMES.into_iter().enumerate().take(layout.numbers()) {
        let mut number = |what: &str, other: fn(i32, i32) -> i32| {
            all.push(rows(format!("an image's {name} {what}"), move |setup, row| {
                row[i + 1] = other(row[i + 1], setup.largest[i] as i32);
            }));
        };
        number("may be one too large", |number, largest| number - i32::from(number == largest.saturating_add(1)));
        number("may be -1", |number, _| number + i32::from(number == -1));
        number("may not be the largest", |number, largest| number.saturating_add(i32::from(number == largest)));
        number("is cut to 16 bits", |number, _| number & 0xffff);
        number("has no sign", |number, _| number & i32::MAX);
        for j in (0..layout.numbers()).filter(|j| *j != i) {
            let name = format!("an image's {name} is judged by the largest {}", NAMES[j]);
            all.push(rows(name, move |setup, row| {
                row[i + 1] = judged_by(row[i + 1], setup.largest[i] as i32, setup.largest[j] as i32);
            }));
        }
    }
    all
}

/// Whether a reader that is stale and in order would refuse it.
fn is_bad_image(reader: &Reader, current: SlotNumber, image: &[i32]) -> bool {
    Reader::fresh(reader.layout, reader.setup)
        .is_ok_and(|fresh| Reader { mode: Mode::Stale, ..fresh }.load(image, current).is_err())
}

/// How many numbers an image of this reader has.
fn length(reader: &Reader) -> usize {
    reader.setup.slots.saturating_mul(reader.layout.slot_numbers() as u64).min(100_000) as usize
}

fn lengths_and_modes() -> Vec<Wrong> {
    let mut all = vec![
        image("an image may be longer", move |reader, _, image| image.truncate(length(reader))),
        image("an image may be one number longer", move |reader, _, image| {
            image.truncate(if image.len() == length(reader) + 1 { length(reader) } else { image.len() });
        }),
        image("an image may be one slot longer", move |reader, _, image| {
            image.truncate(if image.len() == length(reader) + reader.layout.slot_numbers() {
                length(reader)
            } else {
                image.len()
            });
        }),
        image("slots that an image has not are unused", move |reader, _, image| {
            let width = reader.layout.slot_numbers();
            while image.len() % width == 0 && image.len() < length(reader) {
                image.push(-1);
                image.extend(vec![0; width - 1]);
            }
        }),
        image("numbers that an image has not are 0", move |reader, _, image| {
            image.resize(image.len().max(length(reader)), 0);
        }),
        image("the current slot may be n", |reader, current, _| {
            current.0 = current.0.saturating_sub(u64::from(current.0 == reader.setup.slots))
        }),
        refuses("the current slot may not be n - 1", 8, |call| match call {
            Call::Load { reader, current, .. } => current.0.checked_add(1) == Some(reader.setup.slots),
            _ => false,
        }),
        ends("the current slot stays", |before, loaded| loaded.current = before.current),
        ends("the current slot becomes 0", |_, loaded| loaded.current = SlotNumber(0)),
        ends("it stays stale", |_, loaded| loaded.mode = Mode::Stale),
        ends("pending stays", |before, loaded| loaded.pending = before.pending),
        judges_early("7 is judged before 2", 7, |call| match call {
            Call::Load { reader, .. } => reader.mode != Mode::Stale,
            _ => false,
        }),
        judges_early("8 is judged before 2 and 7", 8, |call| match call {
            Call::Load { reader, current, image } => is_bad_image(reader, *current, image),
            _ => false,
        }),
    ];
    for (name, mode) in [("following", Mode::Following), ("dropped", Mode::Dropped)] {
        all.push(takes(format!("a load is taken while {name}"), move |call| match call {
            Call::Load { reader, .. } if reader.mode == mode && reader.is_well_formed() => {
                reader.pending = reader.shown;
                reader.mode = Mode::Stale;
            }
            _ => {}
        }));
    }
    for bits in [8, 16, 32, 63] {
        all.push(image(format!("the current slot is cut to {bits} bits"), move |_, current, _| {
            current.0 &= (1 << bits) - 1;
        }));
    }
    all
}

fn questions() -> Vec<Wrong> {
    let mut all = vec![
        answers("lost is answered before no such slot", |asked| match asked.call? {
            Call::Ask { reader, .. } if asked.right == "none" && reader.mode != Mode::Following => {
                Some("unknown".to_string())
            }
            _ => None,
        }),
        answers("slot n is empty", |asked| match asked.call? {
            Call::Ask { reader, slot } if asked.right == "none" && slot.0 == reader.setup.slots => {
                Some("empty".to_string())
            }
            _ => None,
        }),
        answers("slots from n to the last are empty", |asked| match asked.call? {
            Call::Ask { reader, slot } if asked.right == "none" && slot.0 < reader.layout.slots() as u64 => {
                Some("empty".to_string())
            }
            _ => None,
        }),
        answers("no such slot is answered before 2", |asked| match asked.call? {
            Call::Ask { reader, slot } if slot.0 >= reader.setup.slots => Some("none".to_string()),
            _ => None,
        }),
        answers("lost is answered before 2", |asked| match asked.call? {
            Call::Ask { reader, .. } if reader.mode != Mode::Following && asked.right != "none" => {
                Some("unknown".to_string())
            }
            _ => None,
        }),
        takes("asked for what is pending", |call| match call {
            Call::Ask { reader, .. } if reader.is_well_formed() => reader.shown = reader.pending,
            _ => {}
        }),
        answers("an empty slot with numbers is a contact", |asked| match asked.call? {
            Call::Ask { reader, slot } if asked.right == "empty" && reader.shown[slot.0 as usize] != EMPTY[0] => {
                Some("contact".to_string())
            }
            _ => None,
        }),
    ];
    for (name, mode) in [("dropped", Mode::Dropped), ("stale", Mode::Stale)] {
        all.push(takes(format!("a slot is answered while {name}"), move |call| match call {
            Call::Ask { reader, .. } if reader.mode == mode => reader.mode = Mode::Following,
            _ => {}
        }));
    }
    for id in ["0", "65535"] {
        all.push(says(format!("id {id} is no contact"), move |call, words| {
            if matches!(call, Call::Ask { .. }) && words.get(1).is_some_and(|word| word == id) {
                *words = vec!["empty".to_string()];
            }
        }));
    }
    for bits in [8, 16, 32, 63] {
        all.push(takes(format!("the slot that is asked for is cut to {bits} bits"), move |call| {
            if let Call::Ask { slot, .. } = call {
                slot.0 &= (1 << bits) - 1;
            }
        }));
    }
    all
}

/// Each mistake of this file.
pub fn all(layout: Layout) -> Vec<Wrong> {
    let images = [ids(), image_ids_judged(), numbers(layout), lengths_and_modes()];
    images.into_iter().flatten().chain(questions()).collect()
}
