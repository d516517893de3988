//! Mistakes in what a frame is taken for, in the room for it, and in where its bytes go.

use second::events::RECORD;
use second::script::{Call, WRITER_HEAD, WRITER_NUMBERS};
use second::table::{Setup, LIMITS, NUMBERS, PRESSURE, SLOTS, SLOT_NUMBERS};

use crate::records::judged_by;
use crate::slow_writer::{writes, RIGHT};
use crate::states::NAMES;
use crate::wrong::{judges_early, refuses, says, takes, Wrong};

/// It takes the rows of a frame for others.
fn frames(name: impl Into<String>, change: impl Fn(&Setup, &mut [i32]) + 'static) -> Wrong {
    takes(name, move |call| {
        if let Call::Write { writer, frame, .. } = call {
            frame.chunks_exact_mut(SLOT_NUMBERS).for_each(|row| change(&writer.setup, row));
        }
    })
}

fn largest(setup: &Setup, i: usize) -> i32 {
    setup.largest[i] as i32
}

fn kinds_and_lengths() -> Vec<Wrong> {
    vec![
        frames("kind 3 is kind 2", |_, row| row[0] -= i32::from(row[0] == 3)),
        frames("kind -1 is kind 0", |_, row| row[0] += i32::from(row[0] == -1)),
        frames("a kind is cut to 8 bits", |_, row| row[0] &= 0xff),
        frames("a kind is cut to 16 bits", |_, row| row[0] &= 0xffff),
        frames("a kind has no sign", |_, row| row[0] &= i32::MAX),
        takes("a frame may be longer", |call| {
            if let Call::Write { writer, frame, .. } = call {
                frame.truncate(SLOT_NUMBERS * writer.setup.slots.min(SLOTS as u64) as usize);
            }
        }),
        takes("slots that a frame has not lift", |call| match call {
            Call::Write { writer, frame, .. } if frame.len() % SLOT_NUMBERS == 0 => {
                frame.resize(frame.len().max(SLOT_NUMBERS * writer.setup.slots.min(SLOTS as u64) as usize), 0);
            }
            _ => {}
        }),
    ]
}

fn numbers() -> Vec<Wrong> {
    let mut all = vec![
        refuses("numbers of kind 0 are judged", 4, |call| match call {
            Call::Write { writer, frame, .. } => {
                frame.chunks_exact(SLOT_NUMBERS).any(|row| row[0] == 0 && has_bad_number(&writer.setup, row))
            }
            _ => false,
        }),
        frames("numbers of kind 2 are not judged", |_, row| {
            if row[0] == 2 {
                row[1..].fill(1);
            }
        }),
        takes("a frame may have four numbers a slot", |call| match call {
            Call::Write { writer, frame, .. } if frame.len() as u64 == writer.setup.slots.saturating_mul(4) => {
                *frame = frame.chunks_exact(4).flat_map(|row| [row, &[0, 0]].concat()).collect();
            }
            _ => {}
        }),
    ];
    for (i, name) in NAMES.into_iter().enumerate() {
        all.extend(numbers_of(i, name));
        for j in (0..NUMBERS).filter(|j| *j != i) {
            let name = format!("a frame's {name} is judged by the largest {}", NAMES[j]);
            all.push(frames(name, move |setup, row| {
                if row[0] != 0 {
                    row[i + 1] = judged_by(row[i + 1], largest(setup, i), largest(setup, j));
                }
            }));
        }
    }
    all
}

/// Mistakes in the range of one of a slot's numbers.
fn numbers_of(i: usize, name: &str) -> Vec<Wrong> {
    let mut all = Vec::new();
    let mut number = |what: &str, other: fn(i32, i32) -> i32| {
        all.push(frames(format!("a frame's {name} {what}"), move |setup, row| {
            if row[0] != 0 {
                row[i + 1] = other(row[i + 1], largest(setup, i));
            }
        }));
    };
    number("may be one too large", |number, largest| number - i32::from(number == largest.wrapping_add(1)));
    number("may be -1", |number, _| if number == -1 { 1 } else { number });
    number("may not be the largest", |number, largest| number.saturating_add(i32::from(number == largest)));
    if i != PRESSURE {
        number("may not be 0", |number, _| number - i32::from(number == 0));
    }
    number("is cut to 16 bits", |number, _| number & 0xffff);
    number("has no sign", |number, _| number & i32::MAX);
    all
}

fn has_bad_number(setup: &Setup, row: &[i32]) -> bool {
    row[1..].iter().enumerate().any(|(i, number)| *number as u32 > setup.largest[i])
}

fn is_bad_row(setup: &Setup, row: &[i32]) -> bool {
    !(0..=2).contains(&row[0]) || row[0] != 0 && has_bad_number(setup, row)
}

/// A number that differs from the old one in a bit alone passes for the same.
fn changes() -> Vec<Wrong> {
    let mut all = Vec::new();
    for (i, name) in NAMES.into_iter().enumerate() {
        for bit in 0..LIMITS[i].count_ones() {
            all.push(takes(format!("a change of {name} in bit {bit} alone is not seen"), move |call| {
                if let Call::Write { writer, frame, .. } = call {
                    for (row, slot) in frame.chunks_exact_mut(SLOT_NUMBERS).zip(&writer.table) {
                        let old = slot.numbers[i] as i32;
                        row[i + 1] = if row[i + 1] ^ old == 1 << bit { old } else { row[i + 1] };
                    }
                }
            }));
        }
    }
    all
}

fn order_of_refusals() -> Vec<Wrong> {
    vec![
        judges_early("3 is judged before 2", 3, |call| match call {
            Call::Write { writer, frame, .. } => {
                frame.len() as u64 != writer.setup.slots.wrapping_mul(SLOT_NUMBERS as u64)
            }
            _ => false,
        }),
        judges_early("4 is judged before 2 and 3", 4, |call| match call {
            Call::Write { writer, frame, .. } => {
                frame.chunks_exact(SLOT_NUMBERS).any(|row| is_bad_row(&writer.setup, row))
            }
            _ => false,
        }),
        judges_early("5 is judged before 2, 3 and 4", 5, |call| match call {
            Call::Write { position, size, .. } => *position > *size as u64,
            _ => false,
        }),
    ]
}

fn room() -> Vec<Wrong> {
    let mut all = vec![
        writes("the end of the buffer is past it", |parts| {
            parts.has_room = |position, size, need| position < size as u64 && (RIGHT.has_room)(position, size, need);
        }),
        writes("nothing to write fits past the end", |parts| {
            parts.has_room = |position, size, need| need == 0 || (RIGHT.has_room)(position, size, need);
        }),
        writes("position and need wrap at 2^64", |parts| {
            parts.has_room = |position, size, need| position.wrapping_add(need as u64) <= size as u64;
        }),
        writes("one byte less is room", |parts| {
            parts.has_room = |position, size, need| (RIGHT.has_room)(position, size + 1, need);
        }),
        writes("just enough is no room", |parts| {
            parts.has_room = |position, size, need| (RIGHT.has_room)(position, size, need + usize::from(need > 0));
        }),
        writes("the room is counted from the buffer's start", |parts| {
            parts.has_room = |position, size, need| position <= size as u64 && need <= size;
        }),
    ];
    for (name, cut) in [
        ("8", (|position| position & 0xff) as fn(u64) -> u64),
        ("16", |position| position & 0xffff),
        ("32", |position| position & 0xffff_ffff),
        ("63", |position| position << 1 >> 1),
    ] {
        all.push(takes(format!("the position is cut to {name} bits"), move |call| {
            if let Call::Write { position, .. } = call {
                *position = cut(*position);
            }
        }));
    }
    all
}

fn needs() -> Vec<Wrong> {
    vec![
        writes("no need is told past the end", |parts| {
            parts.need = |events, position, size| match position > size as u64 {
                true => 0,
                false => (RIGHT.need)(events, position, size),
            };
        }),
        writes("the need is what is missing", |parts| {
            parts.need = |events, position, size| {
                let left = (size as u64).saturating_sub(position);
                (RIGHT.need)(events, position, size).saturating_sub(left)
            };
        }),
        writes("the need counts from the buffer's start", |parts| {
            parts.need = |events, position, size| (RIGHT.need)(events, position, size).saturating_add(position);
        }),
        writes("the need counts events", |parts| parts.need = |events, _, _| events.len() as u64),
        writes("the need is cut to 8 bits", |parts| {
            parts.need = |events, position, size| (RIGHT.need)(events, position, size) & 0xff;
        }),
        says("the need is told where there is room", |call, words| {
            if matches!(call, Call::Write { .. }) && words[0] == "0" {
                words[WRITER_NUMBERS + 3] = (RECORD as u64 * number(&words[WRITER_NUMBERS + 1])).to_string();
            }
        }),
        says("a refusal moves the counter", |call, words| {
            if matches!(call, Call::Write { .. }) && words[0] == "5" {
                words[WRITER_HEAD] = (number(&words[WRITER_HEAD]) + 1).to_string();
            }
        }),
        says("a refusal tells the events", |call, words| {
            if matches!(call, Call::Write { .. }) && words[0] == "5" {
                words[WRITER_NUMBERS + 1] = (number(&words[WRITER_NUMBERS + 3]) / RECORD as u64).to_string();
            }
        }),
    ]
}

fn number(word: &str) -> u64 {
    word.parse().expect("a number of an answer")
}

fn buffers() -> Vec<Wrong> {
    vec![
        writes("the bytes before the position are cleared", |parts| {
            parts.put = |buffer, position, records| {
                buffer[..position].fill(0);
                (RIGHT.put)(buffer, position, records);
            };
        }),
        writes("the bytes behind the records are cleared", |parts| {
            parts.put = |buffer, position, records| {
                buffer[position..].fill(0);
                (RIGHT.put)(buffer, position, records);
            };
        }),
        writes("one record more is cleared", |parts| {
            parts.put = |buffer, position, records| {
                let more = &mut buffer[position..];
                let end = more.len().min(records.len() + RECORD);
                more[..end].fill(0);
                (RIGHT.put)(buffer, position, records);
            };
        }),
        writes("the bytes go to the buffer's start", |parts| {
            parts.put = |buffer, _, records| (RIGHT.put)(buffer, 0, records);
        }),
    ]
}

/// Each mistake of this file.
pub fn all() -> Vec<Wrong> {
    let taken = [kinds_and_lengths(), numbers(), changes(), order_of_refusals()];
    let put = [room(), needs(), buffers()];
    taken.into_iter().chain(put).flatten().collect()
}
