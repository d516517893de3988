//! Mistakes in what K8 asks: a live finger presses, in the frames of a writer and nowhere else.

use second::script::Call;
use second::table::{Slot, PRESSURE, SLOT_NUMBERS};
use second::writer::{Writer, LARGEST_FRAME};

use crate::slow_writer::{accepts, RIGHT};
use crate::states::writer_of;
use crate::wrong::{answers, judges_early, refusal, refuses, takes, Wrong};

/// A row of a frame: its slot's number, the old slot, the kind and the pressure.
type Row = (usize, Slot, i32, i32);

fn rows<'a>(writer: &'a Writer, frame: &'a [i32]) -> impl Iterator<Item = Row> + 'a {
    let numbered = writer.table.iter().zip(frame.chunks_exact(SLOT_NUMBERS)).enumerate();
    numbered.map(|(s, (old, row))| (s, *old, row[0], row[1 + PRESSURE]))
}

fn is_unpressed((_, _, kind, pressure): &Row) -> bool {
    *kind != 0 && *pressure == 0
}

/// The frame with another pressure in place of such a contact's 0.
fn mended(writer: &Writer, frame: &[i32], is_it: impl Fn(&Row) -> bool) -> Vec<i32> {
    let mut mended = frame.to_vec();
    for row in rows(writer, frame).filter(|row| is_unpressed(row) && is_it(row)) {
        mended[SLOT_NUMBERS * row.0 + 1 + PRESSURE] = 1;
    }
    mended
}

/// It takes frames whose contacts of pressure 0 are all such as it does not judge.
fn overlooks(name: &str, is_it: fn(&Writer, &Row) -> bool) -> Wrong {
    accepts(name, move |writer, frame| {
        let mended = mended(writer, frame, |row| is_it(writer, row));
        writer.clone().write(&mended, &mut [0; LARGEST_FRAME], 0).is_ok()
    })
}

fn overlooked() -> Vec<Wrong> {
    vec![
        overlooks("a contact may have pressure 0", |_, _| true),
        overlooks("a contact of kind 1 may have pressure 0", |_, (_, _, kind, _)| *kind == 1),
        overlooks("a contact of kind 2 may have pressure 0", |_, (_, _, kind, _)| *kind == 2),
        overlooks("a contact that goes on may have pressure 0", |_, (_, old, kind, _)| *kind == 1 && old.id.is_live()),
        overlooks("a contact that begins may have pressure 0", |_, (_, old, kind, _)| *kind == 2 || !old.id.is_live()),
        overlooks("pressure 0 may stay", |_, (_, old, _, _)| old.numbers[PRESSURE] == 0),
        overlooks("pressure may become 0", |_, (_, old, _, _)| old.numbers[PRESSURE] != 0),
        overlooks("pressure 0 is judged in slot 0 alone", |_, (s, _, _, _)| *s != 0),
        overlooks("pressure 0 is not judged in slot 0", |_, (s, _, _, _)| *s == 0),
        overlooks("pressure 0 is not judged in the last slot", |writer, (s, _, _, _)| {
            *s as u64 + 1 == writer.setup.slots
        }),
        overlooks("pressure 0 is not judged in the current slot", |writer, (s, _, _, _)| *s as u64 == writer.current.0),
    ]
}

/// It takes a contact's row of pressure 0 for another.
fn unpressed(name: &str, other: fn(&mut [i32])) -> Wrong {
    takes(name, move |call| {
        if let Call::Write { frame, .. } = call {
            frame.chunks_exact_mut(SLOT_NUMBERS).filter(|row| row[0] != 0 && row[1 + PRESSURE] == 0).for_each(other);
        }
    })
}

/// It refuses frames with such a row.
fn minds(name: &str, number: u8, is_it: fn(&Row) -> bool) -> Wrong {
    refuses(name, number, move |call| match call {
        Call::Write { writer, frame, .. } => rows(writer, frame).any(|row| is_it(&row)),
        _ => false,
    })
}

fn refused() -> Vec<Wrong> {
    vec![
        minds("kind 0 may not have pressure 0", 4, |(_, _, kind, pressure)| *kind == 0 && *pressure == 0),
        minds("a lift may not have pressure 0", 4, |(_, old, kind, pressure)| {
            *kind == 0 && *pressure == 0 && old.id.is_live()
        }),
        minds("a contact may not have pressure 1", 4, |(_, _, kind, pressure)| *kind != 0 && *pressure == 1),
        minds("the old pressure is judged", 4, |(_, old, _, _)| old.id.is_live() && old.numbers[PRESSURE] == 0),
        minds("the old pressure of a contact that goes on is judged", 4, |(_, old, kind, _)| {
            *kind == 1 && old.id.is_live() && old.numbers[PRESSURE] == 0
        }),
        refuses("a writer's live slot presses", 2, |call| {
            writer_of(&mut call.clone()).is_some_and(|writer| writer.table.iter().any(is_old))
        }),
        unpressed("a contact of pressure 0 lifts", |row| row[0] = 0),
        unpressed("a contact of pressure 0 has 1", |row| row[1 + PRESSURE] = 1),
    ]
}

/// A live slot of pressure 0 in a state or an image, which is allowed.
fn is_old(slot: &Slot) -> bool {
    slot.id.is_live() && slot.numbers[PRESSURE] == 0
}

/// Each mistake of this file in readers, of which K8 asks nothing.
pub fn of_readers() -> Vec<Wrong> {
    vec![
        refuses("a shown live slot presses", 2, |call| {
            call.reader().is_some_and(|reader| reader.shown.iter().any(is_old))
        }),
        refuses("a pending live slot presses", 2, |call| {
            call.reader().is_some_and(|reader| reader.pending.iter().any(is_old))
        }),
        refuses("a live slot of an image presses", 8, |call| match call {
            Call::Load { reader, image, .. } => {
                let width = reader.layout.slot_numbers();
                image.chunks_exact(width).any(|row| row[0] != -1 && row[1 + PRESSURE] == 0)
            }
            _ => false,
        }),
    ]
}

fn has_unpressed(call: &Call) -> bool {
    match call {
        Call::Write { writer, frame, .. } => rows(writer, frame).any(|row| is_unpressed(&row)),
        _ => false,
    }
}

fn order_of_refusals() -> Vec<Wrong> {
    vec![
        judges_early("pressure 0 is judged before 2 and 3", 4, has_unpressed),
        refuses("pressure 0 is refused with 3", 3, has_unpressed),
        answers("room is judged before pressure 0", |asked| match asked.call? {
            Call::Write { writer, position, size, frame } if refusal(asked.right, asked.call?) == 4 => {
                let mended = mended(writer, frame, |_| true);
                let is_good = writer.clone().write(&mended, &mut [0; LARGEST_FRAME], 0).is_ok();
                let answer = is_good.then(|| RIGHT.answer(writer, *position, *size, frame))?;
                answer.starts_with('5').then_some(answer)
            }
            _ => None,
        }),
    ]
}

/// Each mistake of this file in frames and writers.
pub fn of_writers() -> Vec<Wrong> {
    [overlooked(), refused(), order_of_refusals()].into_iter().flatten().collect()
}
