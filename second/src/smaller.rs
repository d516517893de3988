//! Smaller calls than one that was answered differently: what is tried to find the shortest script that shows a difference.

mod anonymous;

use crate::events::{events, Event, ABS_MT_SLOT, EV_ABS, RECORD};
use crate::force::Force;
use crate::maker::need_of;
use crate::maker::pointer::mended;
use crate::pieces::PieceReader;
use crate::pod::Pod;
use crate::pointer::{Pointer, Told};
use crate::reader::{Mode, Reader};
use crate::recorder::{put_check, BLOCK};
use crate::script::{Call, CommandsCall, Cut, ForceCall, RecorderCall, LARGEST_BUFFER};
use crate::table::{Setup, Slot, SlotNumber, Table, SLOTS, SLOT_NUMBERS};
use crate::writer::Writer;

/// Calls that are smaller than this one, the smallest first; which of them still differ is for the caller to find out.
/// Each keeps the verdict, or a frame sent wrongly would end as one for which there is no room.
pub fn smaller(call: &Call) -> Vec<Call> {
    let verdict = verdict_of(call);
    let mut found = Vec::new();
    candidates(call, &mut |candidate| found.push(candidate));
    let weight = weight_of(call);
    let mut weighed: Vec<_> = found
        .into_iter()
        .map(|call| (weight_of(&call), call))
        .filter(|(candidate, call)| *candidate < weight && verdict_of(call) == verdict)
        .collect();
    weighed.sort_by_key(|(weight, _)| *weight);
    weighed.dedup_by(|a, b| a.1 == b.1);
    weighed.into_iter().map(|(_, call)| call).collect()
}

fn verdict_of(call: &Call) -> Option<String> {
    match call {
        // Its answer begins with a state.
        Call::Pod { pod, .. } => Some(pod.is_well_formed().to_string()),
        // And this one's with a place.
        Call::Commands(CommandsCall::Read { .. }) => call.answer().split(' ').nth(1).map(str::to_string),
        _ => call.answer().split(' ').next().map(str::to_string),
    }
}

/// Fewer numbers first, a record's room in a buffer as one of them, then more of them plain, then fewer slots, then fewer bytes and digits. Every candidate taken makes it smaller, so shrinking ends.
fn weight_of(call: &Call) -> (usize, usize, u64, usize) {
    let line = call.line();
    let words = || line.split(' ').skip(1);
    let (size, slots) = match call {
        Call::Write { size, writer, .. } | Call::Anonymous { size, writer, .. } => (*size, writer.setup.slots),
        Call::Recorder(RecorderCall::Lay { size, .. })
        | Call::Force(ForceCall::Write { size, .. })
        | Call::Commands(CommandsCall::Write { size, .. }) => (*size, 0),
        _ => {
            let reader = call.pieces().map(|pieces| &pieces.reader).or(call.reader());
            (0, reader.map_or(0, |reader| reader.setup.slots))
        }
    };
    let plain = words().filter(|word| matches!(*word, "0" | "-1")).count();
    let count = words().count();
    (count + size.div_ceil(RECORD), count - plain, slots, size + line.len())
}

fn candidates(call: &Call, give: &mut dyn FnMut(Call)) {
    match call {
        Call::New { setup, pointer: true } => give(Call::New { setup: *setup, pointer: false }),
        Call::Fresh(..) | Call::New { .. } | Call::PiecesFresh(_) | Call::Start => {}
        Call::PiecesTake { pieces, cut } => smaller_cuts(pieces, cut, give),
        Call::PiecesLoad { pieces, current, image } => smaller_left_over(pieces, &mut |pieces| {
            give(Call::PiecesLoad { pieces, current: *current, image: image.clone() });
        }),
        Call::PiecesAsk { pieces, slot } => {
            smaller_left_over(pieces, &mut |pieces| give(Call::PiecesAsk { pieces, slot: *slot }));
        }
        Call::Pod { pod, bytes } => smaller_pods(*pod, bytes, give),
        Call::Write { .. } => smaller_writers(call, give),
        Call::Anonymous { .. } => anonymous::smaller_frames(call, give),
        Call::Good { reader } => {
            smaller_readers(reader, &mut |reader| give(Call::Good { reader }));
            for s in slots_of(&reader.setup) {
                give(Call::Good { reader: reader_without(reader, s) });
            }
        }
        Call::Run { reader, bytes } => smaller_runs(reader, bytes, give),
        Call::One { reader, event } => {
            smaller_readers(reader, &mut |reader| give(Call::One { reader, event: *event }));
            for s in slots_of(&reader.setup) {
                give(Call::One { reader: reader_without(reader, s), event: event_without(*event, s) });
            }
        }
        Call::Ask { reader, slot } => {
            smaller_readers(reader, &mut |reader| give(Call::Ask { reader, slot: *slot }));
            for s in slots_of(&reader.setup) {
                give(Call::Ask { reader: reader_without(reader, s), slot: number_without(*slot, s) });
            }
        }
        Call::Load { reader, current, image } => smaller_loads(reader, *current, image, give),
        Call::Recorder(call) => smaller_recordings(call, &mut |call| give(Call::Recorder(call))),
        Call::Force(call) => smaller_packets(call, &mut |call| give(Call::Force(call))),
        Call::Commands(call) => smaller_commands(call, &mut |call| give(Call::Commands(call))),
    }
}

/// Fewer bytes, or from their start; a pod that holds nothing, or less room.
fn smaller_commands(call: &CommandsCall, give: &mut dyn FnMut(CommandsCall)) {
    match call {
        CommandsCall::Read { position, bytes } => {
            give(CommandsCall::Read { position: 0, bytes: bytes.clone() });
            fewer_bytes(bytes, 1, &mut |bytes| give(CommandsCall::Read { position: *position, bytes }));
        }
        CommandsCall::Write { pod, position, size, command } => {
            let mut with = |pod: Pod, position: u64, size: usize| {
                give(CommandsCall::Write { pod, position, size, command: *command });
            };
            with(Pod { waits: false, ..*pod }, *position, *size);
            with(pod.without_bytes(), *position, *size);
            smaller_place(*position, *size, &mut |position, size| with(*pod, position, size));
        }
    }
}

/// Fewer bytes, from their start, or one of them 0; a report with a number that is 0, or less room.
fn smaller_packets(call: &ForceCall, give: &mut dyn FnMut(ForceCall)) {
    match call {
        ForceCall::Read { position, bytes } => {
            give(ForceCall::Read { position: 0, bytes: bytes.clone() });
            fewer_bytes(bytes, 1, &mut |bytes| give(ForceCall::Read { position: *position, bytes }));
            for i in 0..bytes.len() {
                let mut bytes = bytes.clone();
                bytes[i] = 0;
                give(ForceCall::Read { position: *position, bytes });
            }
        }
        ForceCall::Write { force, position, size } => {
            smaller_place(*position, *size, &mut |position, size| {
                give(ForceCall::Write { force: *force, position, size });
            });
            for force in [
                Force { x: 0, ..*force },
                Force { y: 0, ..*force },
                Force { throttle: 0, ..*force },
                Force { buttons: 0, ..*force },
                Force { hat: 0, ..*force },
                Force { rudder: 0, ..*force },
            ] {
                give(ForceCall::Write { force, position: *position, size: *size });
            }
        }
    }
}

/// A lower number, fewer records, a smaller buffer; of a block that is read fewer bytes, or one of them 0.
fn smaller_recordings(call: &RecorderCall, give: &mut dyn FnMut(RecorderCall)) {
    match call {
        RecorderCall::Block { number, records } => {
            give(RecorderCall::Block { number: 1, records: records.clone() });
            fewer_bytes(records, RECORD, &mut |records| give(RecorderCall::Block { number: *number, records }));
        }
        RecorderCall::Lay { number, position, size, records } => {
            let mut with = |number: u32, (position, size): (u64, usize), records: &[u8]| {
                give(RecorderCall::Lay { number, position, size, records: records.to_vec() });
            };
            with(1, (*position, *size), records);
            smaller_place(*position, *size, &mut |position, size| with(*number, (position, size), records));
            fewer_bytes(records, RECORD, &mut |records| with(*number, (*position, *size), &records));
        }
        RecorderCall::Read { number, piece } => {
            fewer_bytes(piece, 1, &mut |piece| give(RecorderCall::Read { number: *number, piece }));
            smaller_blocks(piece, &mut |piece| give(RecorderCall::Read { number: *number, piece }));
        }
    }
}

/// One byte of a block is 0, with the check as it was and with the one that then fits.
fn smaller_blocks(piece: &[u8], give: &mut dyn FnMut(Vec<u8>)) {
    let Ok(block) = <[u8; BLOCK]>::try_from(piece) else {
        return;
    };
    for place in 0..BLOCK {
        let mut fewer = block;
        fewer[place] = 0;
        give(fewer.to_vec());
        put_check(&mut fewer);
        give(fewer.to_vec());
    }
}

/// Without some whole parts of so many bytes, or without a byte at the end.
fn fewer_bytes(bytes: &[u8], part: usize, give: &mut dyn FnMut(Vec<u8>)) {
    for part in parts(bytes.len(), part) {
        let mut fewer = bytes.to_vec();
        fewer.drain(part);
        give(fewer);
    }
    if bytes.len() % part > 1 {
        give(bytes[..bytes.len() - 1].to_vec());
    }
}

fn smaller_pods(pod: Pod, bytes: &[u8], give: &mut dyn FnMut(Call)) {
    give(Call::Pod { pod: Pod { waits: false, ..pod }, bytes: bytes.to_vec() });
    // One byte at least; the first may be left out where the state after it is given instead.
    let mut after = pod;
    if bytes.len() > 1 && after.take(bytes[0]).is_ok() {
        give(Call::Pod { pod: after, bytes: bytes[1..].to_vec() });
    }
    for part in parts(bytes.len(), 1).into_iter().filter(|part| part.len() < bytes.len()) {
        let mut bytes = bytes.to_vec();
        bytes.drain(part);
        give(Call::Pod { pod, bytes });
    }
}

/// Less in the reader, or nothing left over.
fn smaller_left_over(pieces: &PieceReader, give: &mut dyn FnMut(PieceReader)) {
    smaller_readers(&pieces.reader, &mut |reader| give(PieceReader { reader, ..pieces.clone() }));
    give(PieceReader::of(pieces.reader.clone()));
}

/// Fewer pieces of the same bytes, those behind the first alone, or fewer bytes.
fn smaller_cuts(pieces: &PieceReader, cut: &Cut, give: &mut dyn FnMut(Call)) {
    let mut with = |pieces: PieceReader, cut: Cut| {
        if cut.is_whole() {
            give(Call::PiecesTake { pieces, cut });
        }
    };
    smaller_left_over(pieces, &mut |pieces| with(pieces, cut.clone()));
    for i in 1..cut.lengths.len() {
        let mut joined = cut.clone();
        joined.lengths[i - 1] += joined.lengths.remove(i);
        with(pieces.clone(), joined);
    }
    let first = cut.lengths[0] as usize;
    let mut after = pieces.clone();
    if after.take(&cut.bytes[..first]).is_ok() {
        with(after, Cut { lengths: cut.lengths[1..].to_vec(), bytes: cut.bytes[first..].to_vec() });
    }
    for part in [RECORD, 1].into_iter().flat_map(|size| parts(cut.bytes.len(), size)) {
        with(pieces.clone(), cut_without(cut, part));
    }
}

/// The same pieces without these bytes.
fn cut_without(cut: &Cut, part: std::ops::Range<usize>) -> Cut {
    let mut bytes = cut.bytes.clone();
    bytes.drain(part.clone());
    let mut start = 0;
    let shorter = |length: &u64| {
        let end = start + *length as usize;
        let lost = end.min(part.end).saturating_sub(start.max(part.start));
        start = end;
        *length - lost as u64
    };
    Cut { lengths: cut.lengths.iter().map(shorter).collect(), bytes }
}

fn smaller_runs(reader: &Reader, bytes: &[u8], give: &mut dyn FnMut(Call)) {
    smaller_readers(reader, &mut |reader| give(Call::Run { reader, bytes: bytes.to_vec() }));
    for s in slots_of(&reader.setup) {
        let ragged = bytes.chunks_exact(RECORD).remainder();
        let events = events(bytes).flat_map(|event| event_without(event, s).to_bytes());
        give(Call::Run { reader: reader_without(reader, s), bytes: events.chain(ragged.iter().copied()).collect() });
    }
    for part in parts(bytes.len(), RECORD) {
        let mut bytes = bytes.to_vec();
        bytes.drain(part);
        give(Call::Run { reader: reader.clone(), bytes });
    }
    if bytes.len() % RECORD > 1 {
        give(Call::Run { reader: reader.clone(), bytes: bytes[..bytes.len() - 1].to_vec() });
    }
}

fn smaller_loads(reader: &Reader, current: SlotNumber, image: &[i32], give: &mut dyn FnMut(Call)) {
    let width = reader.layout.slot_numbers();
    smaller_readers(reader, &mut |reader| give(Call::Load { reader, current, image: image.to_vec() }));
    for s in slots_of(&reader.setup) {
        give(Call::Load {
            reader: reader_without(reader, s),
            current: number_without(current, s),
            image: numbers_without(image, width, s),
        });
    }
    smaller_numbers(image, width, -1, &mut |image| give(Call::Load { reader: reader.clone(), current, image }));
    give(Call::Load { reader: reader.clone(), current: SlotNumber(0), image: image.to_vec() });
}

/// The same frame at a lower position, or into a smaller buffer.
fn smaller_room(call: &Call, give: &mut dyn FnMut(Call)) {
    let Call::Write { writer, position, size, frame } = call else {
        return;
    };
    smaller_place(*position, *size, &mut |position, size| {
        give(Call::Write { writer: writer.clone(), position, size, frame: frame.clone() });
    });
}

/// A lower position with as many bytes behind it, or fewer bytes.
fn smaller_place(position: u64, size: usize, give: &mut dyn FnMut(u64, usize)) {
    for less in [position, position / 2, 1] {
        if less > 0 && less <= position && less <= size as u64 {
            give(position - less, size - less as usize);
        }
    }
    for less in [size, size / 2, 64, 8, 1] {
        if less > 0 && less <= size {
            give(position, size - less);
        }
    }
}

/// Less room, or a smaller state or frame into the same room.
fn smaller_writers(call: &Call, give: &mut dyn FnMut(Call)) {
    let Call::Write { writer, position, size, frame } = call else {
        return;
    };
    smaller_room(call, give);
    let need = need_of(writer, frame);
    let mut with = |writer: Writer, frame: Vec<i32>| {
        let mut with_pointer = |pointer: Pointer| {
            let (writer, frame) = (Writer { pointer, ..writer.clone() }, frame.clone());
            // Fewer contacts may need more: two more tool events, where five contacts become four.
            let size = match (need, need_of(&writer, &frame)) {
                (Some(old), Some(new)) => (*size + new).saturating_sub(old).min(LARGEST_BUFFER),
                _ => *size,
            };
            give(Call::Write { writer, position: *position, size, frame });
        };
        // A broken state is to stay so, and a good one whose contacts are others now has other numbers for the display.
        with_pointer(writer.pointer);
        let pointer = mended(&writer.pointer, &writer.setup, &writer.table);
        if pointer != writer.pointer {
            with_pointer(pointer);
        }
    };
    smaller_numbers(frame, SLOT_NUMBERS, 0, &mut |frame| with(writer.clone(), frame));
    for s in slots_of(&writer.setup) {
        with(writer_without(writer, s), numbers_without(frame, SLOT_NUMBERS, s));
    }
    // A slot unused in table and frame alike stays quiet; in one of them alone it would begin or lift.
    for s in 0..SLOTS.min(frame.len() / SLOT_NUMBERS) {
        let (mut writer, mut frame) = (writer.clone(), frame.clone());
        writer.table[s] = Slot::UNUSED;
        frame[row(SLOT_NUMBERS, s)].fill(0);
        with(writer, frame);
    }
    smaller_tables(&writer.table, &mut |table| with(Writer { table, ..writer.clone() }, frame.clone()));
    for (current, counter) in [(SlotNumber(0), writer.counter), (writer.current, 0)] {
        with(Writer { current, counter, ..writer.clone() }, frame.clone());
    }
    smaller_pointers(&writer.pointer, &mut |pointer| with(Writer { pointer, ..writer.clone() }, frame.clone()));
}

/// The option off, or one number for the display 0.
fn smaller_pointers(pointer: &Pointer, give: &mut dyn FnMut(Pointer)) {
    let told = pointer.told;
    give(Pointer::OFF);
    give(Pointer { on: false, ..*pointer });
    for told in [
        Told { touch: 0, ..told },
        Told { tool: 0, ..told },
        Told { x: 0, ..told },
        Told { y: 0, ..told },
        Told::NOTHING,
    ] {
        give(Pointer { told, ..*pointer });
    }
    for s in 0..SLOTS {
        let mut fewer = *pointer;
        fewer.ranks[s] = 0;
        give(fewer);
    }
}

/// Runs of whole parts to leave out: a half, a quarter, and so on down to each one.
fn parts(length: usize, part: usize) -> Vec<std::ops::Range<usize>> {
    let mut found = Vec::new();
    let mut many = length / part / 2 * part;
    loop {
        let step = many.max(part);
        found.extend(
            (0..(length / part * part))
                .step_by(step)
                .filter(|start| start + step <= length)
                .map(|start| start..start + step),
        );
        if step == part {
            return found;
        }
        many = many / part / 2 * part;
    }
}

/// One slot's numbers plain, or one number 0 or 1, of a frame or an image with so many numbers a slot.
fn smaller_numbers(numbers: &[i32], width: usize, plain: i32, give: &mut dyn FnMut(Vec<i32>)) {
    for s in 0..numbers.len() / width {
        let mut fewer = numbers.to_vec();
        fewer[row(width, s)].fill(0);
        fewer[width * s] = plain;
        give(fewer);
    }
    for i in 0..numbers.len() {
        // A contact's pressure cannot be 0.
        for plain in [0, 1] {
            let mut fewer = numbers.to_vec();
            fewer[i] = plain;
            give(fewer);
        }
    }
    if numbers.len() % width != 0 || numbers.len() > SLOTS * width {
        give(numbers[..numbers.len() - 1].to_vec());
    }
}

fn smaller_readers(reader: &Reader, give: &mut dyn FnMut(Reader)) {
    let with = |shown: Table, pending: Table| Reader { shown, pending, ..reader.clone() };
    // Both at once, since while lost they must stay equal.
    if reader.shown == reader.pending {
        smaller_tables(&reader.shown, &mut |table| give(with(table, table)));
    }
    if reader.mode == Mode::Following || reader.shown != reader.pending {
        smaller_tables(&reader.shown, &mut |table| give(with(table, reader.pending)));
        smaller_tables(&reader.pending, &mut |table| give(with(reader.shown, table)));
    }
    give(Reader { current: SlotNumber(0), ..reader.clone() });
}

fn smaller_tables(table: &Table, give: &mut dyn FnMut(Table)) {
    for s in 0..table.len() {
        let mut fewer = *table;
        fewer[s] = Slot::UNUSED;
        give(fewer);
        for i in 0..table[s].numbers.len() {
            let mut fewer = *table;
            fewer[s].numbers[i] = 0;
            give(fewer);
        }
    }
}

/// The slots of which one may be taken out, so that one is left.
fn slots_of(setup: &Setup) -> std::ops::Range<usize> {
    match setup.slots {
        0 | 1 => 0..0,
        n if n > SLOTS as u64 => 0..0,
        n => 0..n as usize,
    }
}

fn take_slot(table: &mut Table, s: usize) {
    table.copy_within(s + 1.., s);
    table[SLOTS - 1] = Slot::UNUSED;
}

fn writer_without(writer: &Writer, s: usize) -> Writer {
    let mut fewer = writer.clone();
    take_slot(&mut fewer.table, s);
    fewer.pointer.ranks.copy_within(s + 1.., s);
    fewer.pointer.ranks[SLOTS - 1] = 0;
    fewer.setup.slots -= 1;
    fewer.current = number_without(fewer.current, s);
    fewer
}

fn reader_without(reader: &Reader, s: usize) -> Reader {
    let mut fewer = reader.clone();
    take_slot(&mut fewer.shown, s);
    take_slot(&mut fewer.pending, s);
    fewer.setup.slots -= 1;
    fewer.current = number_without(fewer.current, s);
    fewer
}

fn number_without(slot: SlotNumber, s: usize) -> SlotNumber {
    SlotNumber(slot.0 - u64::from(slot.0 > s as u64))
}

fn event_without(event: Event, s: usize) -> Event {
    if (event.kind, event.code) == (EV_ABS, ABS_MT_SLOT) && event.value > s as i32 {
        return Event::abs(ABS_MT_SLOT, event.value - 1);
    }
    event
}

fn numbers_without(numbers: &[i32], width: usize, s: usize) -> Vec<i32> {
    let mut fewer = numbers.to_vec();
    if fewer.len() >= row(width, s).end {
        fewer.drain(row(width, s));
    }
    fewer
}

/// Where the numbers of a slot stand in a frame or an image with so many numbers a slot.
fn row(width: usize, s: usize) -> std::ops::Range<usize> {
    width * s..width * (s + 1)
}

#[cfg(test)]
mod tests {
    use super::*;
    use crate::brief::shorten;
    use crate::maker::Maker;
    use crate::table::X;

    /// A reader that clears x where an id changes, found by its answer to a run: shrunk from a long call, one finger and one event are left.
    #[test]
    fn a_long_call_becomes_a_short_one() {
        let differs = |call: &Call| match call {
            Call::Run { reader, bytes } => {
                let mut reader = reader.clone();
                let before = reader.clone();
                reader.run(bytes).is_ok()
                    && reader
                        .pending
                        .iter()
                        .zip(before.pending)
                        .any(|(now, then)| now.id != then.id && then.numbers[X] > 0)
            }
            _ => false,
        };
        let mut maker = Maker::new(11);
        let mut call = loop {
            let line = maker.next_line();
            match Call::parse(line.as_bytes()) {
                Some(call @ Call::Run { .. }) if differs(&call) && line.len() > 1500 => break call,
                _ => {}
            }
        };
        while let Some(next) = smaller(&call).into_iter().find(|call| differs(call)) {
            call = next;
        }
        let short = shorten(&call);
        assert!(short.len() < 150 && short.matches('{').count() <= 3, "{short}");
    }

    #[test]
    fn pieces_without_some_of_their_bytes() {
        let cut = Cut { lengths: vec![3, 0, 5, 2], bytes: (0..10).collect() };
        for (part, lengths) in [(2..6, [2, 0, 2, 2]), (0..8, [0, 0, 0, 2]), (9..10, [3, 0, 5, 1]), (0..10, [0; 4])] {
            let fewer = cut_without(&cut, part.clone());
            assert_eq!(fewer.lengths, lengths);
            assert!(fewer.is_whole() && fewer.bytes.iter().all(|byte| !part.contains(&(*byte as usize))));
        }
    }

    /// A reader that loses a byte behind a record over two pieces: shrunk, one such record and a byte are left.
    #[test]
    fn a_long_cut_becomes_a_short_one() {
        let differs = |call: &Call| match call {
            Call::PiecesTake { pieces, cut } if pieces.is_well_formed() => {
                let mut held = pieces.held;
                cut.lengths.iter().any(|length| {
                    let is_lost = held > 0 && held + length > RECORD as u64;
                    held = (held + length) % RECORD as u64;
                    is_lost
                })
            }
            _ => false,
        };
        let mut maker = Maker::new(12);
        let mut call = loop {
            match Call::parse(maker.next_line().as_bytes()) {
                Some(call @ Call::PiecesTake { .. }) if differs(&call) && call.line().len() > 1_500 => break call,
                _ => {}
            }
        };
        while let Some(next) = smaller(&call).into_iter().find(|call| differs(call)) {
            call = next;
        }
        let short = shorten(&call);
        assert!(short.len() < 130, "{short}");
    }

    /// A writer whose display follows the lowest slot: shrunk, two contacts are left, or a third that the frame changes.
    #[test]
    fn contacts_that_a_display_needs_are_left() {
        (11..15).for_each(shrink_display);
    }

    fn shrink_display(seed: u64) {
        let live = |writer: &Writer| (0..SLOTS).filter(|s| writer.table[*s].id.is_live()).collect::<Vec<_>>();
        let differs = |call: &Call| match call {
            Call::Write { writer, position, size, frame } if writer.pointer.on => {
                let mut after = writer.clone();
                after.write(frame, &mut vec![0; *size], *position).is_ok_and(|written| written.changed != 0)
                    && live(&after).first().is_some_and(|s| after.pointer.ranks[*s] != 0)
            }
            _ => false,
        };
        let mut maker = Maker::new(seed);
        let mut call = loop {
            match Call::parse(maker.next_line().as_bytes()) {
                Some(call @ Call::Write { .. }) if differs(&call) && shorten(&call).len() > 300 => break call,
                _ => {}
            }
        };
        while let Some(next) = smaller(&call).into_iter().find(|call| differs(call)) {
            call = next;
        }
        let Call::Write { writer, .. } = &call else { unreachable!("it is a frame") };
        assert!(live(writer).len() <= 3 && writer.setup.slots <= 3, "{}", shorten(&call));
    }

    #[test]
    fn parts_are_halves_down_to_single_ones() {
        assert_eq!(parts(20, 8), [0..8, 8..16]);
        assert_eq!(parts(32, 8), [0..16, 16..32, 0..8, 8..16, 16..24, 24..32]);
        assert!(parts(7, 8).is_empty());
    }
}
