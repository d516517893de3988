//! Smaller type A frames: without a packet, without an old contact, or without both, since the one without the other changes who is paired with whom.

use super::*;
use crate::events::{EV_SYN, SYN_MT_REPORT};
use crate::maker::need_of_anonymous;

/// A smaller state or frame into the same room, or less room.
pub(super) fn smaller_frames(call: &Call, give: &mut dyn FnMut(Call)) {
    let Call::Anonymous { writer, position, size, records } = call else {
        return;
    };
    smaller_place(*position, *size, &mut |position, size| {
        give(Call::Anonymous { writer: writer.clone(), position, size, records: records.clone() });
    });
    let mut with = |writer: &Writer, records: &[u8]| give_mended(call, writer, records, give);
    fewer_bytes(records, RECORD, &mut |records| with(writer, &records));
    smaller_values(records, &mut |records| with(writer, &records));
    let fewer = without_packets(records);
    fewer.iter().for_each(|records| with(writer, records));
    for s in slots_of(&writer.setup) {
        let taken = writer_without(writer, s);
        let mut unused = writer.clone();
        unused.table[s] = Slot::UNUSED;
        for other in [taken, unused] {
            with(&other, records);
            fewer.iter().for_each(|records| with(&other, records));
        }
    }
    smaller_tables(&writer.table, &mut |table| with(&Writer { table, ..writer.clone() }, records));
    for (current, counter) in [(SlotNumber(0), writer.counter), (writer.current, 0)] {
        with(&Writer { current, counter, ..writer.clone() }, records);
    }
    smaller_pointers(&writer.pointer, &mut |pointer| with(&Writer { pointer, ..writer.clone() }, records));
}

/// The call with this writer and these records, where need be with other numbers for the display, and with as much room to spare.
fn give_mended(call: &Call, writer: &Writer, records: &[u8], give: &mut dyn FnMut(Call)) {
    let Call::Anonymous { writer: before, position, size, records: old } = call else {
        return;
    };
    let mended = mended(&writer.pointer, &writer.setup, &writer.table);
    for pointer in [writer.pointer, mended] {
        let writer = Writer { pointer, ..writer.clone() };
        let size = match (need_of_anonymous(before, old), need_of_anonymous(&writer, records)) {
            (Some(old), Some(new)) => (*size + new).saturating_sub(old).min(LARGEST_BUFFER),
            _ => *size,
        };
        give(Call::Anonymous { writer, position: *position, size, records: records.to_vec() });
    }
}

/// The records without one of their packets, each in turn.
fn without_packets(records: &[u8]) -> Vec<Vec<u8>> {
    let mut found = Vec::new();
    let mut from = 0;
    for (i, event) in events(records).enumerate() {
        if (event.kind, event.code) == (EV_SYN, SYN_MT_REPORT) {
            let end = (i + 1) * RECORD;
            found.push([&records[..from], &records[end..]].concat());
            from = end;
        }
    }
    found
}

/// One record's value is 0 or 1.
fn smaller_values(records: &[u8], give: &mut dyn FnMut(Vec<u8>)) {
    for (i, event) in events(records).enumerate() {
        for value in [0, 1] {
            let mut fewer = records.to_vec();
            fewer[i * RECORD..(i + 1) * RECORD].copy_from_slice(&Event { value, ..event }.to_bytes());
            give(fewer);
        }
    }
}

#[cfg(test)]
mod tests {
    use super::*;
    use crate::brief::shorten;
    use crate::maker::Maker;
    use crate::pairing::{pairing, Place};
    use crate::requests::Request;
    use crate::table::{X, Y};

    /// Whether the first old contact takes the nearest new one though the rules do otherwise.
    fn is_hasty(call: &Call) -> bool {
        let Call::Anonymous { writer, records, .. } = call else {
            return false;
        };
        let live = writer.table.iter().filter(|slot| slot.id.is_live());
        let old: Vec<Place> = live.map(|slot| Place { x: slot.numbers[X], y: slot.numbers[Y] }).collect();
        let mut after = writer.clone();
        if after.write_anonymous(records, &mut [0; LARGEST_BUFFER], 0).is_err() || old.len() < 2 {
            return false;
        }
        let xs: Vec<u32> = events(records).filter(|event| event.code == 0x35).map(|event| event.value as u32).collect();
        let ys: Vec<u32> = events(records).filter(|event| event.code == 0x36).map(|event| event.value as u32).collect();
        if xs.len() != ys.len() || xs.is_empty() || xs.len() > 5 {
            return false;
        }
        let new: Vec<Place> = xs.into_iter().zip(ys).map(|(x, y)| Place { x, y }).collect();
        let nearest = (0..new.len()).min_by_key(|number| crate::pairing::squared(old[0], new[*number]));
        nearest != Some(pairing(&old, &new)[0])
    }

    /// A pairing that goes wrong is shown by two old contacts and a new one, or by two and two.
    #[test]
    fn a_crowd_becomes_two_pairs() {
        for seed in 11..15 {
            let mut maker = Maker::with(seed, Request::ALL);
            let mut call = loop {
                match Call::parse(maker.next_line().as_bytes()) {
                    Some(call) if is_hasty(&call) && shorten(&call).len() > 300 => break call,
                    _ => {}
                }
            };
            while let Some(next) = smaller(&call).into_iter().find(is_hasty) {
                call = next;
            }
            let Call::Anonymous { writer, .. } = &call else { unreachable!("it is one") };
            let live = writer.table.iter().filter(|slot| slot.id.is_live()).count();
            assert!(live == 2 && shorten(&call).len() < 200, "{}", shorten(&call));
        }
    }
}
