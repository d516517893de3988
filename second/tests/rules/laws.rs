//! What must hold of every call, tried on random scripts: what is sent reads back, counts fit, refusals change nothing.

use crate::common::bytes;
use second::events::*;
use second::maker::Maker;
use second::reader::{Mode, Ran, Reader};
use second::script::Call;
use second::table::{Layout, Slot, TrackingId, SLOTS};
use second::writer::{Writer, LARGEST_FRAME, MOST_CONTACT_EVENTS, MOST_EVENTS};

fn calls(seed: u64, count: usize) -> Vec<Call> {
    let mut maker = Maker::new(seed);
    (0..count).filter_map(|_| Call::parse(maker.next_line().as_bytes())).collect()
}

/// The table that a frame asks for but for ids, said the slow way.
fn asked(before: &Slot, wanted: &[i32]) -> Slot {
    match wanted[0] {
        0 => Slot { id: TrackingId::UNUSED, ..*before },
        _ => Slot { id: before.id, numbers: [1, 2, 3, 4, 5].map(|i| wanted[i] as u32) },
    }
}

/// The eight numbers of a display, by type and code: touch, five tools, X and Y.
fn display(writer: &Writer) -> Vec<Event> {
    let told = writer.pointer.told;
    let key = |code: u16, is_down: bool| Event { kind: 1, code, value: is_down.into() };
    let tools = [0x145, 0x14d, 0x14e, 0x14f, 0x148].map(|code| key(code, told.tool == code));
    let place = [Event::abs(0, told.x as i32), Event::abs(1, told.y as i32)];
    [key(0x14a, told.touch == 1)].into_iter().chain(tools).chain(place).collect()
}

/// One event for each number of the display that changed, at most four: touch before all others, the rest just before the report.
fn check_display(before: &Writer, after: &Writer, sent: &[Event]) -> usize {
    let pairs = || display(before).into_iter().zip(display(after)).filter(|(old, new)| old != new);
    let is_emulated = |event: &Event| !listed(Layout::Panel).contains(&(event.kind, event.code));
    let emulated: Vec<Event> = sent.iter().copied().filter(is_emulated).collect();
    assert!(emulated.len() <= 4 && emulated.len() == pairs().count());
    assert!(pairs().all(|(_, new)| emulated.contains(&new)));
    let (touch, rest): (Vec<&Event>, Vec<&Event>) = emulated.iter().partition(|event| event.code == 0x14a);
    assert_eq!(sent.iter().take(touch.len()).collect::<Vec<_>>(), touch);
    let behind = sent.len().saturating_sub(1);
    assert_eq!(sent[behind.saturating_sub(rest.len())..behind].iter().collect::<Vec<_>>(), rest);
    // The old tool, the new one, X, Y.
    let place = |event: &&Event| match (event.kind, event.value) {
        (1, value) => value,
        (_, _) => 2 + i32::from(event.code),
    };
    assert!(rest.windows(2).all(|pair| place(&pair[0]) < place(&pair[1])));
    emulated.len()
}

#[test]
fn frames() {
    let (mut accepted, mut emulating) = (0, 0);
    for call in calls(21, 40_000) {
        let Call::Write { writer, position, size, frame } = call else {
            continue;
        };
        let mut after = writer.clone();
        let mut buffer = second::script::marks(size);
        let Ok(written) = after.write(&frame, &mut buffer, position) else {
            assert_eq!(after, writer);
            assert_eq!(buffer, second::script::marks(size));
            continue;
        };
        accepted += 1;
        assert!(after.is_well_formed());

        // Only the records' bytes changed.
        let (start, end) = (position as usize, position as usize + written.events as usize * RECORD);
        let marks = second::script::marks(size);
        assert_eq!(buffer[..start], marks[..start]);
        assert_eq!(buffer[end..], marks[end..]);

        // The ids, chosen by a search that keeps every number that is taken.
        let mut taken: Vec<i32> = writer.table.iter().map(|slot| slot.id.0).collect();
        let mut counter = writer.counter as i32;
        for (s, wanted) in frame.chunks(6).enumerate() {
            let before = &writer.table[s];
            let mut expected = asked(before, wanted);
            if wanted[0] == 2 || (wanted[0] == 1 && before.id.0 == -1) {
                while taken.contains(&counter) {
                    counter = (counter + 1) % 65_536;
                }
                expected.id = TrackingId(counter);
                taken.push(counter);
                counter = (counter + 1) % 65_536;
            }
            assert_eq!(after.table[s], expected);
            assert_eq!(written.changed >> s & 1 == 1, expected != *before);
        }
        assert_eq!(after.counter as i32, counter);

        // A reader that saw the old table sees the new one.
        let mut reader = Reader {
            layout: Layout::Panel,
            setup: writer.setup,
            current: writer.current,
            mode: Mode::Following,
            shown: writer.table,
            pending: writer.table,
        };
        let ran = reader.run(&buffer[start..end]).unwrap();
        let sent: Vec<Event> = events(&buffer[start..end]).collect();
        let emulated = check_display(&writer, &after, &sent);
        assert_eq!((ran.shown, ran.bad, ran.ignored), (u64::from(written.events > 0), 0, 0));
        // No reader knows the emulated ones, and they change nothing in its tables.
        assert_eq!(ran.skipped() as usize, emulated);
        emulating += usize::from(emulated > 0);
        assert_eq!(reader.shown, after.table);
        assert_eq!(reader.pending, after.table);
        assert_eq!(reader.current, after.current);

        // The fewest events: what changed, a SLOT for each changed slot but the current one, a report.
        let changed = (0..SLOTS).filter(|s| after.table[*s] != writer.table[*s]);
        let slots = changed.clone().count();
        let numbers: usize = changed
            .map(|s| {
                let (a, b) = (after.table[s], writer.table[s]);
                usize::from(a.id != b.id) + (0..5).filter(|i| a.numbers[*i] != b.numbers[*i]).count()
            })
            .sum();
        let current = writer.current.0 as usize;
        let free = usize::from(after.table[current] != writer.table[current]);
        let fewest = if slots == 0 { 0 } else { numbers + slots - free + 1 + emulated };
        assert_eq!(written.events as usize, fewest);
        assert_eq!(written.changed.count_ones() as usize, slots);
    }
    assert!(accepted > 2000 && emulating > 300, "{accepted} {emulating}");
}

fn five(ran: &Ran) -> [u64; 5] {
    [ran.shown, ran.unknown_type, ran.unknown_code, ran.bad, ran.ignored]
}

#[test]
fn runs_are_their_records_one_after_the_other() {
    for call in calls(22, 6_000) {
        let Call::Run { reader, bytes: records } = call else {
            continue;
        };
        let mut after = reader.clone();
        let Ok(ran) = after.run(&records) else {
            assert_eq!(after, reader);
            continue;
        };
        assert!(after.is_well_formed());
        let mut slow = reader.clone();
        let mut sums = [0; 5];
        let mut skipped = Vec::new();
        for event in events(&records) {
            let one = slow.one(event).unwrap();
            for (sum, count) in sums.iter_mut().zip(five(&one)) {
                *sum += count;
            }
            // One record is skipped, and then named, or it is not.
            assert_eq!(one.first_skipped.is_some() as u64, one.skipped());
            skipped.extend(one.first_skipped);
        }
        assert_eq!(slow, after);
        assert_eq!(sums, five(&ran));
        assert_eq!(ran.first_skipped, skipped.first().copied());
        let unknown_type = |pair: &&(u16, u16)| pair.0 != 0 && pair.0 != 3;
        assert_eq!(ran.unknown_type as usize, skipped.iter().filter(unknown_type).count());
        assert_eq!(ran.skipped() as usize, skipped.len());
        assert!(skipped.iter().all(|pair| !listed(reader.layout).contains(pair)));
    }
}

#[test]
fn all_slots_land_in_the_most_events() {
    let setup = crate::common::panel(SLOTS as u64);
    assert_eq!((MOST_CONTACT_EVENTS, MOST_EVENTS, LARGEST_FRAME), (224, 228, 1_824));
    for (pointer, most) in [(false, MOST_CONTACT_EVENTS), (true, MOST_EVENTS)] {
        let mut writer = Writer::fresh(setup, pointer).unwrap();
        let frame = [1, 1, 1, 1, 1, 1].repeat(SLOTS);
        let mut buffer = vec![0; most * RECORD];
        assert_eq!(writer.write(&frame, &mut buffer, 0).unwrap().events as usize, most);
        let mut reader = Reader::fresh(Layout::Panel, setup).unwrap();
        reader.run(&buffer).unwrap();
        assert_eq!(reader.shown, writer.table);
        assert!(buffer.ends_with(&bytes(&[Event::REPORT])));
    }
}
