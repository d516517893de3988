//! K12, anonymous panels: the named cases, worked out by hand, and each rule of a frame.

use crate::common::pairings::{place, Best};
use crate::common::{bytes, in_bytes, panel, slot, writer};
use second::brief::expand;
use second::events::*;
use second::pairing::{Place, NONE};
use second::random::Random;
use second::records::event_text;
use second::refusal::Refusal;
use second::script::{answer_line, Call, WRITER_NUMBERS};
use second::table::{Slot, SLOTS, SLOT_NUMBERS, X, Y};
use second::writer::{Writer, Written, LARGEST_FRAME};

/// The bytes of a buffer that an answer has behind the position, as many as its events are.
fn sent(answer: &str, position: usize) -> Vec<u8> {
    let words: Vec<&str> = answer.split(' ').collect();
    let count: usize = words[WRITER_NUMBERS + 1].parse().unwrap();
    let from = WRITER_NUMBERS + 5 + position;
    words[from..from + count * RECORD].iter().map(|word| word.parse().unwrap()).collect()
}

/// What is said to be sent in the name of a case is sent, and a case without is refused with the number in its name.
#[test]
fn the_named_cases() {
    let script = expand(include_str!("../../cases_anonymous.txt")).unwrap();
    let (mut name, mut seen) = ("", [0; 2]);
    for line in script.lines().filter(|line| !line.is_empty()) {
        if line.starts_with('#') {
            name = line;
            continue;
        }
        let answer = answer_line(line.as_bytes());
        let Some(Call::Anonymous { position, .. }) = Call::parse(line.as_bytes()) else {
            assert_eq!((name, answer.as_str()), ("# a line that is no call", "bad line"));
            continue;
        };
        match name.split_once(", sends ") {
            Some((_, events)) => {
                assert!(answer.starts_with("0 "), "{name}: {answer}");
                let events = if events == "nothing" { "" } else { events };
                assert_eq!(sent(&answer, position as usize), in_bytes(events), "{name}");
                seen[0] += 1;
            }
            None => {
                let number = name[2..].split(':').next().unwrap();
                assert_eq!(answer.split(' ').next(), Some(number), "{name}");
                seen[1] += 1;
            }
        }
    }
    assert!(seen[0] > 30 && seen[1] > 30, "{seen:?}");
}

fn contact(x: i32, y: i32, pressure: i32) -> Vec<Event> {
    let numbers = [(ABS_MT_POSITION_X, x), (ABS_MT_POSITION_Y, y), (ABS_MT_PRESSURE, pressure)];
    numbers.into_iter().map(|(code, value)| Event::abs(code, value)).chain([Event::MT_REPORT]).collect()
}

/// The records of these contacts and a report.
fn frame_of(contacts: &[(i32, i32, i32)]) -> Vec<Event> {
    let packets = contacts.iter().flat_map(|(x, y, pressure)| contact(*x, *y, *pressure));
    packets.chain([Event::REPORT]).collect()
}

/// Two contacts of four slots, with sizes, and an unused slot between them.
fn two() -> Writer {
    let mut two = writer(2, 9, &[slot(4, 10, 10, 5), Slot::UNUSED, slot(7, 20, 20, 5), slot(-1, 30, 30, 5)]);
    two.table[0].numbers[3] = 8;
    two
}

/// The verdict alone; a refused frame leaves the writer and the buffer as they were.
fn verdict(events: &[Event]) -> Option<u8> {
    let (mut writer, mut buffer) = (two(), [0x55; LARGEST_FRAME]);
    let written = writer.write_anonymous(&bytes(events), &mut buffer, 0);
    if let Err(refusal) = written {
        assert_eq!((writer, buffer, refusal.need()), (two(), [0x55; LARGEST_FRAME], 0));
    }
    written.err().map(Refusal::number)
}

/// The contacts go to slots 2, 0, 1 and 3: what is written is the type B frame with these rows.
#[test]
fn the_type_b_frame() {
    let new = [(21, 20, 9), (10, 11, 5), (4000, 4000, 1), (0, 0, 255)];
    let rows = [[1, 10, 11, 5, 0, 0], [1, 4000, 4000, 1, 0, 0], [1, 21, 20, 9, 0, 0], [1, 0, 0, 255, 0, 0]].concat();
    let (mut from_a, mut from_b) = (two(), two());
    let (mut a, mut b) = ([7; LARGEST_FRAME], [7; LARGEST_FRAME]);
    let written = from_a.write_anonymous(&bytes(&frame_of(&new)), &mut a, 3).unwrap();
    assert_eq!(from_b.write(&rows, &mut b, 3), Ok(written));
    assert_eq!((from_a, a), (from_b, b));
    assert_eq!(written.changed, 0b1111);
}

/// As many old contacts as new ones or fewer: who is left over, and that nothing else of the table moves.
#[test]
fn who_is_left_over() {
    let mut ended = two();
    let report = bytes(&[Event::REPORT]);
    assert_eq!(ended.write_anonymous(&report, &mut [0; 32], 0), Ok(Written { events: 4, changed: 0b101 }));
    assert!(ended.table.iter().all(|slot| !slot.id.is_live()));
    assert_eq!(ended.table.map(|slot| slot.numbers), two().table.map(|slot| slot.numbers));
    let mut one = two();
    one.write_anonymous(&bytes(&frame_of(&[(16, 16, 5)])), &mut [0; 64], 0).unwrap();
    assert_eq!(one.table[..3].iter().map(|slot| slot.id.0).collect::<Vec<_>>(), [-1, -1, 7]);
    assert_eq!(one.counter, 9);
}

/// All types and codes that differ from a read one in one bit, between and behind: as if they were not there.
#[test]
fn whatever_is_not_read_is_skipped() {
    let read = [(0, 0), (0, 2), (0, 3), (3, 0x35), (3, 0x36), (3, 0x3a)];
    let right = frame_of(&[(21, 20, 9), (10, 11, 5)]);
    let written = |events: &[Event]| {
        let (mut writer, mut buffer) = (two(), [0; LARGEST_FRAME]);
        let written = writer.write_anonymous(&bytes(events), &mut buffer, 0);
        (written, writer, buffer)
    };
    for (kind, code) in read.iter().flat_map(|(kind, code)| (0..16).map(move |bit| (kind ^ 1 << bit, *code))) {
        try_skipped(&right, kind, code, &read, &written);
    }
    for (kind, code) in read.iter().flat_map(|(kind, code)| (0..16).map(move |bit| (*kind, code ^ 1 << bit))) {
        try_skipped(&right, kind, code, &read, &written);
    }
}

type Wrote = (Result<Written, Refusal>, Writer, [u8; LARGEST_FRAME]);

fn try_skipped(right: &[Event], kind: u16, code: u16, read: &[(u16, u16)], written: &impl Fn(&[Event]) -> Wrote) {
    if read.contains(&(kind, code)) {
        return;
    }
    for at in 0..=right.len() {
        let mut events = right.to_vec();
        events.insert(at, Event { kind, code, value: -1 });
        assert!(written(&events) == written(right), "{kind} {code} at {at}");
    }
}

/// Each record of a good frame left out, and each kind of record put in at each place.
#[test]
fn one_record_less_or_more() {
    let right = frame_of(&[(21, 20, 9), (10, 11, 5)]);
    assert_eq!(verdict(&right), None);
    for i in 0..right.len() {
        let mut fewer = right.clone();
        let lost = fewer.remove(i);
        // Without the first SYN_MT_REPORT the two packets are one, in which the second's numbers count.
        let is_one = i == 3;
        assert_eq!(verdict(&fewer), if is_one { None } else { Some(10) }, "without {i}, {}", event_text(lost));
    }
    for i in 0..=right.len() {
        let with = |event: Event| {
            let mut more = right.clone();
            more.insert(i, event);
            verdict(&more)
        };
        assert_eq!((with(Event::REPORT), with(Event::DROPPED)), (Some(10), Some(10)), "at {i}");
        // It may part a packet in two, or close none.
        let is_between = [0, 3, 4, 7, 8].contains(&i);
        assert_eq!(with(Event::MT_REPORT), if is_between { None } else { Some(10) }, "at {i}");
        let is_inside = i < 8;
        assert_eq!(with(Event::abs(ABS_MT_POSITION_X, 1)), if is_inside { None } else { Some(10) }, "at {i}");
    }
}

/// n is 4 here, and 1 to 7 below: 5 is the most, and n where that is less.
#[test]
fn how_many_contacts() {
    for n in 1..=7 {
        for count in 0..=9 {
            let mut writer = Writer::fresh(panel(n), false).unwrap();
            let contacts: Vec<_> = (0..count).map(|i| (i, i, 1)).collect();
            let written = writer.write_anonymous(&bytes(&frame_of(&contacts)), &mut [0; LARGEST_FRAME], 0);
            let is_taken = count as u64 <= n.min(5);
            assert_eq!(written.err(), (!is_taken).then_some(Refusal::Contacts), "{count} of {n}");
            let slots: Vec<usize> = (0..SLOTS).filter(|s| writer.table[*s].id.is_live()).collect();
            assert_eq!(slots, (0..if is_taken { count as usize } else { 0 }).collect::<Vec<_>>());
        }
    }
}

/// The order 2, 6, 9, 10, 4, 5: a call with all the faults, of which one after the other is mended.
#[test]
fn refusals_in_their_order() {
    let whole = frame_of(&[(1, 1, 1)]);
    let many: Vec<Event> = (0..5).flat_map(|_| contact(-1, 1, 0)).collect();
    let open = contact(-1, 1, 0);
    let bad = frame_of(&[(-1, 1, 0)]);
    let judge = |broken: bool, records: &[u8], size: usize| {
        let mut writer = two();
        writer.counter += u32::from(broken) * 65_536;
        let before = writer.clone();
        let mut buffer = vec![9; size];
        let written = writer.write_anonymous(records, &mut buffer, 1);
        assert!(written.is_ok() || (writer == before && buffer.iter().all(|byte| *byte == 9)));
        written.err().map(Refusal::number)
    };
    let ragged = [bytes(&many), vec![0; 3]].concat();
    assert_eq!(judge(true, &ragged, 0), Some(2));
    assert_eq!(judge(false, &ragged, 0), Some(6));
    assert_eq!(judge(false, &bytes(&many), 0), Some(9));
    assert_eq!(judge(false, &bytes(&open), 0), Some(10));
    assert_eq!(judge(false, &bytes(&bad), 0), Some(4));
    assert_eq!(judge(false, &bytes(&whole), 0), Some(5));
    assert_eq!(judge(false, &bytes(&whole), LARGEST_FRAME), None);
    assert_eq!((Refusal::Contacts.number(), Refusal::Packets.number()), (9, 10));
}

#[test]
fn values_by_their_ranges() {
    let setup = second::table::Setup { slots: 2, largest: [300, 200, 100, 1, 1] };
    let judge = |x, y, pressure| {
        let mut writer = Writer::fresh(setup, false).unwrap();
        writer.write_anonymous(&bytes(&frame_of(&[(x, y, pressure)])), &mut [0; 64], 0).err()
    };
    for (x, y, pressure, is_good) in [
        (300, 200, 100, true),
        (0, 0, 1, true),
        (301, 0, 1, false),
        (0, 201, 1, false),
        (0, 0, 101, false),
        (0, 0, 0, false),
        (-1, 0, 1, false),
        (0, i32::MIN, 1, false),
        (65_536, 0, 1, false),
    ] {
        assert_eq!(judge(x, y, pressure), (!is_good).then_some(Refusal::Value), "{x} {y} {pressure}");
    }
}

/// Random frames to one writer after the other: the table is what the rules say of the pairing found by trying all.
#[test]
fn frames_one_after_the_other() {
    let mut random = Random::new(14);
    for n in 1..=6 {
        let mut writer = Writer::fresh(panel(n), random.once_in(2)).unwrap();
        for _ in 0..200 {
            let count = random.below(n.min(5) + 1) as usize;
            let new: Vec<(i32, i32, i32)> = (0..count)
                .map(|_| (random.below(4) as i32, random.below(4) as i32, 1 + random.below(3) as i32))
                .collect();
            let mut by_hand = writer.clone();
            let frame = rows(&writer, &new);
            let (mut a, mut b) = ([0; LARGEST_FRAME], [0; LARGEST_FRAME]);
            let written = writer.write_anonymous(&bytes(&frame_of(&new)), &mut a, 0);
            assert_eq!((written, &writer, a), (by_hand.write(&frame, &mut b, 0), &by_hand, b));
        }
    }
}

/// The rows of the type B frame, by the slow way.
fn rows(writer: &Writer, new: &[(i32, i32, i32)]) -> Vec<i32> {
    let n = writer.setup.slots as usize;
    let live: Vec<usize> = (0..n).filter(|s| writer.table[*s].id.is_live()).collect();
    let old: Vec<Place> =
        live.iter().map(|s| writer.table[*s].numbers).map(|number| place(number[X], number[Y])).collect();
    let places: Vec<Place> = new.iter().map(|(x, y, _)| place(*x as u32, *y as u32)).collect();
    let list = Best::of(&old, &places).found.unwrap().1;
    let mut slots: Vec<(usize, usize)> = live.iter().zip(&list).map(|(s, number)| (*number, *s)).collect();
    let left_over = (0..new.len()).filter(|number| !list.contains(number));
    slots.extend(left_over.zip((0..n).filter(|s| !live.contains(s))));
    let mut frame = vec![0; n * SLOT_NUMBERS];
    for (number, s) in slots.into_iter().filter(|(number, _)| *number != NONE) {
        let (x, y, pressure) = new[number];
        frame[s * SLOT_NUMBERS..][..4].copy_from_slice(&[1, x, y, pressure]);
    }
    frame
}
