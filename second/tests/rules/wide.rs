//! K7: panels of up to 32 slots, a number of the changed slots that has 32 bits, and cranes that keep their 16.

use crate::common::*;
use second::events::*;
use second::random::Random;
use second::reader::{Asked, Mode, Ran, Reader};
use second::refusal::Refusal;
use second::table::{Layout, Slot, SlotNumber, Table, TrackingId, EMPTY, SLOTS};
use second::writer::{Writer, Written, LARGEST_FRAME, MOST_CONTACT_EVENTS};

const UNUSED: [Slot; SLOTS] = EMPTY;

/// A frame of contacts that go on as the table has them, and of unused slots.
fn equal(slots: &[Slot]) -> Vec<i32> {
    slots
        .iter()
        .flat_map(|slot| {
            let [x, y, pressure, major, minor] = slot.numbers.map(|number| number as i32);
            [i32::from(slot.id.is_live()), x, y, pressure, major, minor]
        })
        .collect()
}

fn row(frame: &mut [i32], s: usize) -> &mut [i32] {
    &mut frame[6 * s..6 * (s + 1)]
}

/// Live contacts in every slot with ids from this one on.
fn all_live(first: i32) -> Vec<Slot> {
    (0..SLOTS as i32).map(|s| slot(first + s, 5, 5, 5)).collect()
}

#[test]
fn each_slot_has_its_bit() {
    for s in 0..SLOTS {
        let mut fresh = writer(0, 0, &UNUSED);
        let mut frame = equal(&UNUSED);
        row(&mut frame, s).copy_from_slice(&[1, 100, 200, 30, 0, 0]);
        let (events, written) = write(&mut fresh, &frame).unwrap();
        let slot = if s == 0 { vec![] } else { vec![format!("SLOT {s}")] };
        let numbers = ["ID 0", "X 100", "Y 200", "PRESSURE 30", "REPORT"].map(str::to_string);
        assert_eq!(events, [slot, numbers.to_vec()].concat());
        assert_eq!(written.changed, 1 << s);
        assert_eq!(fresh.current, SlotNumber(s as u64));
    }
    // The last one alone is 2^31, and no negative number.
    let mut held = writer(31, 32, &all_live(0));
    let mut frame = equal(&held.table);
    row(&mut frame, 31)[0] = 0;
    assert_eq!(write(&mut held, &frame), Ok((vec!["ID -1".into(), "REPORT".into()], two(2_147_483_648))));
}

fn two(changed: u32) -> Written {
    Written { events: 2, changed }
}

#[test]
fn every_number_of_32_slots() {
    assert_eq!((MOST_CONTACT_EVENTS, LARGEST_FRAME), (1 + 6 * 32 + 31, 1_792 + 4 * 8));
    let fresh = writer(9, 0, &UNUSED);
    let frame = [1, 1, 1, 1, 1, 1].repeat(SLOTS);
    let mut buffer = [7; 1_800];
    let mut refused = fresh.clone();
    assert_eq!(refused.write(&frame, &mut buffer[..1_794], 3), Err(Refusal::NoRoom { need: 1_792 }));
    assert_eq!((&refused, buffer), (&fresh, [7; 1_800]));
    let mut landed = fresh;
    assert_eq!(landed.write(&frame, &mut buffer, 3), Ok(Written { events: 224, changed: u32::MAX }));
    assert_eq!((&buffer[..3], &buffer[1_795..]), (&[7; 3][..], &[7; 5][..]));
    assert!(landed.table.iter().enumerate().all(|(s, slot)| slot.id == TrackingId(s as i32)));
}

/// What is said of the number of slots holds for each of them: events when all land, ids, bits, and what is shown.
#[test]
fn one_to_32_slots() {
    for n in 1..=SLOTS {
        let mut fresh = Writer::fresh(panel(n as u64), false).unwrap();
        let (events, written) = write(&mut fresh, &[1, 1, 1, 1, 1, 1].repeat(n)).unwrap();
        assert_eq!(events.len(), 1 + 6 * n + (n - 1));
        assert_eq!(written.changed.count_ones() as usize, n);
        assert_eq!((fresh.counter as usize, fresh.current.0 as usize), (n, n - 1));
        let mut reader = Reader::fresh(Layout::Panel, panel(n as u64)).unwrap();
        let beyond = Event::abs(ABS_MT_SLOT, n as i32);
        assert_eq!(reader.one(beyond), Ok(Ran { bad: 1, ..Ran::NOTHING }));
        let asked = following(0, &fresh.table[..n]).ask(SlotNumber(n as u64));
        assert_eq!(asked, Ok(Asked::NoSuchSlot));
    }
}

/// A search passes every live id, and ids of the upper half are taken as all others are.
#[test]
fn ids_of_32_contacts() {
    for first in [0, 100, 65_504, 65_503] {
        let mut held = writer(0, first as u32, &all_live(first));
        let mut frame = equal(&held.table);
        row(&mut frame, 0)[0] = 2;
        let (events, _) = write(&mut held, &frame).unwrap();
        let next = (first + 32) % 65_536;
        assert_eq!(events, [format!("ID {next}"), "REPORT".to_string()]);
        assert_eq!(held.counter as i32, (next + 1) % 65_536);
    }
    let mut all = writer(0, 0, &all_live(0));
    let frame = [2, 5, 5, 5, 0, 0].repeat(SLOTS);
    write(&mut all, &frame).unwrap();
    assert_eq!(all.table.map(|slot| slot.id.0).to_vec(), (32..64).collect::<Vec<_>>());
}

/// Ids repeated between slot 3 and slot 30, 15 and 16, 16 and 31, 0 and 31.
#[test]
fn ids_repeated_from_half_to_half_and_in_the_upper_one() {
    for (low, high) in [(3, 30), (15, 16), (16, 31), (0, 31)] {
        let mut table = UNUSED;
        table[low].id = TrackingId(7);
        table[high].id = TrackingId(7);
        let mut broken = writer(0, 9, &table);
        assert_eq!(write(&mut broken, &equal(&table)), Err(Refusal::State));
        assert!(!following(0, &table).is_well_formed());

        let mut reader = Reader { shown: UNUSED, ..following(0, &table) };
        assert!(reader.is_well_formed());
        assert_eq!(reader.one(Event::REPORT), Ok(Ran { bad: 1, ..Ran::NOTHING }));
        assert_eq!(reader.mode, Mode::Stale);
        let image: Vec<i32> = table.iter().flat_map(|slot| [slot.id.0, 0, 0, 0, 0, 0]).collect();
        assert_eq!(reader.load(&image, SlotNumber(31)), Err(Refusal::Image));
        let mut good = image.clone();
        good[6 * high] = 8;
        assert_eq!(reader.load(&good, SlotNumber(32)), Err(Refusal::Image));
        assert_eq!(reader.load(&good, SlotNumber(31)), Ok(()));
        let contact = Slot { id: TrackingId(8), ..Slot::UNUSED };
        assert_eq!(reader.ask(SlotNumber(high as u64)), Ok(Asked::Contact(contact)));
    }
}

#[test]
fn the_last_slot_lifts_and_lands() {
    let held = writer(3, 32, &all_live(0));
    let mut frame = equal(&held.table);
    row(&mut frame, 31)[0] = 0;
    let mut lifted = held.clone();
    assert_eq!(write(&mut lifted, &frame).unwrap().0, ["SLOT 31", "ID -1", "REPORT"]);
    let mut reader = following(3, &held.table);
    reader.run(&bytes(&[Event::abs(ABS_MT_SLOT, 31), Event::abs(ABS_MT_TRACKING_ID, -1), Event::REPORT])).unwrap();
    assert_eq!(reader.ask(SlotNumber(31)), Ok(Asked::Empty));
    assert_eq!((reader.shown, reader.current), (lifted.table, lifted.current));
    row(&mut frame, 31)[0] = 1;
    assert_eq!(write(&mut lifted, &frame).unwrap().0, ["ID 32", "REPORT"]);
}

#[test]
fn frames_and_images_of_wide_panels() {
    for n in [17, 31, 32] {
        let fresh = Writer::fresh(panel(n), false).unwrap();
        let good = [1, 1, 1, 1, 0, 0].repeat(n as usize);
        for length in [0, 96, good.len() - 6, good.len() - 1, good.len() + 1, good.len() + 6] {
            let mut frame = good.clone();
            frame.resize(length, 0);
            assert_eq!(write(&mut fresh.clone(), &frame), Err(Refusal::Frame));
            let mut stale = Reader { mode: Mode::Stale, ..following(0, &UNUSED[..n as usize]) };
            assert_eq!(stale.load(&frame, SlotNumber(0)), Err(Refusal::Image));
        }
        for s in 0..n as usize {
            let mut frame = good.clone();
            row(&mut frame, s)[3] = 0;
            assert_eq!(write(&mut fresh.clone(), &frame), Err(Refusal::Value));
        }
    }
    for n in [33, 34, 64, 1 << 32 | 32] {
        assert_eq!(Writer::fresh(panel(n), false), Err(Refusal::Setup));
        assert_eq!(Reader::fresh(Layout::Panel, panel(n)), Err(Refusal::Setup));
    }
    for n in 17..=33 {
        assert_eq!(Reader::fresh(Layout::Crane, panel(n).known_to(Layout::Crane)), Err(Refusal::Setup));
    }
}

/// A frame in which slots of both halves land, lift, move and stay.
fn any_frame(random: &mut Random, table: &Table, n: usize) -> Vec<i32> {
    let mut frame = equal(&table[..n]);
    for _ in 0..random.from_to(0, 9) {
        let any = random.below(n as u64) as usize;
        let s = random.pick(&[0, n - 1, any, any]);
        let place = random.below(6) as usize;
        row(&mut frame, s)[place] = if place == 0 { random.below(3) } else { random.from_to(1, 200) } as i32;
    }
    for row in frame.chunks_exact_mut(6).filter(|row| row[0] != 0) {
        row[3] = row[3].max(1);
    }
    frame
}

#[test]
fn a_wide_panel_reads_back() {
    let mut random = Random::new(77);
    let mut changed = [0u32; SLOTS];
    for n in (17..=SLOTS).flat_map(|n| [n; 4]) {
        let mut held = Writer::fresh(panel(n as u64), false).unwrap();
        let mut reader = Reader::fresh(Layout::Panel, panel(n as u64)).unwrap();
        for _ in 0..50 {
            let frame = any_frame(&mut random, &held.table, n);
            let mut buffer = [0; LARGEST_FRAME];
            let written = held.write(&frame, &mut buffer, 0).unwrap();
            (0..n).for_each(|s| changed[s] += written.changed >> s & 1);
            let ran = reader.run(&buffer[..written.events as usize * RECORD]).unwrap();
            assert_eq!(ran, Ran { shown: u64::from(written.events > 0), ..Ran::NOTHING });
            assert_eq!((reader.shown, reader.current), (held.table, held.current));
        }
    }
    assert!(changed.iter().all(|count| *count > 20), "{changed:?}");
}
