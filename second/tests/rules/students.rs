//! The errors that students bring, and those of the peers: each test fails for a program that makes one of them.

use crate::common::*;
use second::events::*;
use second::pod::{Pod, Report, Stick};
use second::reader::{Asked, Mode, Ran, Reader};
use second::table::{SlotNumber, X};

fn abs(code: u16, value: i32) -> Event {
    Event::abs(code, value)
}

#[test]
fn x_and_y_stay_when_an_id_changes() {
    // After P4: lifted, and the same finger back is one number.
    let mut lifted = writer(1, 2, &[slot(-1, 101, 200, 30), slot(1, 300, 401, 30)]);
    let (events, _) = write(&mut lifted, &[1, 101, 200, 30, 0, 0, 1, 300, 401, 30, 0, 0]).unwrap();
    assert_eq!(events, ["SLOT 0", "ID 2", "REPORT"]);
    let mut reader = following(0, &[slot(0, 101, 200, 30)]);
    let lift = bytes(&[abs(ABS_MT_TRACKING_ID, -1), Event::REPORT]);
    reader.run(&lift).unwrap();
    assert_eq!(reader.shown[0], slot(-1, 101, 200, 30));
}

#[test]
fn the_current_slot_goes_first() {
    let mut writer = writer(1, 2, &[slot(0, 100, 200, 30), slot(1, 300, 400, 30)]);
    let (events, _) = write(&mut writer, &[1, 101, 200, 30, 0, 0, 1, 300, 401, 30, 0, 0]).unwrap();
    assert_eq!(events.len(), 4);
    assert_eq!(writer.current, SlotNumber(0));
}

#[test]
fn nothing_is_shown_before_the_report_nor_after_a_loss() {
    let mut reader = following(0, &[slot(0, 100, 200, 30)]);
    let before = Asked::Contact(slot(0, 100, 200, 30));
    reader.one(abs(ABS_MT_POSITION_X, 101)).unwrap();
    assert_eq!(reader.ask(SlotNumber(0)), Ok(before));
    reader.one(Event::DROPPED).unwrap();
    assert_eq!(reader.ask(SlotNumber(0)), Ok(Asked::Unknown));
    reader.one(Event::REPORT).unwrap();
    assert_eq!(reader.mode, Mode::Stale);
    assert_eq!(reader.ask(SlotNumber(0)), Ok(Asked::Unknown));
    reader.load(&[0, 100, 200, 30, 0, 0], SlotNumber(0)).unwrap();
    assert_eq!(reader.ask(SlotNumber(0)), Ok(before));
}

#[test]
fn a_replaced_id_is_free_only_in_the_next_frame() {
    let mut writer = writer(0, 7, &[slot(7, 1, 1, 1)]);
    let (events, _) = write(&mut writer, &[2, 1, 1, 1, 0, 0]).unwrap();
    assert_eq!(events, ["ID 8", "REPORT"]);
    writer.counter = 7;
    let (events, _) = write(&mut writer, &[2, 1, 1, 1, 0, 0]).unwrap();
    assert_eq!(events, ["ID 7", "REPORT"]);
}

#[test]
fn a_lifted_id_is_not_free_in_its_own_frame() {
    let mut writer = writer(0, 7, &[slot(7, 1, 1, 1), slot(-1, 1, 1, 1)]);
    write(&mut writer, &[0, 0, 0, 0, 0, 0, 1, 1, 1, 1, 0, 0]).unwrap();
    assert_eq!(writer.table[1].id.0, 8);
}

#[test]
fn a_byte_of_80_is_minus_128() {
    let mut pod = Pod::FRESH;
    pod.take(0xF8).unwrap();
    pod.take(0x80).unwrap();
    let Ok(Report::Relative { dx, dy, .. }) = pod.take(0x80) else {
        panic!("a relative report");
    };
    assert_eq!((dx, dy), (-128, -128));
}

#[test]
fn both_sticks_are_one_report() {
    let mut pod = Pod::FRESH;
    pod.take(0xFD).unwrap();
    pod.take(0x00).unwrap();
    let stick = |trigger, position| Stick { trigger, position };
    assert_eq!(pod.take(0x81), Ok(Report::Sticks(stick(false, 0), stick(true, 1))));
}

#[test]
fn a_report_is_judged_at_its_last_byte() {
    let mut pod = Pod::FRESH;
    for byte in [0xF7, 0x10, 0, 0, 0] {
        assert_eq!(pod.take(byte), Ok(Report::More));
    }
    assert_eq!(pod.take(0), Ok(Report::BadReport));
    for byte in [0xFD, 0x10] {
        assert_eq!(pod.take(byte), Ok(Report::More));
    }
    assert_eq!(pod.take(0), Ok(Report::BadReport));
    assert_eq!(pod.take(0x01), Ok(Report::Down(1)));
}

#[test]
fn sixty_five_thousand_landings_beside_a_held_finger() {
    let mut writer = writer(0, 0, &[slot(-1, 0, 0, 0), slot(-1, 0, 0, 0)]);
    write(&mut writer, &[1, 1, 1, 1, 0, 0, 0, 0, 0, 0, 0, 0]).unwrap();
    for _ in 0..65_536 {
        write(&mut writer, &[1, 1, 1, 1, 0, 0, 2, 1, 1, 1, 0, 0]).unwrap();
        assert_ne!(writer.table[0].id, writer.table[1].id);
        assert!(writer.is_well_formed());
    }
}

/// The peers' bad values: each loses the reader, and no number lands anywhere.
#[test]
fn bad_values_are_a_loss() {
    let fingers = [slot(0, 100, 200, 30), slot(1, 300, 400, 30)];
    for event in [
        abs(ABS_MT_SLOT, 2),
        abs(ABS_MT_SLOT, -1),
        abs(ABS_MT_POSITION_X, -5),
        abs(ABS_MT_POSITION_Y, 4001),
        abs(ABS_MT_PRESSURE, 256),
        abs(ABS_MT_TOUCH_MAJOR, 256),
        abs(ABS_MT_TOUCH_MINOR, -1),
        abs(ABS_MT_TRACKING_ID, 70_000),
        abs(ABS_MT_TRACKING_ID, -9),
    ] {
        let mut reader = following(1, &fingers);
        let ran = reader.run(&bytes(&[event, abs(ABS_MT_POSITION_X, 5), Event::REPORT]));
        let expected = Ran { bad: 1, ignored: 2, ..Ran::NOTHING };
        assert_eq!(ran, Ok(expected));
        assert_eq!(reader, Reader { mode: Mode::Stale, ..following(1, &fingers) });
    }
}

#[test]
fn a_repeated_id_is_bad_once_and_stale() {
    let mut reader = following(0, &[slot(-1, 0, 0, 0); 3]);
    let mut events = Vec::new();
    for s in 0..3 {
        events.push(abs(ABS_MT_SLOT, s));
        events.push(abs(ABS_MT_TRACKING_ID, 4));
    }
    events.push(Event::REPORT);
    let ran = reader.run(&bytes(&events)).unwrap();
    assert_eq!((ran.bad, ran.shown), (1, 0));
    assert_eq!(reader.mode, Mode::Stale);
    assert_eq!(reader.current, SlotNumber(2));
    assert_eq!(reader.pending, reader.shown);
}

#[test]
fn five_hundred_events_and_a_report_show_a_table() {
    let mut reader = following(0, &[slot(0, 0, 0, 0)]);
    let mut events: Vec<Event> = (0..512).map(|x| abs(ABS_MT_POSITION_X, x)).collect();
    events.push(Event::REPORT);
    assert_eq!(reader.run(&bytes(&events)).unwrap().shown, 1);
    assert_eq!(reader.shown[0].numbers[X], 511);
}

#[test]
fn counts_and_modes() {
    let mut reader = following(0, &[slot(-1, 0, 0, 0)]);
    let unknown = Event { kind: 3, code: 0x3ff, value: 1 };
    let ran = reader
        .run(&bytes(&[
            Event::REPORT,
            unknown,
            Event::REPORT,
            Event::DROPPED,
            Event::DROPPED,
            unknown,
            abs(ABS_MT_POSITION_X, -5),
            Event::REPORT,
            Event::REPORT,
            Event::DROPPED,
        ]))
        .unwrap();
    let expected = Ran { shown: 2, unknown_code: 1, ignored: 6, first_skipped: Some((3, 0x3ff)), ..Ran::NOTHING };
    assert_eq!((ran, ran.skipped()), (expected, 1));
    assert_eq!(reader.mode, Mode::Dropped);
}
