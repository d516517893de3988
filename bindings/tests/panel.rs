//! One finger and two: what the writer sends, byte by byte, and what the readers make of it, with a loss, a load and pieces.

mod common;

use chandrulek::{
    Asked, Contact, Counts, Event, Kind, LineReader, Reader, Refusal, Slot, SlotRecord, TrackingId, Writer,
};
use common::*;

/// Document 01's first row: slot 0 at 100, 200, 30.
const LANDS: [u8; 40] = [
    0x03, 0x00, 0x39, 0x00, 0x00, 0x00, 0x00, 0x00, //
    0x03, 0x00, 0x35, 0x00, 0x64, 0x00, 0x00, 0x00, //
    0x03, 0x00, 0x36, 0x00, 0xc8, 0x00, 0x00, 0x00, //
    0x03, 0x00, 0x3a, 0x00, 0x1e, 0x00, 0x00, 0x00, //
    0x00, 0x00, 0x00, 0x00, 0x00, 0x00, 0x00, 0x00,
];

#[test]
fn a_finger_lands_moves_and_lifts() {
    let mut writer = Writer::fresh(SETUP, false).unwrap();
    let mut reader = Reader::fresh(SETUP).unwrap();
    assert_eq!(reader.ask(Slot(0)), Ok(Asked::Empty));

    let (events, written) = sent(&mut writer, &[finger(100, 200, 30), Contact::NONE]);
    assert_eq!(events, LANDS);
    assert_eq!((written.events, written.changed), (5, 0b01));
    assert!(written.has_changed(Slot(0)) && !written.has_changed(Slot(1)) && !written.has_changed(Slot(64)));
    assert_eq!(reader.run(&events), Ok(Counts { shown: 1, ..Counts::default() }));
    assert_eq!(reader.ask(Slot(0)), Ok(Asked::Contact(row(0, 100, 200, 30))));
    assert_eq!(reader.ask(Slot(1)), Ok(Asked::Empty));

    let (events, _) = sent(&mut writer, &[finger(101, 200, 30), Contact::NONE]);
    assert_eq!(events, [3, 0, 0x35, 0, 101, 0, 0, 0, 0, 0, 0, 0, 0, 0, 0, 0]);
    reader.run(&events).unwrap();
    assert_eq!(reader.ask(Slot(0)), Ok(Asked::Contact(row(0, 101, 200, 30))));

    // Nothing changes, so nothing is sent.
    let (events, written) = sent(&mut writer, &[finger(101, 200, 30), Contact::NONE]);
    assert_eq!((events.len(), written.events, written.changed), (0, 0, 0));

    // A lifted slot's numbers in the frame are not looked at.
    let (events, _) = sent(&mut writer, &[Contact { kind: Kind::None, ..finger(-7, -7, -7) }, Contact::NONE]);
    assert_eq!(events, [3, 0, 0x39, 0, 0xff, 0xff, 0xff, 0xff, 0, 0, 0, 0, 0, 0, 0, 0]);
    reader.run(&events).unwrap();
    assert_eq!(reader.ask(Slot(0)), Ok(Asked::Empty));
}

#[test]
fn another_finger_in_the_same_slot_has_another_id() {
    let mut writer = Writer::fresh(SETUP, false).unwrap();
    sent(&mut writer, &[finger(100, 200, 30), Contact::NONE]);
    let (events, _) = sent(&mut writer, &[Contact { kind: Kind::New, ..finger(100, 200, 30) }, finger(300, 400, 30)]);
    assert_eq!(events, records(&["ID 1", "SLOT 1", "ID 2", "X 300", "Y 400", "PRESSURE 30", "REPORT"]));
}

#[test]
fn an_old_display_is_told_too() {
    let mut writer = Writer::fresh(SETUP, true).unwrap();
    let (events, _) = sent(&mut writer, &[finger(100, 200, 30), Contact::NONE]);
    let due = ["TOUCH 1", "ID 0", "X 100", "Y 200", "PRESSURE 30", "FINGER 1", "ABS_X 100", "ABS_Y 200", "REPORT"];
    assert_eq!(events, records(&due));

    // A reader of contacts skips what is for the display.
    let mut reader = Reader::fresh(SETUP).unwrap();
    let counts = reader.run(&events).unwrap();
    assert_eq!((counts.shown, counts.unknown_type, counts.unknown_code), (1, 2, 2));
    assert_eq!(counts.first_skipped, Some((1, 0x14a)));
}

#[test]
fn an_anonymous_panel() {
    let mut writer = Writer::fresh(SETUP, false).unwrap();
    sent(&mut writer, &[finger(100, 200, 30), finger(300, 200, 30)]);
    // They come the other way round, and each goes on as the nearer one.
    let frame = ["X 290", "Y 200", "PRESSURE 30", "MT_REPORT", "X 110", "Y 200", "PRESSURE 30", "MT_REPORT", "REPORT"];
    let mut buffer = [0; 32];
    let written = writer.write_anonymous(&records(&frame), &mut buffer, 0).unwrap();
    assert_eq!((written.events, written.changed), (4, 0b11));
    assert_eq!(buffer[..], records(&["X 290", "SLOT 0", "X 110", "REPORT"]));
}

#[test]
fn a_loss_and_a_load() {
    let mut reader = following();
    assert_eq!(reader.is_lost(), Ok(false));
    reader.run(&Event::DROPPED.to_bytes()).unwrap();
    assert_eq!(reader.ask(Slot(0)), Ok(Asked::Unknown));
    assert_eq!(reader.ask(Slot(1)), Ok(Asked::Unknown));
    assert_eq!(reader.ask(Slot(2)), Ok(Asked::NoSuchSlot));
    assert_eq!(reader.is_lost(), Ok(true));

    // The report that ends the broken events is still to come.
    let image = [SlotRecord::UNUSED, row(7, 300, 400, 30)];
    assert_eq!(reader.load(&image, Slot(1)), Err(Refusal::NotStale));
    assert_eq!(reader.run(&records(&["X 5", "REPORT"])), Ok(Counts { ignored: 2, ..Counts::default() }));
    assert_eq!(reader.load(&image, Slot(1)), Ok(()));
    assert_eq!(reader.ask(Slot(0)), Ok(Asked::Empty));
    assert_eq!(reader.ask(Slot(1)), Ok(Asked::Contact(row(7, 300, 400, 30))));

    // The next numbers are for the current slot that was loaded.
    reader.run(&records(&["X 301", "REPORT"])).unwrap();
    assert_eq!(reader.ask(Slot(1)), Ok(Asked::Contact(row(7, 301, 400, 30))));
}

#[test]
fn a_loss_of_the_hosts_own() {
    let mut reader = following();
    // From any mode a load is due then.
    for before in [&[][..], &["DROPPED"], &["DROPPED", "REPORT"]] {
        reader.run(&records(before)).unwrap();
        reader.lost().unwrap();
        assert_eq!(reader.ask(Slot(0)), Ok(Asked::Unknown), "{before:?}");
        reader.load(&[row(0, 1, 2, 3), SlotRecord::UNUSED], Slot(0)).unwrap();
        assert_eq!(reader.is_lost(), Ok(false));
    }
}

#[test]
fn a_bad_value_is_a_loss() {
    let mut reader = following();
    assert_eq!(reader.run(&records(&["X -5", "X 6"])), Ok(Counts { bad: 1, ignored: 1, ..Counts::default() }));
    assert_eq!(reader.ask(Slot(0)), Ok(Asked::Unknown));
}

#[test]
fn pieces_of_any_length() {
    let bytes = records(&["ID 0", "X 100", "Y 200", "PRESSURE 30", "REPORT"]);
    for length in 1..=bytes.len() {
        let mut line = LineReader::fresh(SETUP).unwrap();
        line.take(&[]).unwrap();
        let shown: u64 = bytes.chunks(length).map(|piece| line.take(piece).unwrap().shown).sum();
        assert_eq!(shown, 1, "pieces of {length}");
        assert_eq!(line.ask(Slot(0)), Ok(Asked::Contact(row(0, 100, 200, 30))));
        assert_eq!(line.ask(Slot(2)), Ok(Asked::NoSuchSlot));
    }
}

#[test]
fn a_line_that_lost_bytes() {
    let mut line = LineReader::fresh(SETUP).unwrap();
    // Five bytes of a record are held; behind them SYN_DROPPED would not be read as such.
    line.take(&records(&["ID 0", "X 100"])[..13]).unwrap();
    assert_eq!(line.as_bytes()[3], 5);
    line.lost().unwrap();
    assert_eq!(line.is_lost(), Ok(true));
    // The next byte begins a record, and a load keeps what is held.
    line.take(&records(&["Y 5"])[..3]).unwrap();
    line.load(&[row(4, 1, 2, 3), SlotRecord::UNUSED], Slot(0)).unwrap();
    line.take(&[&records(&["Y 5"])[3..], &records(&["REPORT"])].concat()).unwrap();
    assert_eq!(line.ask(Slot(0)), Ok(Asked::Contact(row(4, 1, 5, 3))));
    assert_eq!(line.load(&[SlotRecord::UNUSED; 2], Slot(0)), Err(Refusal::NotStale));
}

#[test]
fn an_event_and_its_record() {
    let lift = Event { kind: 3, code: 0x39, value: TrackingId::UNUSED.0 };
    assert_eq!(lift.to_bytes(), [3, 0, 0x39, 0, 0xff, 0xff, 0xff, 0xff]);
    assert_eq!(Event::from_bytes(lift.to_bytes()), lift);
    assert_eq!(Event::DROPPED.to_bytes(), [0, 0, 3, 0, 0, 0, 0, 0]);
}
