//! What the tests share: a panel of two slots, rows, and events by their names.

// Each test file is a program of its own, and not every one uses all.
#![allow(dead_code)]

use chandrulek::{Contact, Event, Kind, Reader, Setup, SlotRecord, TrackingId, Writer, Written, MOST_BYTES};

/// A panel of two slots.
pub const SETUP: Setup = Setup { slots: 2, x: 4000, y: 4000, pressure: 255, major: 255, minor: 255 };

/// A contact's row of a frame, of no size.
pub fn finger(x: i32, y: i32, pressure: i32) -> Contact {
    Contact { kind: Kind::Contact, x, y, pressure, major: 0, minor: 0 }
}

/// A slot's row of a table, of no size.
pub fn row(id: i32, x: i32, y: i32, pressure: i32) -> SlotRecord {
    SlotRecord { id: TrackingId(id), x, y, pressure, major: 0, minor: 0 }
}

/// One frame's events, and what was told of them.
pub fn sent(writer: &mut Writer, frame: &[Contact]) -> (Vec<u8>, Written) {
    let mut buffer = [0xAA; MOST_BYTES];
    let written = writer.write(frame, &mut buffer, 0).unwrap();
    assert!(buffer[written.bytes()..].iter().all(|byte| *byte == 0xAA), "bytes behind the events were touched");
    (buffer[..written.bytes()].to_vec(), written)
}

/// Records of events by name, as `"SLOT 1"` or `"REPORT"`.
pub fn records(events: &[&str]) -> Vec<u8> {
    events.iter().flat_map(|event| record(event)).collect()
}

fn record(event: &str) -> [u8; 8] {
    let (name, value) = event.split_once(' ').unwrap_or((event, "0"));
    let (kind, code) = match name {
        "REPORT" => (0, 0),
        "MT_REPORT" => (0, 2),
        "DROPPED" => (0, 3),
        "TOUCH" => (1, 0x14a),
        "FINGER" => (1, 0x145),
        "ABS_X" => (3, 0),
        "ABS_Y" => (3, 1),
        "SLOT" => (3, 0x2f),
        "X" => (3, 0x35),
        "Y" => (3, 0x36),
        "ID" => (3, 0x39),
        "PRESSURE" => (3, 0x3a),
        _ => panic!("no event {name}"),
    };
    Event { kind, code, value: value.parse().unwrap() }.to_bytes()
}

/// A reader that shows contact 0 in slot 0 at 100, 200, 30.
pub fn following() -> Reader {
    let mut reader = Reader::fresh(SETUP).unwrap();
    reader.run(&records(&["ID 0", "X 100", "Y 200", "PRESSURE 30", "REPORT"])).unwrap();
    reader
}
