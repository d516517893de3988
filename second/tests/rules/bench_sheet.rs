//! Document 01's bench sheet, row by row, the expected numbers copied from the paper.

use crate::common::*;
use second::events::Event;
use second::pod::{Pod, Report, Stick};
use second::programs::{crane_table, show_table};
use second::reader::Reader;
use second::refusal::Refusal;
use second::streams::Status;
use second::table::{Layout, SlotNumber, TrackingId};
use second::writer::{Writer, Written};

const P1: [u8; 40] = [
    0x03, 0x00, 0x39, 0x00, 0x00, 0x00, 0x00, 0x00, //
    0x03, 0x00, 0x35, 0x00, 0x64, 0x00, 0x00, 0x00, //
    0x03, 0x00, 0x36, 0x00, 0xc8, 0x00, 0x00, 0x00, //
    0x03, 0x00, 0x3a, 0x00, 0x1e, 0x00, 0x00, 0x00, //
    0x00, 0x00, 0x00, 0x00, 0x00, 0x00, 0x00, 0x00,
];

#[test]
fn p1_to_p7_each_after_the_row_before() {
    let mut writer = Writer::fresh(panel(2), false).unwrap();

    let mut buffer = [0; 40];
    let written = writer.write(&[1, 100, 200, 30, 0, 0, 0, 0, 0, 0, 0, 0], &mut buffer, 0);
    assert_eq!(written, Ok(Written { events: 5, changed: 0b01 }));
    assert_eq!(buffer, P1);

    let mut row = |frame: &[i32], sent: &[&str], changed: u32| {
        let (events, written) = write(&mut writer, frame).unwrap();
        assert_eq!(events, sent);
        assert_eq!(written.events as usize, sent.len());
        assert_eq!(written.changed, changed);
        writer.clone()
    };
    // P2
    row(
        &[1, 100, 200, 30, 0, 0, 1, 300, 400, 30, 0, 0],
        &["SLOT 1", "ID 1", "X 300", "Y 400", "PRESSURE 30", "REPORT"],
        0b10,
    );
    // P3
    row(&[1, 101, 200, 30, 0, 0, 1, 300, 401, 30, 0, 0], &["Y 401", "SLOT 0", "X 101", "REPORT"], 0b11);
    // P4: the lifted slot's numbers in the frame are ignored.
    let after = row(&[0, -7, -7, -7, 0, 0, 1, 300, 401, 30, 0, 0], &["ID -1", "REPORT"], 0b01);
    assert_eq!(after.table[0], slot(-1, 101, 200, 30));
    // P5
    row(&[1, 101, 200, 30, 0, 0, 1, 300, 401, 30, 0, 0], &["ID 2", "REPORT"], 0b01);
    // P6
    let after = row(&[2, 101, 200, 30, 0, 0, 1, 300, 401, 30, 0, 0], &["ID 3", "REPORT"], 0b01);
    assert_eq!(after.counter, 4);
    assert_eq!(after.table, table(&[slot(3, 101, 200, 30), slot(1, 300, 401, 30)]));
    // P7, into a buffer of length 0
    let before = after.clone();
    let mut writer = after;
    assert_eq!(
        writer.write(&[1, 101, 200, 30, 0, 0, 1, 300, 401, 30, 0, 0], &mut [], 0),
        Ok(Written { events: 0, changed: 0 })
    );
    assert_eq!(writer, before);
}

#[test]
fn p8_the_counter_wraps_past_a_live_id() {
    let mut writer = writer(0, 65_535, &[slot(-1, 0, 0, 0), slot(0, 5, 5, 5), slot(-1, 0, 0, 0)]);
    write(&mut writer, &[1, 1, 1, 1, 0, 0, 1, 5, 5, 5, 0, 0, 1, 2, 2, 2, 0, 0]).unwrap();
    assert_eq!(writer.table[0].id, TrackingId(65_535));
    assert_eq!(writer.table[2].id, TrackingId(1));
    assert_eq!(writer.counter, 2);
}

/// The answers to a string of pod bytes from fresh; every "more" but the report's last byte's answer is checked on the way.
fn pod(bytes: &[u8]) -> Report {
    let mut pod = Pod::FRESH;
    let (last, before) = bytes.split_last().unwrap();
    for byte in before {
        assert_eq!(pod.take(*byte), Ok(Report::More));
    }
    let report = pod.take(*last).unwrap();
    assert_eq!(pod, Pod::FRESH);
    report
}

#[test]
fn p9_and_the_pod_run_cases() {
    let relative = |left, right, dx, dy| Report::Relative { left, right, dx, dy };
    assert_eq!(pod(&[0xF8, 0x80, 0x7F]), relative(false, false, -128, 127));
    assert_eq!(pod(&[0xFA, 0, 0]), relative(true, false, 0, 0));
    assert_eq!(pod(&[0xFE, 0x81]), Report::Stick { which: 0, stick: Stick { trigger: true, position: 1 } });
    assert_eq!(pod(&[0xFF, 0x10]), Report::BadReport);
    assert_eq!(pod(&[0xF7, 0x05, 0x01, 0x2C, 0x00, 0xC8]), Report::Absolute { flags: 0b0101, x: 300, y: 200 });
    assert_eq!(pod(&[0x75]), Report::Down(0x75));
    assert_eq!(pod(&[0xF5]), Report::Up(0x75));
    for bad in [0x00, 0x76, 0x80, 0xF6] {
        assert_eq!(pod(&[bad]), Report::BadByte);
    }
}

#[test]
fn run_the_small_program_on_p1() {
    let mut input = Vec::new();
    for number in [2u32, 4000, 4000, 255, 255, 255] {
        input.extend(number.to_le_bytes());
    }
    input.extend(P1);
    let mut out = Vec::new();
    assert_eq!(show_table(&input[..], &mut out, std::io::sink()), Status::Accepted);
    assert_eq!(String::from_utf8(out).unwrap(), "following 0\n0 0 100 200 30 0 0\n1 -1 0 0 0 0 0\n");
    let mut out = Vec::new();
    assert_eq!(crane_table(&input[..], &mut out, std::io::sink()), Status::Accepted);
    assert_eq!(String::from_utf8(out).unwrap(), "following 0\n0 0 100 200 30\n1 -1 0 0 0\n");
}

#[test]
fn run_a_replaced_id_is_not_free() {
    let mut writer = writer(0, 7, &[slot(7, 10, 20, 30)]);
    let (events, _) = write(&mut writer, &[2, 10, 20, 30, 0, 0]).unwrap();
    assert_eq!(events, ["ID 8", "REPORT"]);
    assert_eq!(writer.counter, 9);
}

#[test]
fn run_p2_with_47_and_with_48_bytes_left() {
    let frame = [1, 100, 200, 30, 0, 0, 1, 300, 400, 30, 0, 0];
    let after_p1 = writer(0, 1, &[slot(0, 100, 200, 30), slot(-1, 0, 0, 0)]);
    let mut writer = after_p1.clone();
    let mut buffer = [9; 60];
    assert_eq!(writer.write(&frame, &mut buffer[..50], 3), Err(Refusal::NoRoom { need: 48 }));
    assert_eq!((&writer, buffer), (&after_p1, [9; 60]));
    let written = writer.write(&frame, &mut buffer[..51], 3).unwrap();
    assert_eq!(written.events, 6);
    assert_eq!(buffer[..3], [9; 3]);
    assert_eq!(buffer[51..], [9; 9]);
    assert_eq!(buffer[3..11], Event::abs(0x2f, 1).to_bytes());
    assert_eq!(writer.current, SlotNumber(1));
}

#[test]
fn run_n_0_1_32_33() {
    for (n, good) in [(0, false), (1, true), (32, true), (33, false)] {
        let (reader, writer) = (Reader::fresh(Layout::Panel, panel(n)), Writer::fresh(panel(n), false));
        assert_eq!(reader.is_ok(), good);
        assert_eq!(writer.is_ok(), good);
        if !good {
            assert_eq!(reader.unwrap_err(), Refusal::Setup);
            assert_eq!(writer.unwrap_err(), Refusal::Setup);
        }
    }
}

/// The cranes' reader keeps document 01's cases as they were.
#[test]
fn run_n_0_1_16_17_of_a_crane() {
    for (n, good) in [(0, false), (1, true), (16, true), (17, false), (32, false)] {
        let reader = Reader::fresh(Layout::Crane, panel(n).known_to(Layout::Crane));
        assert_eq!(reader.err(), (!good).then_some(Refusal::Setup), "n {n}");
    }
}
