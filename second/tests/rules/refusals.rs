//! When we say no: each refusal where it must be given, the order of judging, and the state left as it came.

use crate::common::*;
use second::events::Event;
use second::pod::{Pod, Report};
use second::reader::{Asked, Mode, Ran, Reader};
use second::refusal::Refusal;
use second::table::{Layout, Setup, SlotNumber, TrackingId, MAJOR, MINOR, PRESSURE, X, Y};
use second::writer::Writer;

fn any_writer() -> Writer {
    writer(0, 2, &[slot(0, 100, 200, 30), slot(1, 300, 400, 30)])
}

fn any_reader(layout: Layout, mode: Mode) -> Reader {
    let of = if layout == Layout::Crane { crane } else { following };
    Reader { mode, ..of(0, &[slot(0, 100, 200, 30), slot(1, 300, 400, 30)]) }
}

#[test]
fn a_writer_that_is_not_well_formed() {
    let breaks: [fn(&mut Writer); 21] = [
        |w| w.setup.slots = 0,
        |w| w.setup.slots = 33,
        |w| w.setup.slots = 1,
        |w| w.setup.slots = (1 << 32) + 2,
        |w| w.setup.largest[X] = 32_768,
        |w| w.setup.largest[Y] = 0,
        |w| w.setup.largest[PRESSURE] = 256,
        |w| w.setup.largest[MAJOR] = 256,
        |w| w.setup.largest[MINOR] = 0,
        |w| w.setup.largest[X] = 299,
        |w| w.current = SlotNumber(2),
        |w| w.current = SlotNumber(1 << 32),
        |w| w.counter = 65_536,
        |w| w.table[0].id = TrackingId(-2),
        |w| w.table[0].id = TrackingId(65_536),
        |w| w.table[1].id = TrackingId(0),
        |w| w.table[1].numbers[PRESSURE] = 256,
        |w| w.table[1].numbers[MAJOR] = 256,
        |w| w.table[0].numbers[MINOR] = 256,
        |w| w.table[2].numbers[X] = 1,
        |w| w.table[2].numbers[MINOR] = 1,
    ];
    for (i, break_it) in breaks.iter().enumerate() {
        let mut writer = any_writer();
        break_it(&mut writer);
        let before = writer.clone();
        // Judged before the frame (3), its values (4) and the room (5).
        assert_eq!(writer.write(&[9], &mut [], 7), Err(Refusal::State), "break {i}");
        assert_eq!(writer, before);
    }
}

#[test]
fn a_reader_that_is_not_well_formed() {
    let breaks: [fn(&mut Reader); 13] = [
        |r| r.setup.slots = r.layout.slots() as u64 + 1,
        |r| r.setup.slots = 1,
        |r| r.setup.largest[PRESSURE] = 0,
        |r| r.current = SlotNumber(2),
        |r| r.shown[0].id = TrackingId(1),
        |r| r.shown[0].numbers[Y] = 4001,
        |r| r.pending[0].id = TrackingId(70_000),
        |r| r.pending[1].numbers[X] = u32::MAX,
        |r| r.pending[r.layout.slots() - 1].id = TrackingId(0),
        |r| r.shown[2].numbers[PRESSURE] = 1,
        |r| {
            r.mode = Mode::Dropped;
            r.pending[0].numbers[X] = 101;
        },
        |r| {
            r.mode = Mode::Stale;
            r.pending[0].id = TrackingId(-1);
        },
        |r| {
            r.mode = Mode::Stale;
            r.shown[0].numbers[X] = 4001;
            r.pending[0].numbers[X] = 4001;
        },
    ];
    for (i, break_it) in breaks.iter().enumerate() {
        for layout in Layout::ALL {
            let mut reader = any_reader(layout, Mode::Following);
            break_it(&mut reader);
            let before = reader.clone();
            assert_eq!(reader.run(&[0; 7]), Err(Refusal::State), "break {i}");
            assert_eq!(reader.one(Event::REPORT), Err(Refusal::State));
            assert_eq!(reader.load(&[], SlotNumber(9)), Err(Refusal::State));
            assert_eq!(reader.ask(SlotNumber(9)), Err(Refusal::State));
            assert_eq!(reader, before);
        }
    }
    let mut reader = any_reader(Layout::Panel, Mode::Following);
    reader.pending[0].id = TrackingId(1);
    assert_eq!(reader.run(&[]), Ok(Ran::NOTHING), "pending ids may repeat");
}

#[test]
fn frames_and_room() {
    let mut writer = any_writer();
    let good = [1, 100, 200, 31, 0, 0, 1, 300, 400, 30, 0, 0];
    for length in [0, 6, 8, 11, 13, 18] {
        let mut frame = good.to_vec();
        frame.resize(length, 3);
        assert_eq!(writer.write(&frame, &mut [], 7), Err(Refusal::Frame));
    }
    for (place, value) in [(0, 3), (0, -1), (0, i32::MIN), (1, -1), (1, 4001), (9, 256), (10, 256), (11, -1)] {
        let mut frame = good;
        frame[place] = value;
        assert_eq!(writer.write(&frame, &mut [], 7), Err(Refusal::Value));
    }
    let mut buffer = [5; 16];
    for (size, position) in [(15, 0), (16, 1), (16, 16), (16, 17), (16, u64::MAX), (16, u64::MAX - 15)] {
        assert_eq!(writer.write(&good, &mut buffer[..size], position), Err(Refusal::NoRoom { need: 16 }));
    }
    assert_eq!((writer.clone(), buffer), (any_writer(), [5; 16]));
    // Nothing to write fits at the end, but not past it.
    let equal = [1, 100, 200, 30, 0, 0, 1, 300, 400, 30, 0, 0];
    assert!(writer.write(&equal, &mut buffer, 16).is_ok());
    assert_eq!(writer.write(&equal, &mut buffer, 17), Err(Refusal::NoRoom { need: 0 }));
}

#[test]
fn ragged_records() {
    for length in 1..16 {
        let mut reader = any_reader(Layout::Panel, Mode::Following);
        let answer = reader.run(&[0; 16][..length]);
        assert_eq!(answer.is_ok(), length == 8);
        if length != 8 {
            assert_eq!(answer, Err(Refusal::Ragged));
            assert_eq!(reader, any_reader(Layout::Panel, Mode::Following));
        }
    }
}

#[test]
fn loads() {
    let good = [-1, 4000, 0, 255, 0, 255, 5, 0, 4000, 0, 255, 0];
    for mode in [Mode::Following, Mode::Dropped] {
        let mut reader = any_reader(Layout::Panel, mode);
        assert_eq!(reader.load(&[], SlotNumber(9)), Err(Refusal::NotStale));
        assert_eq!(reader, any_reader(Layout::Panel, mode));
    }
    let mut reader = any_reader(Layout::Panel, Mode::Stale);
    let mut no = |image: &[i32], current: u64| {
        assert_eq!(reader.load(image, SlotNumber(current)), Err(Refusal::Image));
        assert_eq!(reader, any_reader(Layout::Panel, Mode::Stale));
    };
    no(&[], 0);
    no(&good[..8], 0);
    no(&good[..11], 0);
    no(&[0; 18], 0);
    no(&good, 2);
    no(&good, u64::MAX);
    for (place, value) in
        [(0, -2), (6, 65_536), (1, 4001), (2, -1), (3, 256), (4, 256), (5, 256), (9, i32::MIN), (11, -1)]
    {
        let mut image = good;
        image[place] = value;
        no(&image, 0);
    }
    no(&[5, 0, 0, 0, 0, 0, 5, 0, 0, 0, 0, 0], 0);
    reader.load(&good, SlotNumber(1)).unwrap();
    assert_eq!(reader, following(1, &[sized(-1, 4000, 0, 255, 0, 255), sized(5, 0, 4000, 0, 255, 0)]));
}

#[test]
fn asked_in_order() {
    for mode in [Mode::Dropped, Mode::Stale] {
        let reader = any_reader(Layout::Panel, mode);
        assert_eq!(reader.ask(SlotNumber(2)), Ok(Asked::NoSuchSlot));
        assert_eq!(reader.ask(SlotNumber(1)), Ok(Asked::Unknown));
    }
    let reader = following(0, &[slot(-1, 7, 7, 7)]);
    assert_eq!(reader.ask(SlotNumber(0)), Ok(Asked::Empty));
    assert_eq!(reader.ask(SlotNumber(u64::MAX)), Ok(Asked::NoSuchSlot));
}

/// Whatever a pod waits for, it is well formed or not by its bytes alone.
#[test]
fn pods() {
    for waits in [false, true] {
        let pod = |held, bytes| Pod { waits, held, bytes };
        for broken in [
            pod(0, [1, 0, 0, 0, 0, 0]),
            pod(0, [0xF0, 0, 0, 0, 0, 0]),
            pod(0, [0xF8, 0, 0, 0, 0, 0]),
            pod(1, [0, 0, 0, 0, 0, 0]),
            pod(1, [0x75, 0, 0, 0, 0, 0]),
            pod(1, [0xF0, 0, 0, 0, 0, 0]),
            pod(1, [0xFC, 0, 0, 0, 0, 1]),
            pod(7, [0xFC, 0, 0, 0, 0, 0]),
            pod(1, [0xF8, 1, 0, 0, 0, 0]),
            pod(2, [0xFE, 0, 0, 0, 0, 0]),
            pod(3, [0xFD, 0, 0, 0, 0, 0]),
            pod(5, [0xFB, 0, 0, 0, 0, 0]),
            pod(6, [0xF7, 0, 0, 0, 0, 0]),
            pod(257, [0xF7, 0, 0, 0, 0, 0]),
            pod(u64::MAX, [0xF7, 0, 0, 0, 0, 0]),
        ] {
            let mut state = broken;
            for byte in [0, 0xF0] {
                assert_eq!(state.take(byte), Err(Refusal::State), "{broken:?}");
                assert_eq!(state, broken);
            }
        }
        // Held bytes are not judged before the last one is there.
        let mut state = pod(5, [0xF7, 0xFF, 1, 2, 3, 0]);
        assert_eq!(state.take(4), Ok(Report::BadReport));
        assert_eq!(state, pod(0, [0; 6]));
    }
}

/// All first bytes, and every cut of what they open.
#[test]
fn all_first_bytes() {
    for (waits, first) in [false, true].into_iter().flat_map(|waits| (0..=255u8).map(move |first| (waits, first))) {
        let mut state = Pod { waits, ..Pod::FRESH };
        let mut bytes = 1;
        let mut report = state.take(first).unwrap();
        while report == Report::More {
            assert_eq!((state.waits, state.held), (waits, bytes));
            assert!(state.is_well_formed());
            report = state.take(0).unwrap();
            bytes += 1;
        }
        assert_eq!(state, Pod { waits: waits && first != 0xF0, ..Pod::FRESH });
        let expected = match first {
            0x01..=0x75 => (Report::Down(first), 1),
            0xF0 if waits => (Report::SelfTestPassed, 1),
            0x81..=0xF5 => (Report::Up(first - 0x80), 1),
            0xF7 => (Report::Absolute { flags: 0, x: 0, y: 0 }, 6),
            0xF8..=0xFB => (Report::Relative { left: first >= 0xFA, right: first % 2 == 1, dx: 0, dy: 0 }, 3),
            0xFC => (Report::Time([0; 6]), 7),
            0xFD..=0xFF => (report, if first == 0xFD { 3 } else { 2 }),
            _ => (Report::BadByte, 1),
        };
        assert_eq!((report, bytes), expected, "{first:#x}, waits {waits}");
    }
}

#[test]
fn the_zeros_of_refusal_1() {
    let bad = Setup { slots: 0, ..panel(1) };
    for layout in Layout::ALL {
        assert_eq!(Reader::fresh(layout, bad), Err(Refusal::Setup));
        let zeros = Reader::zeros(layout);
        assert_eq!((zeros.mode, zeros.shown[3]), (Mode::Following, slot(0, 0, 0, 0)));
        assert!(!zeros.is_well_formed());
    }
    assert_eq!(Writer::ZEROS.table[3], slot(0, 0, 0, 0));
    assert!(!Writer::ZEROS.is_well_formed());
}
