//! What the requests of document 02 ask: each test fails for a program that knows document 01 alone, or that reads the request otherwise.

use crate::common::*;
use second::events::*;
use second::pod::{Pod, Report};
use second::reader::{Asked, Mode, Ran, Reader};
use second::refusal::Refusal;
use second::table::{SlotNumber, PRESSURE};
use second::writer::{Written, LARGEST_FRAME};

/// The answers to a string of bytes from this state, and the state after it.
fn pod(mut pod: Pod, bytes: &[u8]) -> (Vec<Report>, Pod) {
    let reports = bytes.iter().map(|byte| pod.take(*byte).unwrap()).collect();
    (reports, pod)
}

const DONE: Pod = Pod { waits: false, ..Pod::FRESH };

/// K3: the first 0xF0 that stands as a first byte, and no other.
#[test]
fn the_self_test_is_told_once() {
    let up = Report::Up(0x70);
    assert_eq!(pod(Pod::FRESH, &[0xF0, 0xF0, 0xF0]), (vec![Report::SelfTestPassed, up, up], DONE));
    assert_eq!(pod(DONE, &[0xF0, 0xF0]), (vec![up, up], DONE));
}

/// K3: 0xF0 inside a longer report is data, in each of its places, and the wait goes on behind it.
#[test]
fn inside_a_report_it_is_data() {
    let more = Report::More;
    let relative = Report::Relative { left: false, right: false, dx: -16, dy: -16 };
    assert_eq!(pod(Pod::FRESH, &[0xF8, 0xF0, 0xF0]), (vec![more, more, relative], Pod::FRESH));
    let (reports, after) = pod(Pod::FRESH, &[0xF7, 0xF0, 0, 0, 0, 0, 0xF0]);
    assert_eq!(reports[..5], [more; 5]);
    assert_eq!(reports[5..], [Report::BadReport, Report::SelfTestPassed]);
    assert_eq!(after, DONE);
    let (reports, after) = pod(Pod::FRESH, &[0xF7, 0x05, 0xF0, 0xF0, 0xF0, 0xF0]);
    assert_eq!((reports[5], after), (Report::Absolute { flags: 5, x: 0xF0F0, y: 0xF0F0 }, Pod::FRESH));
    for opens in [0xFD, 0xFE, 0xFF] {
        let bytes = if opens == 0xFD { &[opens, 0xF0, 0xF0, 0xF0][..] } else { &[opens, 0xF0, 0xF0] };
        let (reports, after) = pod(Pod::FRESH, bytes);
        assert_eq!(reports[reports.len() - 2..], [Report::BadReport, Report::SelfTestPassed], "{opens:#x}");
        assert_eq!(after, DONE);
    }
}

/// K3: other bytes are read as usual while waiting, and end no wait: for each of them the next 0xF0 is the self-test.
#[test]
fn other_bytes_are_read_as_usual() {
    for first in (0..=255u8).filter(|first| *first != 0xF0) {
        let bytes = [first, 0x81, 0x81, 0x81, 0x81, 0x81, 0x81];
        let length = second::pod::length(first) as usize;
        let (waiting, after) = pod(Pod::FRESH, &bytes[..length]);
        assert_eq!((&waiting, after), (&pod(DONE, &bytes[..length]).0, Pod::FRESH), "{first:#x}");
        assert_eq!(pod(after, &[0xF0]).0, [Report::SelfTestPassed]);
    }
    assert_eq!(pod(Pod::FRESH, &[0xF1]), (vec![Report::Up(0x71)], Pod::FRESH));
}

fn event(kind: u16, code: u16) -> Event {
    Event { kind, code, value: 1 }
}

/// K4: why each type and code is skipped, over every type with the listed codes and every code of the known types; a crane skips two more.
#[test]
fn why_a_record_is_skipped() {
    let types = (0..=u16::MAX).flat_map(|kind| [0, 2, 3, 0x2f, 0x30, 0x35, 0x3a].map(|code| (kind, code)));
    let codes = (0..=u16::MAX).flat_map(|code| [(0, code), (3, code)]);
    let pairs: Vec<(u16, u16)> = types.chain(codes).collect();
    let slots = [slot(0, 1, 1, 1), slot(1, 1, 1, 1)];
    for reader in [following(0, &slots), crane(0, &slots)] {
        for (kind, code) in &pairs {
            let ran = reader.clone().one(event(*kind, *code)).unwrap();
            let is_known = matches!(kind, 0 | 3);
            let expected = if listed(reader.layout).contains(&(*kind, *code)) {
                (0, 0, None)
            } else {
                (u64::from(!is_known), u64::from(is_known), Some((*kind, *code)))
            };
            assert_eq!((ran.unknown_type, ran.unknown_code, ran.first_skipped), expected, "{kind} {code}");
            assert_eq!(ran.bad + ran.ignored, 0);
        }
    }
}

/// K4: the first over the whole run, whichever of the two it is.
#[test]
fn the_first_skipped_is_named() {
    let ran = |events: &[Event]| following(0, &[slot(-1, 0, 0, 0)]).run(&bytes(events)).unwrap();
    let (touch, mt, size) = (event(1, 330), event(0, 2), event(3, 0x32));
    for (events, first) in [
        (&[touch, mt, size][..], (1, 330)),
        (&[mt, touch, size], (0, 2)),
        (&[Event::REPORT, size, Event::REPORT, touch, Event::REPORT, mt], (3, 0x32)),
    ] {
        let all = ran(events);
        assert_eq!((all.unknown_type, all.unknown_code, all.skipped()), (1, 2, 3));
        assert_eq!(all.first_skipped, Some(first));
    }
    assert_eq!(ran(&[Event::REPORT]), Ran { shown: 1, ..Ran::NOTHING });
}

/// K4: what is ignored is not skipped, and a loss forgets nothing.
#[test]
fn skipped_before_and_unknown_behind_a_loss() {
    let lost = [Event::DROPPED, Event::abs(ABS_MT_POSITION_X, -5)];
    for (i, loss) in lost.into_iter().enumerate() {
        let ran = |events: &[Event]| following(0, &[slot(-1, 0, 0, 0)]).run(&bytes(events)).unwrap();
        let behind = [loss, event(1, 330), Event::REPORT, event(0, 2)];
        let expected = Ran { bad: i as u64, ignored: 3, ..Ran::NOTHING };
        assert_eq!(ran(&behind), expected);
        let both = [&[event(2, 0)], &behind[..]].concat();
        assert_eq!(ran(&both), Ran { unknown_type: 1, first_skipped: Some((2, 0)), ..expected });
    }
    for mode in [Mode::Dropped, Mode::Stale] {
        let mut reader = Reader { mode, ..following(0, &[slot(-1, 0, 0, 0)]) };
        assert_eq!(reader.one(event(1, 330)), Ok(Ran { ignored: 1, ..Ran::NOTHING }));
    }
}

/// K4: a refusal comes before any record is looked at.
#[test]
fn a_refused_run_skips_nothing() {
    let mut reader = following(0, &[slot(-1, 0, 0, 0)]);
    let ragged = [&event(1, 330).to_bytes()[..], &[0]].concat();
    assert_eq!(reader.run(&ragged), Err(Refusal::Ragged));
    assert_eq!(Ran::NOTHING.first_skipped, None);
}

/// K8: a frame of these two rows after P2, into a buffer of so many bytes.
fn pressed(first: [i32; 4], second: [i32; 4], size: usize) -> Result<Written, Refusal> {
    let mut writer = writer(0, 2, &[slot(0, 100, 200, 30), slot(-1, 300, 400, 0)]);
    let before = writer.clone();
    let mut buffer = [7; LARGEST_FRAME];
    let frame = [first, second].map(|[kind, x, y, pressure]| [kind, x, y, pressure, 0, 0]).concat();
    let written = writer.write(&frame, &mut buffer[..size], 0);
    if written.is_err() {
        assert_eq!((writer, buffer), (before, [7; LARGEST_FRAME]));
    }
    written
}

const GOES_ON: [i32; 4] = [1, 100, 200, 30];
const NO_CONTACT: [i32; 4] = [0, 0, 0, 0];

/// K8: of kind 1 and 2, beginning and going on, in the first slot and the last; before the room is looked at, and after the count of numbers.
#[test]
fn a_contact_of_pressure_0_is_a_bad_value() {
    for size in [LARGEST_FRAME, 0] {
        for kind in [1, 2] {
            assert_eq!(pressed([kind, 100, 200, 0], NO_CONTACT, size), Err(Refusal::Value));
            assert_eq!(pressed(GOES_ON, [kind, 300, 400, 0], size), Err(Refusal::Value));
            assert_eq!(pressed(GOES_ON, [kind, 0, 0, 0], size), Err(Refusal::Value));
        }
    }
    let mut writer = writer(0, 2, &[slot(0, 100, 200, 30)]);
    assert_eq!(writer.write(&[1, 100, 200, 0, 0], &mut [], 0), Err(Refusal::Frame));
    writer.counter = 65_536;
    assert_eq!(writer.write(&[1, 100, 200, 0, 0, 0], &mut [], 0), Err(Refusal::State));
}

/// K8: the least pressure is 1, and the least x and y are 0 as before.
#[test]
fn a_contact_of_pressure_1_is_good() {
    let written = |events, changed| Ok(Written { events, changed });
    assert_eq!(pressed([1, 100, 200, 1], NO_CONTACT, LARGEST_FRAME), written(2, 0b01));
    assert_eq!(pressed([2, 0, 0, 1], NO_CONTACT, LARGEST_FRAME), written(5, 0b01));
    assert_eq!(pressed(GOES_ON, [1, 300, 400, 1], LARGEST_FRAME), written(4, 0b10));
    // The largest is the least.
    let mut writer = writer(0, 0, &[slot(-1, 0, 0, 0)]);
    writer.setup.largest[PRESSURE] = 1;
    assert_eq!(write(&mut writer, &[1, 0, 0, 1, 0, 0]).unwrap().0, ["ID 0", "PRESSURE 1", "REPORT"]);
}

/// K8: no contact has no pressure to be judged.
#[test]
fn pressure_0_in_kind_0_is_not_judged() {
    assert_eq!(pressed(GOES_ON, NO_CONTACT, 0), Ok(Written::ZEROS));
    assert_eq!(pressed([0, 100, 200, 0], NO_CONTACT, LARGEST_FRAME), Ok(Written { events: 2, changed: 1 }));
}

/// K8: a writer's table may hold what older ones had. Such a contact can lift, begin anew or press, but not go on with 0.
#[test]
fn a_live_slot_of_pressure_0_is_well_formed() {
    let old = writer(0, 6, &[slot(5, 100, 200, 0)]);
    assert!(old.is_well_formed());
    for (frame, sent, after) in [
        ([0, 100, 200, 0, 0, 0], &["ID -1", "REPORT"][..], slot(-1, 100, 200, 0)),
        ([1, 100, 200, 1, 0, 0], &["PRESSURE 1", "REPORT"], slot(5, 100, 200, 1)),
        ([2, 100, 200, 9, 0, 0], &["ID 6", "PRESSURE 9", "REPORT"], slot(6, 100, 200, 9)),
    ] {
        let mut writer = old.clone();
        assert_eq!(write(&mut writer, &frame).unwrap().0, sent);
        assert_eq!(writer.table[0], after);
    }
    for kind in [1, 2] {
        assert_eq!(write(&mut old.clone(), &[kind, 100, 200, 0, 0, 0]), Err(Refusal::Value));
    }
}

/// K8: records, loads and questions take pressure 0 as before.
#[test]
fn a_reader_takes_pressure_0() {
    let mut reader = following(0, &[slot(5, 100, 200, 30)]);
    let none = bytes(&[Event::abs(ABS_MT_PRESSURE, 0), Event::REPORT]);
    assert_eq!(reader.run(&none), Ok(Ran { shown: 1, ..Ran::NOTHING }));
    assert_eq!(reader, following(0, &[slot(5, 100, 200, 0)]));
    let mut stale = Reader { mode: Mode::Stale, ..reader.clone() };
    assert_eq!(stale.load(&[5, 100, 200, 0, 0, 0], SlotNumber(0)), Ok(()));
    assert_eq!(stale, reader);
    assert_eq!(reader.ask(SlotNumber(0)), Ok(Asked::Contact(slot(5, 100, 200, 0))));
}
