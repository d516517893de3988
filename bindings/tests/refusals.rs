//! Every refusal, by the call that gives it; what was handed in stays as it was.

mod common;

use chandrulek::*;
use common::*;

/// Calls a writer that must refuse, and holds its state and its buffer to what they were.
fn refuses(writer: &mut Writer, call: impl FnOnce(&mut Writer, &mut [u8]) -> Result<Written, Refusal>) -> Refusal {
    let before = writer.clone();
    let mut buffer = [0xAA; 24];
    let refusal = call(writer, &mut buffer).unwrap_err();
    assert_eq!(*writer, before);
    assert_eq!(buffer, [0xAA; 24]);
    refusal
}

#[test]
fn setup() {
    for setup in [
        Setup { slots: 0, ..SETUP },
        Setup { slots: 33, ..SETUP },
        Setup { x: 32_768, ..SETUP },
        Setup { minor: 0, ..SETUP },
    ] {
        assert_eq!(Writer::fresh(setup, false), Err(Refusal::Setup));
        assert_eq!(Reader::fresh(setup), Err(Refusal::Setup));
        assert_eq!(LineReader::fresh(setup), Err(Refusal::Setup));
    }
}

#[test]
fn state() {
    let mut writer = Writer::from_bytes(&[0; WRITER_BYTES]);
    assert_eq!(refuses(&mut writer, |writer, buffer| writer.write(&[], buffer, 99)), Refusal::State);
    assert_eq!(refuses(&mut writer, |writer, buffer| writer.write_anonymous(&[1], buffer, 99)), Refusal::State);
    let mut reader = Reader::from_bytes(&[0; READER_BYTES]);
    assert_eq!(reader.run(&[1]), Err(Refusal::State));
    assert_eq!(reader.lost(), Err(Refusal::State));
    assert_eq!(reader.load(&[], Slot(9)), Err(Refusal::State));
    assert_eq!(reader.ask(Slot(9)), Err(Refusal::State));
    assert_eq!(reader.is_lost(), Err(Refusal::State));
    let mut line = LineReader::from_bytes(&[0; LINE_BYTES]);
    assert_eq!(line.take(&[]), Err(Refusal::State));
    assert_eq!(line.lost(), Err(Refusal::State));
    assert_eq!(line.load(&[], Slot(9)), Err(Refusal::State));
    assert_eq!(line.ask(Slot(9)), Err(Refusal::State));
    let mut pod = Pod::from_bytes(&[0; POD_BYTES]);
    assert_eq!(pod.step(0xF0), Err(Refusal::State));
    assert_eq!(pod.command(Command::ButtonAction(9), &mut [], 1), Err(Refusal::State));
    assert_eq!(*pod.as_bytes(), [0; POD_BYTES]);
}

#[test]
fn frame() {
    let mut writer = Writer::fresh(SETUP, false).unwrap();
    for rows in [0, 1, 3, 32, 33, 200] {
        let frame = vec![finger(-1, 0, 0); rows];
        assert_eq!(
            refuses(&mut writer, |writer, buffer| writer.write(&frame, buffer, 99)),
            Refusal::Frame,
            "{rows} rows"
        );
    }
    // The longest frame that a panel of 32 slots takes, and one row more.
    let mut writer = Writer::fresh(Setup { slots: 32, ..SETUP }, false).unwrap();
    assert!(writer.write(&[Contact::NONE; 32], &mut [], 0).is_ok());
    assert_eq!(refuses(&mut writer, |writer, buffer| writer.write(&[Contact::NONE; 33], buffer, 0)), Refusal::Frame);
}

#[test]
fn value() {
    let mut writer = Writer::fresh(SETUP, false).unwrap();
    // The last: a finger presses.
    for bad in [finger(4001, 0, 1), finger(0, -1, 1), finger(0, 0, 256), finger(0, 0, 0)] {
        assert_eq!(
            refuses(&mut writer, |writer, buffer| writer.write(&[Contact::NONE, bad], buffer, 99)),
            Refusal::Value
        );
    }
    let report = ForceReport { x: 0, y: 0, throttle: 0, buttons: 4096, hat: 0, rudder: 0 };
    assert_eq!(report.write(&mut [], 0), Err(Refusal::Value));
    assert_eq!(make_block(0, &[0; 8]), Err(Refusal::Value));
    assert_eq!(make_block(1, &[]), Err(Refusal::Value));
    assert_eq!(make_block(1, &[0; 63 * 8]), Err(Refusal::Value));
    assert_eq!(lay_blocks(u32::MAX, &[0; 63 * 8], &mut [0; 1024], 0), Err(Refusal::Value));
}

#[test]
fn no_room() {
    let mut writer = Writer::fresh(SETUP, false).unwrap();
    let frame = [finger(100, 200, 30), Contact::NONE];
    for at in [0, 24, 25, usize::MAX] {
        let refusal = refuses(&mut writer, |writer, buffer| writer.write(&frame, buffer, at));
        assert_eq!(refusal, Refusal::NoRoom { need: 40 }, "at {at}");
    }
    let records = records(&["X 1", "Y 1", "PRESSURE 1", "MT_REPORT", "REPORT"]);
    let refusal = refuses(&mut writer, |writer, buffer| writer.write_anonymous(&records, buffer, 0));
    assert_eq!(refusal, Refusal::NoRoom { need: 40 });
    // With the need from the position on it is taken.
    let mut buffer = [0xAA; 43];
    assert!(writer.write(&frame, &mut buffer, 3).is_ok());
    assert_eq!(buffer[..3], [0xAA; 3]);

    assert_eq!(Pod::fresh().command(Command::Reset, &mut [0; 2], 1), Err(Refusal::NoRoom { need: 2 }));
    let report = ForceReport { x: 0, y: 0, throttle: 0, buttons: 0, hat: 0, rudder: 0 };
    assert_eq!(report.write(&mut [0; 12], 1), Err(Refusal::NoRoom { need: FORCE_BYTES }));
    assert_eq!(lay_blocks(1, &[0; 63 * 8], &mut [0; 1023], 0), Err(Refusal::NoRoom { need: 1024 }));
}

#[test]
fn ragged() {
    let mut reader = following();
    let before = reader.clone();
    assert_eq!(reader.run(&records(&["X 5", "REPORT"])[..15]), Err(Refusal::Ragged));
    assert_eq!(reader, before);
    let mut writer = Writer::fresh(SETUP, false).unwrap();
    assert_eq!(refuses(&mut writer, |writer, buffer| writer.write_anonymous(&[0; 9], buffer, 0)), Refusal::Ragged);
    assert_eq!(make_block(1, &[0; 9]), Err(Refusal::Ragged));
    assert_eq!(lay_blocks(1, &[0; 9], &mut [0; 512], 0), Err(Refusal::Ragged));
}

#[test]
fn not_stale_and_image() {
    let mut reader = following();
    assert_eq!(reader.load(&[SlotRecord::UNUSED; 2], Slot(0)), Err(Refusal::NotStale));
    reader.lost().unwrap();
    let before = reader.clone();
    let (good, free) = (row(1, 2, 3, 4), SlotRecord::UNUSED);
    for rows in [0, 1, 3, 33, 200] {
        assert_eq!(reader.load(&vec![free; rows], Slot(0)), Err(Refusal::Image), "{rows} rows");
    }
    for image in [[good, good], [row(-2, 0, 0, 0), free], [row(65_536, 0, 0, 0), free], [free, row(-1, 4001, 0, 0)]] {
        assert_eq!(reader.load(&image, Slot(0)), Err(Refusal::Image));
    }
    assert_eq!(reader.load(&[good, free], Slot(2)), Err(Refusal::Image));
    assert_eq!(reader.load(&[good, free], Slot(1 << 32)), Err(Refusal::Image));
    assert_eq!(reader, before);
}

#[test]
fn anonymous_frames() {
    let mut writer = Writer::fresh(SETUP, false).unwrap();
    let contact = ["X 1", "Y 1", "PRESSURE 1", "MT_REPORT"];
    let mut refusal =
        |events: &[&str]| refuses(&mut writer, |writer, buffer| writer.write_anonymous(&records(events), buffer, 0));
    assert_eq!(refusal(&[&contact[..], &contact, &contact, &["REPORT"]].concat()), Refusal::TooMany);
    assert_eq!(refusal(&contact), Refusal::Unfinished);
    assert_eq!(refusal(&["X 1", "MT_REPORT", "REPORT"]), Refusal::Unfinished);
    assert_eq!(refusal(&["X 1", "Y 4001", "PRESSURE 1", "MT_REPORT", "REPORT"]), Refusal::Value);
}

#[test]
fn command() {
    let mut pod = Pod::fresh();
    let mut buffer = [0xAA; COMMAND_BYTES];
    let clock = Clock { year: 0x26, month: 0x11, day: 0x16, hour: 0x04, minute: 0x5A, second: 0x30 };
    for command in [
        Command::ButtonAction(5),
        Command::Threshold { x: 0, y: 1 },
        Command::Scale { x: 1, y: 0 },
        Command::SetClock(clock),
    ] {
        assert_eq!(pod.command(command, &mut buffer, 0), Err(Refusal::Command));
    }
    assert_eq!((buffer, &pod), ([0xAA; COMMAND_BYTES], &Pod::fresh()));
}

#[test]
fn names_and_numbers() {
    let all = [
        Refusal::Setup,
        Refusal::State,
        Refusal::Frame,
        Refusal::Value,
        Refusal::NoRoom { need: 40 },
        Refusal::Ragged,
        Refusal::NotStale,
        Refusal::Image,
        Refusal::TooMany,
        Refusal::Unfinished,
        Refusal::Command,
        Refusal::Unlisted(12),
    ];
    for (refusal, number) in all.iter().zip(1..) {
        assert_eq!(refusal.number(), number);
        // A name's number, the cause, and what to do.
        let words = refusal.to_string();
        assert!(words.starts_with(&format!("refused {number}: ")) && words.matches(": ").count() == 2, "{words}");
    }
    assert!(all[4].to_string().contains("40 bytes"));
    let _: &dyn std::error::Error = &all[0];
}
