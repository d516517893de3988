//! States as bytes: saved and taken up again, laid out as docs/LAYOUT.md says, and refused where they are none.

mod common;

use chandrulek::*;
use common::*;

fn word(bytes: &[u8], at: usize) -> i32 {
    i32::from_le_bytes([bytes[at], bytes[at + 1], bytes[at + 2], bytes[at + 3]])
}

#[test]
fn saved_and_taken_up_again() {
    let mut writer = Writer::fresh(SETUP, true).unwrap();
    sent(&mut writer, &[finger(100, 200, 30), Contact::NONE]);
    let saved = writer.as_bytes().to_vec();
    let mut again = Writer::try_from(&saved[..]).unwrap();
    assert_eq!(again, writer);
    let frame = [Contact::NONE, finger(300, 400, 30)];
    assert_eq!(sent(&mut again, &frame), sent(&mut writer, &frame));

    let reader = following();
    assert_eq!(
        Reader::try_from(&reader.as_bytes()[..]).unwrap().ask(Slot(0)),
        Ok(Asked::Contact(row(0, 100, 200, 30)))
    );

    let mut line = LineReader::fresh(SETUP).unwrap();
    let bytes = records(&["ID 0", "REPORT"]);
    line.take(&bytes[..11]).unwrap();
    let mut again = LineReader::try_from(&line.as_bytes()[..]).unwrap();
    assert_eq!(again.take(&bytes[11..]).unwrap().shown, 1);

    let mut pod = Pod::fresh();
    pod.step(0xFE).unwrap();
    let mut again = Pod::try_from(&pod.as_bytes()[..]).unwrap();
    assert_eq!(again.step(0x81), Ok(Report::OneStick { which: 0, stick: Stick { trigger: true, position: 1 } }));
}

#[test]
fn another_length_is_no_state() {
    let long = vec![0; LINE_BYTES + 1];
    for length in 0..=long.len() {
        let bytes = &long[..length];
        assert_eq!(Writer::try_from(bytes).is_ok(), length == WRITER_BYTES);
        assert_eq!(Reader::try_from(bytes).is_ok(), length == READER_BYTES);
        assert_eq!(LineReader::try_from(bytes).is_ok(), length == LINE_BYTES);
        assert_eq!(Pod::try_from(bytes).is_ok(), length == POD_BYTES);
    }
}

#[test]
fn where_a_writers_numbers_lie() {
    let mut writer = Writer::fresh(SETUP, true).unwrap();
    sent(&mut writer, &[Contact::NONE, Contact { major: 9, minor: 7, ..finger(100, 200, 30) }]);
    let bytes = writer.as_bytes();
    assert_eq!(bytes[..8], [VERSION, 1, 1, 1, 0x45, 0x01, 0, 0]);
    let words: Vec<i32> = (8..72).step_by(4).map(|at| word(bytes, at)).collect();
    assert_eq!(words, [2, 4000, 4000, 255, 255, 255, 1, 1, 100, 200, -1, 0, 0, 0, 0, 0]);
    let words: Vec<i32> = (72..96).step_by(4).map(|at| word(bytes, at)).collect();
    assert_eq!(words, [0, 100, 200, 30, 9, 7]);
    assert_eq!(word(bytes, 48 + 24 * 31), -1);
    assert_eq!(bytes[816..], [0; 32]);
}

#[test]
fn where_a_readers_numbers_lie() {
    let mut line = LineReader::fresh(SETUP).unwrap();
    line.take(&records(&["SLOT 1", "ID 5", "X 100", "REPORT", "X 101", "Y 7"])[..43]).unwrap();
    let bytes = line.as_bytes();
    assert_eq!(bytes[..4], [VERSION, 3, 0, 3]);
    let words: Vec<i32> = (4..32).step_by(4).map(|at| word(bytes, at)).collect();
    assert_eq!(words, [1, 2, 4000, 4000, 255, 255, 255]);
    assert_eq!((word(bytes, 32), word(bytes, 56), word(bytes, 60)), (-1, 5, 100));
    assert_eq!((word(bytes, 800), word(bytes, 824), word(bytes, 828)), (-1, 5, 101));
    assert_eq!(bytes[1568..], [3, 0, 0x36, 0, 0, 0, 0, 0]);

    let mut reader = following();
    for (events, mode) in [(&[][..], 0), (&["DROPPED"], 1), (&["REPORT"], 2)] {
        reader.run(&records(events)).unwrap();
        assert_eq!(reader.as_bytes()[..4], [VERSION, 2, mode, 0]);
    }
}

#[test]
fn where_a_pods_bytes_lie() {
    let mut pod = Pod::fresh();
    assert_eq!(*pod.as_bytes(), [VERSION, 4, 1, 0, 0, 0, 0, 0, 0, 0, 0, 0]);
    for byte in [0xF0, 0xF7, 5] {
        pod.step(byte).unwrap();
    }
    assert_eq!(*pod.as_bytes(), [VERSION, 4, 0, 2, 0xF7, 5, 0, 0, 0, 0, 0, 0]);
}

/// Each of these bytes set to each of these values makes it no state.
#[test]
fn bytes_that_are_not_formed() {
    let writer = *Writer::fresh(SETUP, false).unwrap().as_bytes();
    for (place, byte) in [(0, 0), (0, 2), (1, 2), (2, 2), (3, 1), (4, 1), (6, 1), (7, 1), (32, 2), (847, 1)] {
        let mut bytes = writer;
        bytes[place] = byte;
        let mut broken = Writer::from_bytes(&bytes);
        assert_eq!(broken.write(&[], &mut [], 9), Err(Refusal::State), "byte {place} is {byte}");
        assert_eq!(*broken.as_bytes(), bytes);
    }
    let reader = *following().as_bytes();
    for (place, byte) in [(0, 0), (0, 2), (1, 1), (1, 3), (2, 3), (3, 1), (4, 2), (8, 33), (35, 0x80), (1567, 1)] {
        let mut bytes = reader;
        bytes[place] = byte;
        assert_eq!(Reader::from_bytes(&bytes).ask(Slot(0)), Err(Refusal::State), "byte {place} is {byte}");
    }
    let line = *LineReader::fresh(SETUP).unwrap().as_bytes();
    for (place, byte) in [(0, 2), (1, 2), (2, 3), (3, 8), (1568, 1), (1574, 1), (1575, 1)] {
        let mut bytes = line;
        bytes[place] = byte;
        assert_eq!(LineReader::from_bytes(&bytes).ask(Slot(0)), Err(Refusal::State), "byte {place} is {byte}");
    }
    let pod = *Pod::fresh().as_bytes();
    for (place, byte) in [(0, 2), (1, 1), (2, 2), (3, 1), (3, 7), (4, 1), (9, 1), (10, 1), (11, 1)] {
        let mut bytes = pod;
        bytes[place] = byte;
        assert_eq!(Pod::from_bytes(&bytes).step(1), Err(Refusal::State), "byte {place} is {byte}");
    }
}
