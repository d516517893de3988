//! Text and bytes, both ways: in whole and in odd pieces, with each wrong line, and where a stream fails.

use super::*;
use crate::random::Random;
use crate::trial::{decoded, encoded, Full, Pieces};

/// Status, bytes and words of a text that comes in pieces.
fn encode_in(text: &[u8], size: usize, fails: bool) -> (Status, Vec<u8>, String) {
    let (mut out, mut err) = (Vec::new(), Vec::new());
    let status = encode(Pieces { bytes: text, size, fails }, &mut out, &mut err);
    (status, out, String::from_utf8(err).unwrap())
}

fn decode_in(bytes: &[u8], size: usize, frames: bool) -> String {
    let mut out = Vec::new();
    assert_eq!(decode(Pieces { bytes, size, fails: false }, &mut out, io::sink(), frames), Status::Accepted);
    String::from_utf8(out).unwrap()
}

#[test]
fn p1_and_its_text() {
    let lines = "ID 0\nX 100\nY 200\nPRESSURE 30\nMAJOR 9\nMINOR 7\nREPORT\n";
    let bytes = encoded(&format!("SETUP 2 4000 4000 255 255 255\n# a finger\n\n{lines}"));
    assert_eq!(bytes.len(), 24 + 56);
    assert_eq!(bytes[24..32], [3, 0, 0x39, 0, 0, 0, 0, 0]);
    assert_eq!(bytes[56..72], [3, 0, 0x30, 0, 9, 0, 0, 0, 3, 0, 0x31, 0, 7, 0, 0, 0]);
    assert_eq!(decoded(&bytes, false), format!("SETUP 2 4000 4000 255 255 255\n{lines}"));
}

/// A type A frame; with a value SYN_MT_REPORT is an event as any other.
#[test]
fn packets_and_their_text() {
    let lines = "X 1\nY 2\nPRESSURE 3\nMT_REPORT\nREPORT\nEVENT 0 2 7\nEVENT 3 2 0\nDROPPED\n";
    let bytes = encoded(&format!("SETUP 1 9 9 9 9 9\n{lines}"));
    assert_eq!(bytes[48..64], [0, 0, 2, 0, 0, 0, 0, 0, 0, 0, 0, 0, 0, 0, 0, 0]);
    assert_eq!(decoded(&bytes, false), format!("SETUP 1 9 9 9 9 9\n{lines}"));
    assert_eq!(encoded("EVENT 0 2 0\n"), encoded("MT_REPORT\n"));
}

#[test]
fn frames_and_cut_ones() {
    let text = "SETUP 1 9 9 9 9 9\nFRAME 1 2 3 4 5 6\nFRAME 0 -1 0 0 0 0\nBYTES 01 00\n";
    let bytes = encoded(text);
    assert_eq!(bytes.len(), 24 + 48 + 2);
    assert_eq!(decoded(&bytes, true), text);
}

/// Noise, every other time with a small n and records that have names.
fn any_bytes(random: &mut Random, length: usize) -> Vec<u8> {
    let mut bytes: Vec<u8> = (0..length).map(|_| random.word() as u8).collect();
    if length > HEADER && random.once_in(2) {
        bytes[..4].copy_from_slice(&(random.from_to(0, 4) as u32).to_le_bytes());
        for record in bytes[HEADER..].chunks_exact_mut(8) {
            record[0] = random.pick(&[0, 3]);
            record[1] = 0;
            record[2] = random.pick(&[0, 2, 3, 0x2f, 0x30, 0x31, 0x35, 0x36, 0x39, 0x3a, 0x33]);
            record[3] = 0;
            // REPORT, MT_REPORT and DROPPED stand for a value of 0 alone.
            if random.once_in(2) {
                record[4..].fill(0);
            }
        }
    }
    bytes
}

#[test]
fn every_byte_string_comes_back_in_any_pieces() {
    let mut random = Random::new(7);
    for length in 0..200 {
        let bytes = any_bytes(&mut random, length);
        for frames in [false, true] {
            let text = decoded(&bytes, frames);
            assert_eq!(encoded(&text), bytes, "{text}");
            for size in [1, 2, 3, 5, 7, 8, 15, 17, 64, 100] {
                assert_eq!(decode_in(&bytes, size, frames), text);
                assert_eq!(encode_in(text.as_bytes(), size, false), (Status::Accepted, bytes.clone(), String::new()));
            }
        }
    }
}

#[test]
fn more_than_a_buffer_comes_back() {
    let mut random = Random::new(8);
    for length in [65_535, 65_536, 65_537, 300_001] {
        for n in [1u32, 16, 17, 32, 33] {
            let mut bytes = any_bytes(&mut random, length);
            bytes[..4].copy_from_slice(&n.to_le_bytes());
            for frames in [false, true] {
                for size in [4_093, usize::MAX] {
                    assert_eq!(encoded(&decode_in(&bytes, size, frames)), bytes);
                }
            }
        }
    }
}

/// Blanks of any kind, a last line without its end, and lines that give no byte before SETUP.
#[test]
fn text_as_people_write_it() {
    let text = "BYTES\n\t SETUP\u{a0}1  9 9 9 9 9 \r\n  # a comment\r\nX\t+5\r\nEVENT 0x3 53 -1";
    let bytes = encoded("SETUP 1 9 9 9 9 9\nX 5\nX -1\n");
    for size in [1, 2, 3, 1000] {
        assert_eq!(encode_in(text.as_bytes(), size, false), (Status::Accepted, bytes.clone(), String::new()));
    }
}

#[test]
fn errors_name_their_line() {
    for (text, line) in [
        ("X 1\nQ 2\n", 2),
        ("# one\n\nX\n", 3),
        ("X 1 2\n", 1),
        ("X 2147483648\n", 1),
        ("REPORT 1\n", 1),
        ("MT_REPORT 0\n", 1),
        ("EVENT 65536 0 0\n", 1),
        ("EVENT 3 0xfffff 0\n", 1),
        ("X 1\nSETUP 1 2 3 4 9 9\n", 2),
        ("BYTES 01\nSETUP 1 2 3 4 9 9\n", 2),
        ("SETUP 1 2 3\n", 1),
        ("SETUP 1 2 3 4\n", 1),
        ("SETUP 1 2 3 4 5 6 7\n", 1),
        ("SETUP 1 2 3 4 9 9\nFRAME 1 2 3\n", 2),
        ("SETUP 2 9 9 9 9 9\nFRAME 1 2 3 4 0 0\n", 2),
        ("X 1\nFRAME 1 2 3 4 0 0\n", 2),
        ("FRAME 1 2 3 4 0 0\nX 1\n", 2),
        ("BYTES 1 2\n", 1),
        ("BYTES +1\n", 1),
        ("x 1\n", 1),
        ("X 1\n\nX 1\nX", 4),
    ] {
        for size in [1, 3, 1000] {
            let (status, _, words) = encode_in(text.as_bytes(), size, false);
            assert_eq!(status, Status::Refused);
            assert!(words.starts_with(&format!("second: line {line}: ")) && words.ends_with('\n'), "{words}");
        }
    }
}

#[test]
fn what_came_before_a_wrong_line_is_written() {
    let (_, out, words) = encode_in(b"REPORT\nX\nREPORT\n", 1000, false);
    assert_eq!(out, encoded("REPORT\n"));
    assert_eq!(words, "second: line 2: X takes one number\n");
}

#[test]
fn a_line_that_is_no_text_or_too_long() {
    let (status, _, words) = encode_in(b"X 1\n# \xff\n", 2, false);
    assert_eq!(status, Status::Refused);
    assert!(words.starts_with("second: line 2: no text: "), "{words}");

    let mut text = b"X 1\nBYTES".to_vec();
    text.resize(text.len() + LONGEST_LINE - 5, b' ');
    assert_eq!(encode_in(&text, 1000, false).1, encoded("X 1\n"));
    text.push(b' ');
    let (status, _, words) = encode_in(&text, 1000, false);
    assert_eq!((status, words.as_str()), (Status::Refused, "second: line 2: longer than 1048576 bytes\n"));
}

#[test]
fn a_failed_read_is_said_and_cuts_no_number() {
    let lost = "second: a read from standard input failed: Input/output error\n";
    let (status, out, words) = encode_in(b"X 1\nX 30", 3, true);
    assert_eq!((status, out, words.as_str()), (Status::Failed, encoded("X 1\n"), lost));

    let bytes = [encoded("SETUP 1 9 9 9 9 9\nX 1\n"), vec![3, 0]].concat();
    let (mut out, mut err) = (Vec::new(), Vec::new());
    let status = decode(Pieces { bytes: &bytes, size: 7, fails: true }, &mut out, &mut err, false);
    assert_eq!((status, err), (Status::Failed, lost.as_bytes().to_vec()));
    assert_eq!(out, b"SETUP 1 9 9 9 9 9\nX 1\nBYTES 03 00\n");
}

#[test]
fn a_failed_write_is_said() {
    let words = "second: a write to standard output failed: No space left on device\n";
    let mut err = Vec::new();
    let status = decode(&[1, 2, 3][..], Full { taken: Vec::new(), room: 4 }, &mut err, false);
    assert_eq!((status, String::from_utf8(err).unwrap().as_str()), (Status::Failed, words));

    let mut err = Vec::new();
    let status = encode(&b"REPORT"[..], Full { taken: Vec::new(), room: 4 }, &mut err);
    assert_eq!((status, String::from_utf8(err).unwrap().as_str()), (Status::Failed, words));
}

#[test]
fn a_reader_who_went_away_has_seen_enough() {
    struct Closed;
    impl Write for Closed {
        fn write(&mut self, _: &[u8]) -> io::Result<usize> {
            Err(io::ErrorKind::BrokenPipe.into())
        }

        fn flush(&mut self) -> io::Result<()> {
            Ok(())
        }
    }
    let mut err = Vec::new();
    assert_eq!(decode(&[1, 2, 3][..], Closed, &mut err, true), Status::Accepted);
    assert_eq!(encode(&b"REPORT"[..], Closed, &mut err), Status::Accepted);
    assert!(err.is_empty());
}
