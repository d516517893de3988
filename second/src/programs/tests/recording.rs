//! `record` and `replay`: words, statuses, and that what was recorded shows what `show_table` does.

use super::*;
use crate::recorder::{block, put_check, BLOCK};

const SETUP: &str = "SETUP 1 9 9 9 9 9\n";

/// A recording of these texts, a block each.
fn recording(blocks: &[&str]) -> Vec<u8> {
    let blocks = blocks.iter().zip(1..).flat_map(|(text, number)| block(number, &encoded(text)).unwrap());
    encoded(SETUP).into_iter().chain(blocks).collect()
}

/// What `record` writes, whatever the pieces, with its status and words.
fn recorded(text: &str, fails: bool) -> (Status, Vec<u8>, String) {
    let bytes = encoded(text);
    let whole = answers("record", &bytes, usize::MAX, fails);
    for size in [1, 5, 497] {
        assert_eq!(answers("record", &bytes, size, fails), whole);
    }
    whole
}

#[test]
fn records_in_blocks() {
    let text = "ID 0\nX 3\nREPORT\n";
    assert_eq!(recorded(&format!("{SETUP}{text}"), false), (Accepted, recording(&[text]), String::new()));
    assert_eq!(recorded(SETUP, false), (Accepted, encoded(SETUP), String::new()));
    let (full, more) = ("X 1\n".repeat(62), "X 2\nREPORT\n");
    assert_eq!(recorded(&format!("{SETUP}{full}"), false).1, recording(&[&full]));
    assert_eq!(recorded(&format!("{SETUP}{full}{full}{more}"), false).1, recording(&[&full, &full, more]));
}

#[test]
fn a_cut_record_and_a_lost_input() {
    let (text, full) = (format!("{SETUP}X 1\nBYTES 03 00 35\n"), "X 1\n".repeat(62));
    let cut = "refused 6\nrecord: the last record is cut: 3 of 8 bytes\n".to_string();
    assert_eq!(recorded(&text, false), (Refused, recording(&["X 1\n"]), cut.clone()));
    assert_eq!(recorded(&format!("{SETUP}BYTES 03 00 35\n"), false), (Refused, encoded(SETUP), cut));
    let lost = format!("record: {LOST}record: input was lost, so SYN_DROPPED was recorded\n");
    assert_eq!(recorded(&text, true), (Failed, recording(&["X 1\nDROPPED\n"]), lost.clone()));
    assert_eq!(recorded(SETUP, true), (Failed, recording(&["DROPPED\n"]), lost.clone()));
    // With 62 events held the block is written already, and the loss has one of its own.
    assert_eq!(recorded(&format!("{SETUP}{full}"), true).1, recording(&[&full, "DROPPED\n"]));
    let fewer = "X 1\n".repeat(61);
    assert_eq!(recorded(&format!("{SETUP}{fewer}"), true).1, recording(&[&format!("{fewer}DROPPED\n")]));
}

#[test]
fn a_refused_setup() {
    let err = "refused 1\nrecord: n is 0, and must be 1 to 32\n";
    assert_eq!(recorded("SETUP 0 9 9 9 9 9\nX 1\n", false), (Refused, Vec::new(), err.to_string()));
    let err = "replay: n is 0, and must be 1 to 32\n";
    assert_eq!(said("replay", &encoded("SETUP 0 9 9 9 9 9\n"), false), strings(Refused, "refused 1\n", err));
    let err = "replay: the setup is cut: 23 of 24 bytes\n";
    assert_eq!(said("replay", &encoded(SETUP)[..23], false), strings(Refused, "refused 1\n", err));
}

/// Said once at the end, however many were refused.
const REFUSED: &str = "replay: a refused block counts as SYN_DROPPED: from there on every slot is unknown; make the recording anew, or load a full table\n";

const SHOWN: [&str; 2] = ["ID 0\nX 3\nREPORT\n", "X 4\nREPORT\n"];

#[test]
fn a_good_recording_shows_the_table() {
    let table = "following 0\n0 0 4 0 0 0 0\n";
    assert_eq!(said("replay", &recording(&SHOWN), false), strings(Accepted, table, ""));
    assert_eq!(said("replay", &recording(&[]), false), strings(Accepted, "following 0\n0 -1 0 0 0 0 0\n", ""));
}

/// The second block of two, changed, with a check that fits or with the old one.
fn damaged(place: usize, byte: u8, fits: bool) -> Vec<u8> {
    let mut bytes = recording(&SHOWN);
    let second: &mut [u8; BLOCK] = bytes.last_chunk_mut().unwrap();
    second[place] = byte;
    if fits {
        put_check(second);
    }
    bytes
}

#[test]
fn a_refused_block_is_a_loss() {
    for (bytes, name) in [
        (damaged(9, 1, false), "wrong check"),
        (damaged(0, 3, true), "wrong number"),
        (damaged(4, 63, true), "count over 62"),
        (damaged(100, 1, true), "not zero"),
        (recording(&SHOWN)[..HEADER + 1023].to_vec(), "wrong check"),
        (recording(&SHOWN)[..HEADER + 513].to_vec(), "wrong check"),
    ] {
        let (status, out, err) = said("replay", &bytes, false);
        assert_eq!((status, out.as_str()), (Refused, "dropped 0\n"));
        assert_eq!(err, format!("block 2 refused: {name}\n{REFUSED}"));
        // What a failed read cut is lost with it.
        let (status, out, err) = said("replay", &bytes[..bytes.len().min(HEADER + 600)], true);
        assert_eq!((status, out.as_str()), (Failed, "dropped 0\n"));
        assert_eq!(err, format!("replay: {LOST}replay: input was lost, which counts as SYN_DROPPED\n"));
    }
}

/// A block after a refused one is still expected to carry its place; a report then makes the reader stale.
#[test]
fn places_go_on_behind_a_refused_block() {
    let mut bytes = recording(&["ID 0\nREPORT\n", "X 4\nREPORT\n", "X 5\nREPORT\n"]);
    bytes[HEADER + 9] ^= 1;
    let (_, out, err) = said("replay", &bytes, false);
    assert_eq!(out, "stale 0\n");
    assert_eq!(err, format!("block 1 refused: wrong check\n{REFUSED}"));
    bytes.drain(HEADER..HEADER + BLOCK);
    let (_, _, err) = said("replay", &bytes, false);
    assert_eq!(err, format!("block 1 refused: wrong number\nblock 2 refused: wrong number\n{REFUSED}"));
}

/// Whatever the records are, good or not, what was recorded is told as they are; a cut record is left out.
#[test]
fn replay_says_what_show_table_says() {
    for index in 0..300 {
        let bytes = noise("show_table", 3, index).unwrap();
        let (status, recording, _) = answers("record", &bytes, usize::MAX, false);
        if bytes.len() < HEADER || recording.is_empty() {
            continue;
        }
        let whole = HEADER + (bytes.len() - HEADER) / RECORD * RECORD;
        let shown = answers("show_table", &bytes[..whole], usize::MAX, false);
        let again = answers("replay", &recording, usize::MAX, false);
        assert_eq!(status == Accepted, whole == bytes.len());
        assert_eq!((again.0, again.1, again.2.replace("replay", "show_table")), shown, "{index}");
    }
}
