//! The programs held to docs/PROGRAMS.md: every word on both streams and the status, whole inputs and odd pieces, failed reads and writes.

mod anonymous;
mod commands;
mod force;
mod recording;
mod tables;

use super::*;
use crate::noise::noise;
use crate::trial::*;
use Status::{Accepted, Failed, Refused};

const LOST: &str = "a read from standard input failed: Input/output error\n";

/// Status, output and words for bytes that come in pieces and then end or are lost.
fn answers(program: &str, bytes: &[u8], size: usize, fails: bool) -> (Status, Vec<u8>, String) {
    let (mut out, mut err) = (Vec::new(), Vec::new());
    let status = run(program, Pieces { bytes, size, fails }, &mut out, &mut err).unwrap();
    (status, out, String::from_utf8(err).unwrap())
}

/// A program's answer where output is text, whatever the pieces.
fn said(program: &str, bytes: &[u8], fails: bool) -> (Status, String, String) {
    let (status, out, err) = answers(program, bytes, usize::MAX, fails);
    for size in [1, 3, 7] {
        assert_eq!(answers(program, bytes, size, fails), (status, out.clone(), err.clone()));
    }
    (status, String::from_utf8(out).unwrap(), err)
}

/// The same for `write_frames`, its output in words.
fn frames(text: &str, fails: bool) -> (Status, String, String) {
    let bytes = encoded(text);
    let (status, out, err) = answers("write_frames", &bytes, usize::MAX, fails);
    assert_eq!(answers("write_frames", &bytes, 5, fails), (status, out.clone(), err.clone()));
    (status, decoded(&out, false), err)
}

fn strings(status: Status, out: &str, err: &str) -> (Status, String, String) {
    (status, out.to_string(), err.to_string())
}

const SENT: &str = "write_frames: input was lost, so SYN_DROPPED was sent\n";

#[test]
fn frames_good_refused_and_cut() {
    let text = "SETUP 1 9 9 9 9 9\nFRAME 1 1 2 3 0 0\nFRAME 3 0 0 0 0 0\nFRAME 1 1 2 0 0 0\nFRAME 1 1 2 4 0 0\nFRAME 0 -7 0 0 0 0\n";
    let out = "SETUP 1 9 9 9 9 9\nID 0\nX 1\nY 2\nPRESSURE 3\nREPORT\nPRESSURE 4\nREPORT\nID -1\nREPORT\n";
    let err = "frame 2 refused 4\nframe 3 refused 4\n";
    assert_eq!(frames(text, false), strings(Refused, out, err));
    let cut = format!("{text}BYTES 01 00 00 00 05");
    let (out_cut, err_cut) = (format!("{out}DROPPED\n"), format!("{err}frame 6 refused 3\n{SENT}"));
    assert_eq!(frames(&cut, false), (Refused, out_cut.clone(), err_cut));
    // A frame that a failed read cut is no refusal.
    let err_lost = format!("{err}write_frames: {LOST}{SENT}");
    assert_eq!(frames(&cut, true), (Failed, out_cut.clone(), err_lost.clone()));
    assert_eq!(frames(text, true), (Failed, out_cut, err_lost));
}

#[test]
fn a_setup_alone_and_a_frame_cut_to_whole_numbers() {
    assert_eq!(frames("SETUP 1 9 9 9 9 9\n", false), strings(Accepted, "SETUP 1 9 9 9 9 9\n", ""));
    assert_eq!(
        frames("SETUP 1 9 9 9 9 9\nBYTES 01 00 00 00 01 00 00 00 01 00 00 00", false),
        (Refused, "SETUP 1 9 9 9 9 9\nDROPPED\n".to_string(), format!("frame 1 refused 3\n{SENT}"))
    );
    assert_eq!(
        frames("SETUP 1 9 9 9 9 9\n", true),
        (Failed, "SETUP 1 9 9 9 9 9\nDROPPED\n".to_string(), format!("write_frames: {LOST}{SENT}"))
    );
}

#[test]
fn pod_lines() {
    let bytes = [
        0x75, 0xF0, 0xF0, 0xF5, 0x00, 0xF8, 0x80, 0x7F, 0xFE, 0x81, 0xFF, 0x10, 0xF7, 0x05, 0x01, 0x2C, 0x00, 0xC8,
        0xFD, 0x00, 0x81, 0xFF, 0x0F, 0xF7, 0x10,
    ];
    let lines =
        "down 117\nself-test passed\nup 112\nup 117\nbad byte\nrelative 0 0 -128 127\nstick 0 1 1\nbad report\n\
                 absolute 5 300 200\nsticks 0 0 1 1\nstick 1 0 15\n";
    assert_eq!(said("show_pod", &bytes, false), (Accepted, format!("{lines}more\n"), String::new()));
    assert_eq!(said("show_pod", &bytes[..23], false), strings(Accepted, lines, ""));
    let lost = format!("{lines}input lost\n");
    for length in [23, 25] {
        assert_eq!(said("show_pod", &bytes[..length], true), (Failed, lost.clone(), format!("show_pod: {LOST}")));
    }
}

#[test]
fn lines_of_a_script() {
    let script = b"# a name\n\npod 1 0 0 0 0 0 0 0 0\npod 0 0 0 0 0 0 0 0 254";
    assert_eq!(
        said("drive", script, false),
        strings(Accepted, "1 0 0 0 0 0 0 0 bad byte\n0 1 254 0 0 0 0 0 more\n", "")
    );
    // The cut line is left unanswered, though it would be a call.
    let answered = "1 0 0 0 0 0 0 0 bad byte\n".to_string();
    assert_eq!(said("drive", script, true), (Failed, answered, format!("drive: {LOST}")));
    assert_eq!(said("drive", b"start\nstop\nstart\n", false).0, Refused);
    // A call that is refused is an answer.
    assert_eq!(said("drive", b"fresh 0 1 1 1 1 1\n", false).0, Accepted);
}

#[test]
fn long_lines_of_a_script() {
    let line = |length: usize| format!("start{}", " ".repeat(length - 5));
    let comment = format!("#{}", line(300_000));
    for (lines, out) in [
        (
            vec![line(LONGEST_LINE), line(LONGEST_LINE + 1), line(300_000), line(5)],
            "1 0 0 0 0 0 0 0\nbad line\nbad line\n1 0 0 0 0 0 0 0\n",
        ),
        (vec![line(300_000), comment.clone(), line(LONGEST_LINE + 1)], "bad line\nbad line\n"),
        (vec![line(300_000), comment], "bad line\n"),
    ] {
        let (status, said, _) = answers("drive", lines.join("\n").as_bytes(), 60_000, false);
        assert_eq!((status, String::from_utf8(said).unwrap().as_str()), (Refused, out));
    }
}

#[test]
fn a_slow_input_is_answered_as_it_comes() {
    let talk = |program: &str, turns: &[(&[u8], &[u8])], after: &[u8]| {
        let seen = Seen::default();
        run(program, Talk { turns, seen: seen.clone() }, seen.clone(), io::sink());
        assert_eq!(*seen.0.borrow(), after);
    };
    talk("show_pod", &[(b"\x01\xF8", b""), (b"\0\0", b"down 1\n")], b"down 1\nrelative 0 0 0 0\n");
    talk("drive", &[(b"start\nsta", b""), (b"rt\n", b"1 0 0 0 0 0 0 0\n")], b"1 0 0 0 0 0 0 0\n1 0 0 0 0 0 0 0\n");
    let input = encoded("SETUP 1 9 9 9 9 9\nFRAME 1 0 0 1 0 0\nFRAME 0 0 0 0 0 0\n");
    let output = encoded("SETUP 1 9 9 9 9 9\nID 0\nPRESSURE 1\nREPORT\nID -1\nREPORT\n");
    talk(
        "write_frames",
        &[(&input[..24], b""), (&input[24..60], &output[..24]), (&input[60..], &output[..48])],
        &output,
    );
}

#[test]
fn a_failed_write_is_said_and_ends_the_program() {
    for (program, bytes) in [
        ("show_table", encoded("SETUP 1 9 9 9 9 9\n")),
        ("crane_table", encoded("SETUP 1 9 9 9 9 9\n")),
        ("write_frames", encoded("SETUP 1 9 9 9 9 9\nFRAME 1 0 0 1 0 0\nFRAME 3 0 0 0 0 0\n")),
        ("show_pod", vec![1; 20]),
        ("record", encoded("SETUP 1 9 9 9 9 9\nX 1\n")),
        ("replay", encoded("SETUP 1 9 9 9 9 9\n")),
        ("show_force", [43, 2, 0, 41].repeat(8)),
        ("write_force", vec![0; 63]),
        ("show_commands", vec![8; 20]),
        ("write_commands", b"set clock 00 00 00 00 00 00\n".repeat(10)),
        ("write_anonymous", encoded("SETUP 1 9 9 9 9 9\nX 1\nY 1\nPRESSURE 1\nMT_REPORT\nREPORT\nREPORT\n")),
        ("drive", b"start\nstart\nstart\n".to_vec()),
    ] {
        for room in (0..60).chain([500, 536]) {
            let (mut out, mut err) = (Full { taken: Vec::new(), room }, Vec::new());
            let status = run(program, Pieces { bytes: &bytes, size: 16, fails: true }, &mut out, &mut err).unwrap();
            let words = String::from_utf8(err).unwrap();
            let whole = answers(program, &bytes, 16, true).1;
            assert_eq!((status, &out.taken), (Failed, &whole[..room.min(whole.len())].to_vec()));
            let failed = format!("{program}: a write to standard output failed: No space left on device\n");
            assert_eq!(words.ends_with(&failed), room < whole.len(), "{words}");
            // What is said to have been sent was sent.
            let tells = ["write_frames", "record", "write_anonymous"].contains(&program) && room >= whole.len();
            assert_eq!(words.contains("was sent") || words.contains("was recorded"), tells);
        }
    }
}

#[test]
fn words_that_nobody_takes_count_as_a_failure_and_leave_no_hole() {
    let bytes = encoded("SETUP 1 9 9 9 9 9\nFRAME 1 0 0 0 0 0\nFRAME 1 0 0 1 0 0\n");
    let mut out = Vec::new();
    assert_eq!(write_frames(&bytes[..], &mut out, Full { taken: Vec::new(), room: 5 }, false), Failed);
    assert_eq!(decoded(&out, false), "SETUP 1 9 9 9 9 9\nID 0\nPRESSURE 1\nREPORT\n");
}

/// More than a buffer, whose end falls inside records, frames and reports.
#[test]
fn long_inputs_are_answered_as_in_one_piece() {
    let records =
        encoded(&("SETUP 3 9 9 9 9 9\n".to_string() + &"SLOT 1\nX 3\nMAJOR 4\nSLOT 2\nY 2\nREPORT\n".repeat(5_000)));
    let frame =
        "FRAME 1 1 1 1 0 0  2 2 2 2 0 0  0 0 0 0 0 0  3 0 0 0 0 0  1 9 9 9 0 0\nFRAME 1 1 2 1 0 0  2 2 2 2 0 0  0 0 0 0 0 0  0 0 0 0 0 0  1 9 9 9 0 0\n";
    let packets = "X 1\nY 2\nPRESSURE 3\nMT_REPORT\nX 2\nY 2\nPRESSURE 3\nMT_REPORT\nREPORT\nX 2\nREPORT\n";
    let inputs = [
        ("show_table", records.clone()),
        ("record", records.clone()),
        ("replay", answers("record", &records, usize::MAX, false).1),
        ("crane_table", records),
        ("write_frames", encoded(&("SETUP 5 9 9 9 9 9\n".to_string() + &frame.repeat(2_000)))),
        ("show_force", [43, 1, 8, 1, 0, 254, 255, 3, 164, 101, 249, 25, 43, 43, 1, 7].repeat(5_000)),
        ("write_force", [1, 2, 3, 4, 5, 6, 7, 8, 9].repeat(8_000)),
        ("show_commands", [0x1B, 0x99, 1, 2, 3, 4, 0x5A, 8, 0x80, 1, 9, 1, 2, 3, 4].repeat(6_000)),
        ("write_commands", b"reset\nabsolute 640 400\nbuttons 5\nno\n".repeat(3_000)),
        ("write_anonymous", encoded(&("SETUP 3 9 9 9 9 9\n".to_string() + &packets.repeat(3_000)))),
        ("show_pod", [0xF7, 1, 2, 3, 4, 5, 0xFD, 0x80, 0, 0x11].repeat(20_000)),
        ("drive", b"crane_fresh 1 2 3 4\nfresh 1 2 3 4 5 6\nstart\nno\n".repeat(3_000)),
    ];
    for (program, bytes) in inputs {
        let whole = answers(program, &bytes, usize::MAX, false);
        assert!(bytes.len() > 65_536);
        for size in [1, 1_021, 65_535] {
            assert!(answers(program, &bytes, size, false) == whole, "{program} in pieces of {size}");
        }
    }
}

#[test]
fn noise_is_answered_and_tries_every_word_of_the_page() {
    let mut seen = String::new();
    for program in NAMES.into_iter().chain([WITH_POINTER]) {
        for index in 0..400 {
            let bytes = noise(program, 1, index).unwrap();
            let whole = answers(program, &bytes, usize::MAX, false);
            assert!(answers(program, &bytes, 11, false) == whole, "{program} {index}");
            seen += &whole.2;
            let is_bytes = ["write_frames", WITH_POINTER, "record", "write_force", "write_commands", "write_anonymous"];
            if !is_bytes.contains(&program) {
                seen += &String::from_utf8(whole.1).unwrap();
            }
        }
    }
    for part in [
        "following 0\n",
        "dropped 0\n",
        "stale 0\n",
        "refused 1\n",
        "refused 6\n",
        "show_table: the setup is cut: 0 of 24",
        "show_table: the setup is cut: 23 of 24",
        "write_frames: the setup is cut: 23 of 24",
        "crane_table: the setup is cut: 16 of 24",
        "crane_table: the setup is cut: 23 of 24",
        "the last record is cut: 1 of 8",
        "the last record is cut: 7 of 8",
        "frame 1 refused 3\n",
        "frame 2 refused 4\n",
        "write_anonymous: the setup is cut: 23 of 24",
        "frame 1 refused 6\n",
        "frame 1 refused 9\n",
        "frame 1 refused 10\n",
        " refused: over 4096 records\n",
        "show_table: most records were skipped",
        "crane_table: most records have an unknown type",
        "record: the setup is cut: 23 of 24",
        "record: the last record is cut: 7 of 8",
        "replay: the setup is cut: 23 of 24",
        "block 1 refused: wrong check\n",
        "refused: wrong number\n",
        "refused: count over 62\n",
        "refused: not zero\n",
        "force ",
        "not for us 1 0\n",
        "length over 16\n",
        "wrong check\n",
        "unfinished\n",
        "report 1 refused 4\n",
        " cut\n",
        "; the hat is ",
        "reset\n",
        "set clock ",
        "lost\n",
        "not for us\n",
        "refused 11\n",
        "line 1 refused 11\n",
        "line 1 is not a command\n",
        "time ",
        "more\n",
        "self-test passed\n",
        "up 112\n",
        "bad report\n",
        "bad line\n",
    ] {
        assert!(seen.contains(part), "{part}");
    }
    for program in ["show_table", "write_frames", "crane_table", "record", "replay", "write_anonymous"] {
        for (i, number) in ["n"].iter().chain(&LARGEST).enumerate() {
            let is_judged = program != "crane_table" || i < 4;
            assert_eq!(seen.contains(&format!("{program}: {number} is ")), is_judged, "{program}: {number}");
        }
    }
}
