//! The kept examples of `write_anonymous`: what each is to write and to say was worked out by hand.

use std::fs;
use std::path::PathBuf;

use crate::common::in_bytes;
use second::programs::run;
use second::records::decode;
use second::streams::Status;

fn file(case: &str, part: &str) -> Option<Vec<u8>> {
    let folder = PathBuf::from(env!("CARGO_MANIFEST_DIR")).join("../examples/write_anonymous");
    fs::read(folder.join(format!("{case}.{part}"))).ok()
}

/// A kept example, and by hand what is written behind its setup, what is said and the status.
fn example(case: &str, events: &str, said: &str, status: Status) {
    let input = file(case, "in").unwrap();
    let (mut out, mut err) = (Vec::new(), Vec::new());
    assert_eq!(run("write_anonymous", &input[..], &mut out, &mut err), Some(status), "{case}");
    let kept = (file(case, "out").unwrap(), file(case, "err").unwrap_or_default());
    assert_eq!((&out, &err), (&kept.0, &kept.1), "{case}");
    let number = file(case, "status").map_or("0\n".to_string(), |digit| String::from_utf8(digit).unwrap());
    assert_eq!(number, format!("{}\n", status.number()), "{case}");
    let written = [&input[..24], &in_bytes(events)].concat();
    let text = |bytes: &[u8]| {
        let mut text = Vec::new();
        decode(bytes, &mut text, std::io::sink(), false);
        String::from_utf8(text).unwrap()
    };
    assert_eq!(text(&out), text(&written), "{case}");
    assert_eq!(String::from_utf8(err).unwrap(), said, "{case}");
}

/// Every kept example that is answered with records and without a refusal.
#[test]
fn examples_of_good_frames() {
    let landed = "ID 0, X 100, Y 200, PRESSURE 30, REPORT";
    for (case, behind) in [
        ("one_finger", "X 101, REPORT, ID -1, REPORT"),
        ("skipped", "X 101, REPORT"),
        ("empty_packets", "ID -1, REPORT"),
        ("report_twice", "ID -1, REPORT"),
    ] {
        example(case, &format!("{landed}, {behind}"), "", Status::Accepted);
    }
    example("setup_alone", "", "", Status::Accepted);
}

/// Slot 0 is the finger that goes right: 1,600 and 1,600 as it passes the other, and not 3,600 and 3,600. On one line the fingers seem to turn back, and the third frame changes nothing.
#[test]
fn examples_of_two_that_cross() {
    let two = |y: u32| format!("ID 0, X 100, Y 200, PRESSURE 30, SLOT 1, ID 1, X 300, Y {y}, PRESSURE 30, REPORT");
    let nearer = "X 220, SLOT 0, X 180, REPORT";
    let cross = [&two(260), nearer, "X 220, SLOT 1, X 180, REPORT", "X 100, SLOT 0, X 300, REPORT"];
    example("two_cross", &cross.join(", "), "", Status::Accepted);
    let turn = [&two(200), nearer, "X 100, SLOT 1, X 300, REPORT"];
    example("turn_back", &turn.join(", "), "", Status::Accepted);
}

/// Four equal distances twice, the second time with the new contacts in the other order, and then one contact between the two: the lower slot keeps it.
#[test]
fn examples_of_ties_and_squares() {
    let two = |at: &str| format!("ID 0, PRESSURE 30, SLOT 1, ID 1, {at}, PRESSURE 30, REPORT");
    let tie =
        [&two("X 2, Y 2"), "Y 0, SLOT 0, Y 2, REPORT", "Y 0, SLOT 1, Y 2, REPORT", "ID -1, SLOT 0, X 1, Y 1, REPORT"];
    example("tie", &tie.join(", "), "", Status::Accepted);
    example("squares", &format!("{}, X 20, SLOT 0, X 10, REPORT", two("X 10")), "", Status::Accepted);
}

#[test]
fn examples_of_more_old_and_more_new() {
    let old = [
        "ID 0, PRESSURE 30, SLOT 1, ID 1, X 5, Y 5, PRESSURE 30, SLOT 2, ID 2, X 9, Y 9, PRESSURE 30, REPORT",
        "ID -1, SLOT 0, ID -1, SLOT 1, Y 6, REPORT",
    ];
    example("more_old", &old.join(", "), "", Status::Accepted);
    let new = [
        "ID 0, X 100, Y 100, PRESSURE 30, SLOT 1, ID 1, X 500, Y 500, PRESSURE 30, REPORT",
        "SLOT 0, ID -1, REPORT",
        "ID 2, SLOT 1, X 510, SLOT 2, ID 3, X 900, Y 900, PRESSURE 30, REPORT",
    ];
    example("more_new", &new.join(", "), "", Status::Accepted);
}

const LOSS: &str = "write_anonymous: input was lost, so SYN_DROPPED was sent\n";

#[test]
fn examples_that_are_refused() {
    let landed = "ID 0, X 100, Y 200, PRESSURE 30, REPORT";
    for (case, behind, said) in [
        ("more_than_n", "SLOT 1, ID 1, X 300, Y 200, PRESSURE 30, REPORT", "frame 2 refused 9\n"),
        ("not_closed", "X 102, REPORT", "frame 2 refused 10\nframe 3 refused 10\n"),
        ("repeated", "X 102, REPORT", "frame 2 refused 4\n"),
        ("dropped", "X 102, REPORT", "frame 2 refused 10\n"),
        (
            "out_of_range",
            "X 4000, Y 4000, PRESSURE 255, REPORT",
            "frame 2 refused 4\nframe 3 refused 4\nframe 4 refused 4\nframe 5 refused 4\n",
        ),
        ("too_long", "X 102, REPORT", "frame 2 refused: over 4096 records\n"),
        ("cut_record", "DROPPED", &format!("frame 2 refused 6\n{LOSS}")),
        ("rest", "DROPPED", &format!("frame 2 refused 10\n{LOSS}")),
    ] {
        example(case, &format!("{landed}, {behind}"), said, Status::Refused);
    }
    let landing = |s: u32| {
        let slot = if s == 0 { String::new() } else { format!("SLOT {s}, ") };
        format!("{slot}ID {s}, X {}, Y 100, PRESSURE 30", 100 * (s + 1))
    };
    let five: Vec<String> = (0..5).map(landing).collect();
    let end = "ID -1, SLOT 0, ID -1, SLOT 1, ID -1, SLOT 2, ID -1, SLOT 3, ID -1, REPORT";
    let events = format!("{}, REPORT, {end}", five.join(", "));
    example("sixth_contact", &events, "frame 2 refused 9\n", Status::Refused);
}

/// Nothing is written, the setup neither.
#[test]
fn examples_of_refused_setups() {
    for (case, wrong) in [("empty", "the setup is cut: 0 of 24 bytes"), ("no_slots", "n is 0, and must be 1 to 32")] {
        let input = file(case, "in").unwrap();
        let (mut out, mut err) = (Vec::new(), Vec::new());
        assert_eq!(run("write_anonymous", &input[..], &mut out, &mut err), Some(Status::Refused));
        assert_eq!((&out, file(case, "out")), (&Vec::new(), Some(Vec::new())));
        assert_eq!(String::from_utf8(err.clone()).unwrap(), format!("refused 1\nwrite_anonymous: {wrong}\n"));
        assert_eq!((file(case, "err"), file(case, "status")), (Some(err), Some(b"1\n".to_vec())));
    }
}

/// No example is left out above, and each is shown as kept.
#[test]
fn every_example_is_tested() {
    let folder = PathBuf::from(env!("CARGO_MANIFEST_DIR")).join("../examples/write_anonymous");
    let names = fs::read_dir(folder).unwrap().map(|entry| entry.unwrap().file_name().into_string().unwrap());
    let cases: Vec<String> = names.filter_map(|name| name.strip_suffix(".in").map(str::to_string)).collect();
    assert_eq!(cases.len(), 22);
    for case in cases {
        let Some(shown) = file(&case, "shown") else {
            assert!(file(&case, "out").unwrap().is_empty(), "{case}");
            continue;
        };
        let mut out = Vec::new();
        let status = run("show_table", &file(&case, "out").unwrap()[..], &mut out, std::io::sink());
        assert_eq!((status, out), (Some(Status::Accepted), shown), "{case}");
    }
}
