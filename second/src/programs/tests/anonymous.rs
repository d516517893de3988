//! `write_anonymous`: words, statuses, where a frame ends, and how long one may be.

use super::*;

const SETUP: &str = "SETUP 2 9 9 9 9 9\n";
const LOSS: &str = "write_anonymous: input was lost, so SYN_DROPPED was sent\n";

/// Status, records in words without the setup, and what is said, whatever the pieces.
fn panel_in(bytes: &[u8], sizes: &[usize], fails: bool) -> (Status, String, String) {
    let (status, out, err) = answers("write_anonymous", bytes, usize::MAX, fails);
    for size in sizes {
        assert!(answers("write_anonymous", bytes, *size, fails) == (status, out.clone(), err.clone()), "{size}");
    }
    let text = decoded(&out, false);
    (status, text.strip_prefix(SETUP).unwrap_or(&text).to_string(), err)
}

fn panel(text: &str, fails: bool) -> (Status, String, String) {
    panel_in(&encoded(&format!("{SETUP}{text}")), &[1, 3, 8, 13, 40], fails)
}

fn contact(x: u32, y: u32) -> String {
    format!("X {x}\nY {y}\nPRESSURE 3\nMT_REPORT\n")
}

#[test]
fn frames_good_and_refused() {
    let text = [
        &contact(1, 2),
        "REPORT\n",
        // Three contacts of two slots, a contact that lacks two numbers, and one out of range.
        &contact(1, 2).repeat(3),
        "REPORT\n",
        "X 1\nMT_REPORT\nREPORT\n",
        &contact(10, 2),
        "REPORT\n",
        // It stays; another lands; a loss; both lift.
        &contact(1, 2),
        "REPORT\n",
        &contact(9, 9),
        &contact(1, 2),
        "EVENT 0 0 7\n",
        "DROPPED\nREPORT\n",
        "REPORT\n",
    ]
    .concat();
    let out = "ID 0\nX 1\nY 2\nPRESSURE 3\nREPORT\nSLOT 1\nID 1\nX 9\nY 9\nPRESSURE 3\nREPORT\nID -1\nSLOT 0\nID -1\nREPORT\n";
    let err = "frame 2 refused 9\nframe 3 refused 10\nframe 4 refused 4\nframe 7 refused 10\n";
    assert_eq!(panel(&text, false), strings(Refused, out, err));
    let (out, err) = (format!("{out}DROPPED\n"), format!("{err}write_anonymous: {LOST}{LOSS}"));
    assert_eq!(panel(&text, true), (Failed, out, err));
}

#[test]
fn a_setup_alone_and_refused_ones() {
    assert_eq!(panel("", false), strings(Accepted, "", ""));
    assert_eq!(panel("REPORT\nREPORT\n", false), strings(Accepted, "", ""));
    assert_eq!(panel("", true), (Failed, "DROPPED\n".to_string(), format!("write_anonymous: {LOST}{LOSS}")));
    for (bytes, wrong) in [
        (Vec::new(), "the setup is cut: 0 of 24 bytes"),
        (encoded(SETUP)[..23].to_vec(), "the setup is cut: 23 of 24 bytes"),
        (encoded("SETUP 33 9 9 9 9 9\nREPORT\n"), "n is 33, and must be 1 to 32"),
    ] {
        let err = format!("refused 1\nwrite_anonymous: {wrong}\n");
        assert_eq!(panel_in(&bytes, &[1, 5], false), strings(Refused, "", &err));
    }
}

/// A rest has no SYN_REPORT, so it is refused; what was lost of it nobody knows.
#[test]
fn a_rest_at_the_end() {
    let first = format!("{}REPORT\n", contact(1, 2));
    let out = "ID 0\nX 1\nY 2\nPRESSURE 3\nREPORT\nDROPPED\n";
    for (rest, number) in [
        (contact(1, 2), 10),
        ("X 1\n".to_string(), 10),
        ("EVENT 1 330 1\n".to_string(), 10),
        ("DROPPED\n".to_string(), 10),
        ("BYTES 00\n".to_string(), 6),
        ("BYTES 00 00 00 00 00 00 00\n".to_string(), 6),
        (contact(1, 2).repeat(3), 9),
        (contact(1, 2).repeat(3) + "BYTES 00\n", 6),
    ] {
        let err = format!("frame 2 refused {number}\n{LOSS}");
        assert_eq!(panel(&format!("{first}{rest}"), false), strings(Refused, out, &err), "{rest}");
        // What a failed read cut is no refusal.
        let err = format!("write_anonymous: {LOST}{LOSS}");
        assert_eq!(panel(&format!("{first}{rest}"), true), strings(Failed, out, &err), "{rest}");
    }
}

/// So many records that are skipped, in front of a frame.
fn stretched(records: usize) -> Vec<u8> {
    encoded(&("EVENT 1 330 1\n".repeat(records - 5) + &contact(1, 2) + "REPORT\n"))
}

const SIZES: [usize; 4] = [7, 1_000, 32_768, 65_535];

#[test]
fn frames_as_long_as_may_be_and_longer() {
    let (landed, moved) = ("ID 0\nX 1\nY 2\nPRESSURE 3\nREPORT\n", "X 2\nREPORT\n");
    let next = encoded(&format!("{}REPORT\n", contact(2, 2)));
    let with = |frames: &[&[u8]]| [&[&encoded(SETUP)[..]], frames].concat().concat();
    let over = |k: usize| format!("frame {k} refused: over 4096 records\n");
    let longest = stretched(MOST_RECORDS);
    let bytes = with(&[&longest, &next, &longest]);
    assert_eq!(panel_in(&bytes, &SIZES, false), strings(Accepted, &format!("{landed}{moved}X 1\nREPORT\n"), ""));
    // One record more, and very many: nothing is sent, and the next frame goes on from the table as it was.
    for records in [MOST_RECORDS + 1, MOST_RECORDS + 2, 3 * MOST_RECORDS] {
        let bytes = with(&[&longest, &stretched(records), &next, &stretched(records)]);
        let err = over(2) + &over(4);
        assert_eq!(panel_in(&bytes, &SIZES, false), strings(Refused, &format!("{landed}{moved}"), &err));
    }
}

#[test]
fn a_long_rest() {
    let with = |records: usize, cut: usize| {
        encoded(&format!("{SETUP}{}BYTES{}\n", "EVENT 1 330 1\n".repeat(records), " 00".repeat(cut)))
    };
    for (records, cut, said) in [
        (MOST_RECORDS, 0, "frame 1 refused 10\n"),
        (MOST_RECORDS - 1, 7, "frame 1 refused 6\n"),
        (MOST_RECORDS, 1, "frame 1 refused: over 4096 records\n"),
        (MOST_RECORDS + 1, 0, "frame 1 refused: over 4096 records\n"),
        (4 * MOST_RECORDS, 3, "frame 1 refused: over 4096 records\n"),
    ] {
        let err = format!("{said}{LOSS}");
        assert_eq!(panel_in(&with(records, cut), &SIZES, false), strings(Refused, "DROPPED\n", &err), "{records}");
        // The limit is told as soon as it is passed, so before a read fails; all else of a cut frame is not.
        let told = if said.contains("over") { said } else { "" };
        let err = format!("{told}write_anonymous: {LOST}{LOSS}");
        assert_eq!(panel_in(&with(records, cut), &SIZES, true), strings(Failed, "DROPPED\n", &err), "{records}");
    }
}

#[test]
fn a_frame_is_sent_when_its_report_came() {
    let input = encoded(&format!("{SETUP}{}REPORT\nREPORT\n", contact(1, 2)));
    let output = encoded(&format!("{SETUP}ID 0\nX 1\nY 2\nPRESSURE 3\nREPORT\nID -1\nREPORT\n"));
    let turns: [(&[u8], &[u8]); 4] = [
        (&input[..24], b""),
        (&input[24..63], &output[..24]),
        (&input[63..64], &output[..24]),
        (&input[64..], &output[..64]),
    ];
    let seen = Seen::default();
    write_anonymous(Talk { turns: &turns, seen: seen.clone() }, seen.clone(), io::sink());
    assert_eq!(*seen.0.borrow(), output);
}

/// A reader that is given what is written follows to the end, whatever frames were refused, unless it is told of a loss.
#[test]
fn what_is_written_is_shown() {
    let (mut followed, mut sent) = (0, 0);
    for index in 0..300 {
        let bytes = noise("write_anonymous", 4, index).unwrap();
        let (_, out, err) = answers("write_anonymous", &bytes, usize::MAX, false);
        if out.is_empty() {
            continue;
        }
        let shown = said("show_table", &out, false);
        assert_eq!(shown.1.starts_with("following"), !err.contains("SYN_DROPPED"), "{index}");
        followed += u32::from(shown.1.starts_with("following"));
        sent += out.len();
    }
    assert!(followed > 40 && sent > 60_000, "{followed} {sent}");
}
