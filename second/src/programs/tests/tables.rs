//! `show_table` and `crane_table`: what they print, refuse and say.

use super::*;

fn table(text: &str) -> (Status, String, String) {
    said("show_table", &encoded(text), false)
}

fn crane(text: &str) -> (Status, String, String) {
    said("crane_table", &encoded(text), false)
}

#[test]
fn the_small_program() {
    for (text, out) in [
        (
            "SETUP 2 4000 4000 255 255 255\nID 0\nX 100\nY 200\nPRESSURE 30\nREPORT\n",
            "following 0\n0 0 100 200 30 0 0\n1 -1 0 0 0 0 0\n",
        ),
        // The current slot is the one last set, reported or not.
        ("SETUP 2 9 9 9 9 9\nSLOT 1\nX 3\n", "following 1\n0 -1 0 0 0 0 0\n1 -1 0 0 0 0 0\n"),
        ("SETUP 1 1 1 1 9 9\n", "following 0\n0 -1 0 0 0 0 0\n"),
        // A reader that lost track is an answer and no refusal.
        ("SETUP 2 9 9 9 9 9\nSLOT 1\nDROPPED\n", "dropped 1\n"),
        ("SETUP 2 9 9 9 9 9\nSLOT 2\nREPORT\n", "stale 0\n"),
        // Slot lines end with both sizes.
        ("SETUP 1 9 9 9 9 9\nID 0\nPRESSURE 3\nMAJOR 9\nMINOR 7\nREPORT\n", "following 0\n0 0 0 0 3 9 7\n"),
        ("SETUP 1 9 9 9 9 9\nMAJOR 10\n", "dropped 0\n"),
    ] {
        assert_eq!(table(text), strings(Accepted, out, ""));
    }
}

#[test]
fn a_cut_record() {
    for cut in 1..8 {
        let text = format!("SETUP 1 1 1 1 9 9\nREPORT\nBYTES{}", " 00".repeat(cut));
        let words = format!("show_table: the last record is cut: {cut} of 8 bytes\n");
        assert_eq!(table(&text), strings(Refused, "refused 6\n", &words));
    }
}

/// Each refused setup with what is wrong, without the program's name.
fn refused_setups() -> Vec<(Vec<u8>, String)> {
    let good = encoded("SETUP 1 1 1 1 9 9\n");
    let mut setups: Vec<(Vec<u8>, String)> =
        (0..24).map(|length| (good[..length].to_vec(), format!("the setup is cut: {length} of 24 bytes\n"))).collect();
    for (numbers, wrong) in [
        ("0 1 1 1 1 1", "n is 0, and must be 1 to 32\n"),
        ("33 1 1 1 1 1", "n is 33, and must be 1 to 32\n"),
        ("1 0 1 1 1 1", "the largest x is 0, and must be 1 to 32767\n"),
        ("1 2147483649 1 1 1 1", "the largest x is 2147483649, and must be 1 to 32767\n"),
        ("32 32767 32768 255 255 255", "the largest y is 32768, and must be 1 to 32767\n"),
        ("1 1 1 256 1 1", "the largest pressure is 256, and must be 1 to 255\n"),
        ("1 1 1 1 0 1", "the largest major is 0, and must be 1 to 255\n"),
        ("1 1 1 1 255 256", "the largest minor is 256, and must be 1 to 255\n"),
    ] {
        setups.push((encoded(&format!("SETUP {numbers}\nBYTES 00")), wrong.to_string()));
    }
    setups
}

#[test]
fn each_refused_setup() {
    for (bytes, wrong) in refused_setups() {
        let words = format!("show_table: {wrong}");
        assert_eq!(said("show_table", &bytes, false), (Refused, "refused 1\n".to_string(), words));
        let words = format!("refused 1\nwrite_frames: {wrong}");
        assert_eq!(said("write_frames", &bytes, false), (Refused, String::new(), words));
    }
    assert_eq!(
        table("SETUP 4294967295 0 40000 0 300 0").2,
        "show_table: n is 4294967295, and must be 1 to 32\n\
         show_table: the largest x is 0, and must be 1 to 32767\n\
         show_table: the largest y is 40000, and must be 1 to 32767\n\
         show_table: the largest pressure is 0, and must be 1 to 255\n\
         show_table: the largest major is 300, and must be 1 to 255\n\
         show_table: the largest minor is 0, and must be 1 to 255\n"
    );
}

#[test]
fn what_is_said_of_a_setup_is_what_the_rules_say() {
    let edges = [0, 1, 16, 17, 32, 33, 255, 256, 32_767, 32_768, u32::MAX];
    for layout in Layout::ALL {
        let good = Setup { slots: 1, largest: [1; NUMBERS] }.known_to(layout);
        for edge in edges {
            for i in 0..1 + layout.numbers() {
                let mut setup = good;
                match i {
                    0 => setup.slots = u64::from(edge),
                    _ => setup.largest[i - 1] = edge,
                }
                assert_eq!(wrong_numbers(layout, &setup).is_empty(), setup.is_good(layout));
            }
        }
    }
}

#[test]
fn a_setup_that_a_failed_read_cut() {
    let bytes = encoded("SETUP 1 1 1 1 9 9\n");
    let words = format!("show_table: {LOST}show_table: the setup is cut: 9 of 24 bytes\n");
    assert_eq!(said("show_table", &bytes[..9], true), (Failed, "refused 1\n".to_string(), words));
    let words = format!("crane_table: {LOST}crane_table: the setup is cut: 16 of 24 bytes\n");
    assert_eq!(said("crane_table", &bytes[..16], true), (Failed, "refused 1\n".to_string(), words));
    let words = format!("write_frames: {LOST}refused 1\nwrite_frames: the setup is cut: 9 of 24 bytes\n");
    assert_eq!(said("write_frames", &bytes[..9], true), (Failed, String::new(), words));
}

#[test]
fn records_before_a_failed_read_and_the_one_it_cut() {
    let words = format!("show_table: {LOST}show_table: input was lost, which counts as SYN_DROPPED\n");
    for (text, out) in [
        ("SETUP 1 9 9 9 9 9\n", "dropped 0\n"),
        ("SETUP 2 9 9 9 9 9\nSLOT 1\nID 0\nREPORT\n", "dropped 1\n"),
        ("SETUP 1 9 9 9 9 9\nID 0\nREPORT\nBYTES 00 00 00\n", "dropped 0\n"),
        // Stale before: only SYN_DROPPED is heard then.
        ("SETUP 1 9 9 9 9 9\nDROPPED\nREPORT\n", "dropped 0\n"),
    ] {
        assert_eq!(said("show_table", &encoded(text), true), (Failed, out.to_string(), words.clone()));
    }
}

const HINT: &str = "show_table: most records were skipped: Linux's struct input_event has 24 bytes, and only the last 8 are a record here\n";

#[test]
fn the_hint_of_skipped_records() {
    let skip = "EVENT 1 330 1\n";
    for (records, hint) in [
        (skip.repeat(2), false),
        (skip.repeat(3), true),
        (skip.repeat(2) + "REPORT\n", true),
        (skip.repeat(2) + "REPORT\nREPORT\n", false),
        // While following alone: what is ignored does not count, and the SYN_DROPPED does.
        (skip.repeat(2) + "DROPPED\n" + &skip.repeat(20), true),
        (skip.repeat(2) + "REPORT\nDROPPED\n" + &skip.repeat(20), false),
        (skip.repeat(150) + &"REPORT\n".repeat(100), true),
        (skip.repeat(149) + &"REPORT\n".repeat(100), false),
    ] {
        let (status, out, err) = table(&format!("SETUP 1 9 9 9 9 9\n{records}"));
        assert_eq!((status, err.as_str()), (Accepted, if hint { HINT } else { "" }), "{records}");
        assert!(!out.starts_with("refused"));
    }
}

#[test]
fn the_hint_beside_a_refusal_and_a_loss() {
    let text = format!("SETUP 1 9 9 9 9 9\n{}", "EVENT 1 330 1\n".repeat(9));
    let (_, out, err) = table(&format!("{text}BYTES 00"));
    assert_eq!((out.as_str(), err.as_str()), ("refused 6\n", "show_table: the last record is cut: 1 of 8 bytes\n"));
    let (status, out, err) = said("show_table", &encoded(&text), true);
    assert_eq!((status, out.as_str()), (Failed, "dropped 0\n"));
    assert_eq!(err, format!("show_table: {LOST}show_table: input was lost, which counts as SYN_DROPPED\n{HINT}"));
}

/// A crane shows the first four numbers of what the panel shows.
#[test]
fn the_cranes_program() {
    for (text, out) in [
        (
            "SETUP 2 4000 4000 255 255 255\nID 0\nX 100\nY 200\nPRESSURE 30\nMAJOR 9\nMINOR 7\nREPORT\n",
            "following 0\n0 0 100 200 30\n1 -1 0 0 0\n",
        ),
        ("SETUP 2 9 9 9 9 9\nSLOT 1\nX 3\n", "following 1\n0 -1 0 0 0\n1 -1 0 0 0\n"),
        ("SETUP 1 9 9 9 9 9\nX 3\nDROPPED\n", "dropped 0\n"),
        ("SETUP 1 9 9 9 9 9\nX 10\nREPORT\n", "stale 0\n"),
        // Of the sizes it judges neither a value nor the largest ones.
        ("SETUP 1 9 9 9 9 9\nID 0\nMAJOR -5\nMINOR 4000\nREPORT\n", "following 0\n0 0 0 0 0\n"),
        ("SETUP 1 9 9 9 0 4294967295\nX 3\nREPORT\n", "following 0\n0 -1 3 0 0\n"),
    ] {
        assert_eq!(crane(text), strings(Accepted, out, ""));
    }
}

#[test]
fn each_setup_that_a_crane_refuses() {
    for (numbers, wrong) in [
        ("0 1 1 1 1 1", "n is 0, and must be 1 to 16\n"),
        ("17 1 1 1 1 1", "n is 17, and must be 1 to 16\n"),
        ("32 1 1 1 1 1", "n is 32, and must be 1 to 16\n"),
        ("16 32768 1 1 0 0", "the largest x is 32768, and must be 1 to 32767\n"),
        ("1 1 0 1 1 1", "the largest y is 0, and must be 1 to 32767\n"),
        ("1 1 1 256 300 0", "the largest pressure is 256, and must be 1 to 255\n"),
    ] {
        let words = format!("crane_table: {wrong}");
        assert_eq!(crane(&format!("SETUP {numbers}\nREPORT\n")), (Refused, "refused 1\n".to_string(), words));
    }
    // Sixteen bytes were a whole setup before the touch sizes came.
    let good = encoded("SETUP 1 1 1 1 1 1\n");
    for length in 0..24 {
        let words = format!("crane_table: the setup is cut: {length} of 24 bytes\n");
        assert_eq!(said("crane_table", &good[..length], false), (Refused, "refused 1\n".to_string(), words));
    }
}

#[test]
fn what_a_crane_says_of_cut_lost_and_skipped_records() {
    let cut = crane("SETUP 1 1 1 1 1 1\nREPORT\nBYTES 03 00 30");
    assert_eq!(cut, strings(Refused, "refused 6\n", "crane_table: the last record is cut: 3 of 8 bytes\n"));
    let lost = said("crane_table", &encoded("SETUP 1 9 9 9 9 9\nMAJOR 3\n"), true);
    let words = format!("crane_table: {LOST}crane_table: input was lost, which counts as SYN_DROPPED\n");
    assert_eq!(lost, (Failed, "dropped 0\n".to_string(), words));
    // The sizes are skipped records as any others are.
    let sizes = "SETUP 1 9 9 9 9 9\nMAJOR 3\nMINOR 2\nREPORT\n";
    assert_eq!(crane(sizes), strings(Accepted, "following 0\n0 -1 0 0 0\n", ""));
    assert_eq!(table(sizes), strings(Accepted, "following 0\n0 -1 0 0 0 3 2\n", ""));
}

/// What `write_frames` writes, read by both: the first four numbers are the same.
#[test]
fn frames_shown_by_both() {
    for index in 0..200 {
        let input = noise("write_frames", 3, index).unwrap();
        let (_, sent, _) = answers("write_frames", &input, usize::MAX, false);
        let (panel, crane) = (said("show_table", &sent, false), said("crane_table", &sent, false));
        // A wide panel is none of a crane's.
        let is_wide = header(&sent[..sent.len().min(HEADER)]).is_some_and(|setup| setup.slots > 16);
        assert_eq!(crane.1 == "refused 1\n", is_wide || panel.1 == "refused 1\n");
        if crane.1 != "refused 1\n" {
            let four = |line: &str| line.split(' ').take(5).collect::<Vec<_>>().join(" ") + "\n";
            assert_eq!(panel.1.lines().map(four).collect::<String>(), crane.1);
        }
    }
}
