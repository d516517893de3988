//! Scripts that show everything, and answers that are none.

use super::*;
use crate::maker::Maker;
use crate::programs::drive;
use crate::requests::Request;
use crate::script::answer_line;

#[test]
fn some_thousands_of_calls_show_everything() {
    for seed in [1, 2, 3] {
        let mut maker = Maker::with(seed, Request::ALL);
        // As many as tools/compare asks all of it of.
        let script: String = (0..20_000).map(|_| maker.lines()).collect();
        let mut answers = Vec::new();
        drive(script.as_bytes(), &mut answers, std::io::sink());
        let tally = Tally::of(&script, std::str::from_utf8(&answers).unwrap()).unwrap();
        assert_eq!(tally.missing(Request::ALL), [""; 0], "seed {seed}");
        for name in tally.seen.keys() {
            assert!(expected::all(Request::ALL).contains(name), "{name}");
        }
    }
}

#[test]
fn too_few_and_too_many_answers() {
    assert!(Tally::of("fresh 0 0 0 0 0 0\n", "").is_err());
    assert!(Tally::of("# nothing\n", "bad line\n").is_err());
}

/// A library that is wrong may answer anything, cut or long, to any line.
#[test]
fn any_line_with_any_answer_is_counted() {
    let mut maker = Maker::with(9, Request::ALL);
    let lines: Vec<String> =
        (0..400).map(|_| maker.next_line()).filter(|line| !is_passed_over(line.as_bytes())).collect();
    for line in lines.iter().map(String::as_str).chain(["stop", "  ", "fresh"]) {
        let right = answer_line(line.as_bytes());
        let cut = &right[..right.len() / 2];
        for answer in
            ["", " ", "0", "4", "5", "7", "unknown", "contact", " / ", BAD_LINE, "-1 x", cut, &format!("0 {right}")]
        {
            let tally = Tally::of(&format!("{line}\n"), &format!("{answer}\n")).unwrap();
            assert!(tally.report(Request::ALL).starts_with("1 calls"), "{line}, {answer}");
        }
    }
    for step in ["0 0 0 0 0 0 0 0 relative", "0 0 0 0 0 0 0 0 self-test", "0 0 0 0 0 0 0 0 stick"] {
        assert!(Tally::of("pod 0 0 0 0 0 0 0 0 1\n", &format!("{step}\n")).is_ok());
    }
}
