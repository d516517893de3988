//! The named cases: each is a call, each has its name, and the rows of the sheet follow from each other as document 01 says.

use second::brief::expand;
use second::script::{answer_line, is_passed_over, Call, BAD_LINE, WRITER_NUMBERS};

const CASES: &str = include_str!("../../cases.txt");
/// Those of the requests that `drive` did not always know.
const LATER: [&str; 5] = [
    include_str!("../../cases_recorder.txt"),
    include_str!("../../cases_force.txt"),
    include_str!("../../cases_commands.txt"),
    include_str!("../../cases_pointer.txt"),
    include_str!("../../cases_anonymous.txt"),
];

#[test]
fn every_case_is_a_named_call() {
    assert!(named_calls(CASES) > 100);
    assert!(LATER.into_iter().all(|cases| named_calls(cases) > 10));
}

/// How many calls these cases have.
fn named_calls(cases: &str) -> usize {
    let script = expand(cases).unwrap();
    let mut name = "";
    let mut calls = 0;
    for line in script.lines() {
        if line.starts_with('#') {
            name = line;
        } else if !is_passed_over(line.as_bytes()) {
            assert!(!name.is_empty());
            let answer = answer_line(line.as_bytes());
            assert_eq!(answer == BAD_LINE, name == "# a line that is no call", "{name}");
            // A name that begins with a number is a refusal of that number.
            if let Some(verdict) = name[2..].split([' ', ':']).next().filter(|word| {
                let is_digit = word.len() == 1 && word.as_bytes()[0].is_ascii_digit();
                (is_digit || name.starts_with("# 10: ")) && !name.starts_with("# 1 is not")
            }) {
                assert!(
                    answer.split(' ').next() == Some(verdict) || answer.ends_with(&format!("refused {verdict}")),
                    "{name}: {answer}"
                );
            }
            calls += 1;
        }
    }
    calls
}

#[test]
fn p2_to_p7_follow_the_row_before() {
    let script = expand(CASES).unwrap();
    let rows: Vec<&str> = script
        .lines()
        .skip_while(|line| !line.starts_with("# P1 "))
        .filter(|line| line.starts_with("write"))
        .take(7)
        .collect();
    let mut before: Option<String> = None;
    for row in rows {
        let Some(Call::Write { .. }) = Call::parse(row.as_bytes()) else {
            panic!("{row}");
        };
        let state = |words: &str| words.split(' ').skip(1).take(WRITER_NUMBERS).collect::<Vec<_>>().join(" ");
        if let Some(before) = before {
            assert_eq!(state(row), before);
        }
        before = Some(state(&answer_line(row.as_bytes())));
    }
}
