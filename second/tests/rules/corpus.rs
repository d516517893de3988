//! The kept corpus, crates/drive/stdin and stdout: what the gate runs drive on is what this program makes and answers.

use std::fs::{self, File};
use std::path::PathBuf;
use std::process::{Command, Output, Stdio};

/// One of the corpus's two files; data alone is read there.
fn kept(name: &str) -> PathBuf {
    PathBuf::from(env!("CARGO_MANIFEST_DIR")).join("../crates/drive").join(name)
}

fn second(words: &[&str], input: Stdio) -> Output {
    Command::new(env!("CARGO_BIN_EXE_second")).args(words).stdin(input).output().unwrap()
}

/// The first line that differs, since both texts have hundreds of thousands of bytes.
fn assert_same(made: &[u8], kept: &[u8], what: &str) {
    let lines = |text: &[u8]| String::from_utf8_lossy(text).lines().map(str::to_string).collect::<Vec<_>>();
    let (made_lines, kept_lines) = (lines(made), lines(kept));
    for (i, (made, kept)) in made_lines.iter().zip(&kept_lines).enumerate() {
        assert_eq!(made, kept, "line {} of {what}; tools/corpus makes the corpus anew", i + 1);
    }
    assert!(made == kept, "{what}: {} lines here and {} kept", made_lines.len(), kept_lines.len());
}

#[test]
fn the_kept_answers_are_ours() {
    let answered = second(&["answer"], File::open(kept("stdin")).unwrap().into());
    // It has lines that are no call.
    assert_eq!(answered.status.code(), Some(1));
    assert_same(&answered.stdout, &fs::read(kept("stdout")).unwrap(), "the answers");
}

#[test]
fn the_kept_script_is_what_the_cases_and_the_maker_make() {
    let script = fs::read_to_string(kept("stdin")).unwrap();
    let made_by = script.lines().find_map(|line| line.strip_prefix("# second script ")).unwrap();
    let (rounds, seed) = made_by.split_once(' ').unwrap();
    let mut made = second(&["cases"], Stdio::null()).stdout;
    made.extend(second(&["script", rounds, seed], Stdio::null()).stdout);
    assert_same(&made, script.as_bytes(), "the script");
}
