//! The built program as a process: exit status and words, with streams that the system makes fail.

use std::fs::{self, File, OpenOptions};
use std::io::Write;
use std::process::{Command, Output, Stdio};
use std::sync::{Mutex, MutexGuard, PoisonError};

const SETUP: [u8; 24] = [1, 0, 0, 0, 9, 0, 0, 0, 9, 0, 0, 0, 9, 0, 0, 0, 9, 0, 0, 0, 9, 0, 0, 0];
const PROGRAMS: [&str; 12] = [
    "show_table",
    "crane_table",
    "write_frames",
    "show_pod",
    "record",
    "replay",
    "show_force",
    "write_force",
    "show_commands",
    "write_commands",
    "write_anonymous",
    "drive",
];

/// Tests take turns: a process that another one has just begun still holds the pipes of this one, and a closed one would not be closed.
fn turn() -> MutexGuard<'static, ()> {
    static ONE: Mutex<()> = Mutex::new(());
    ONE.lock().unwrap_or_else(PoisonError::into_inner)
}

fn second(words: &[&str]) -> Command {
    let mut command = Command::new(env!("CARGO_BIN_EXE_second"));
    command.args(words).stdout(Stdio::piped()).stderr(Stdio::piped());
    command
}

/// Every write to it fails.
fn full() -> File {
    OpenOptions::new().write(true).open("/dev/full").unwrap()
}

fn output(command: &mut Command, bytes: &[u8]) -> Output {
    let mut child = command.stdin(Stdio::piped()).spawn().unwrap();
    // A program that ends before it read everything closes its end.
    let _ = child.stdin.take().unwrap().write_all(bytes);
    child.wait_with_output().unwrap()
}

fn check(output: &Output, status: i32, err: &str) {
    assert_eq!((output.status.code(), String::from_utf8_lossy(&output.stderr).as_ref()), (Some(status), err));
}

#[test]
fn accepted_and_refused() {
    let _turn = turn();
    let run = |program: &str, bytes: &[u8]| output(&mut second(&[program]), bytes).status.code();
    let frame = |kind: u8| [&SETUP[..], &[kind, 0, 0, 0], &[0; 8], &[1, 0, 0, 0], &[0; 8]].concat();
    for program in ["show_table", "crane_table", "record", "replay"] {
        assert_eq!(run(program, &SETUP), Some(0));
        assert_eq!(run(program, &SETUP[..23]), Some(1));
        assert_eq!(run(program, &SETUP[..16]), Some(1));
    }
    assert_eq!(run("write_frames", &frame(1)), Some(0));
    assert_eq!(run("write_frames", &frame(3)), Some(1));
    let pointing = |bytes: &[u8]| output(&mut second(&["write_frames", "--pointer"]), bytes);
    assert_eq!(pointing(&frame(3)).status.code(), Some(1));
    // BTN_TOUCH, the id, pressure, the tool and the report, behind the setup.
    let told = pointing(&frame(1));
    assert_eq!((told.status.code(), told.stdout.len()), (Some(0), 24 + 5 * 8));
    assert_eq!(told.stdout[24..32], [1, 0, 0x4a, 1, 1, 0, 0, 0]);
    assert_eq!(run("show_pod", &[0, 0xF7]), Some(0));
    assert_eq!(run("show_force", &[0, 43, 2, 0, 41]), Some(0));
    for refused in [&[43][..], &[43, 1, 17], &[43, 2, 0, 40]] {
        assert_eq!(run("show_force", refused), Some(1));
    }
    assert_eq!(run("show_commands", &[0x80, 1, 0x80, 2, 0]), Some(0));
    assert_eq!(run("show_commands", &[0x07, 5]), Some(1));
    assert_eq!(run("show_commands", &[0x80]), Some(1));
    assert_eq!(run("write_commands", b"reset\nbuttons 4"), Some(0));
    assert_eq!(run("write_commands", b"buttons 5\n"), Some(1));
    assert_eq!(run("write_commands", b"\n"), Some(1));
    assert_eq!(run("write_force", &[0; 18]), Some(0));
    assert_eq!(run("write_force", &[255; 9]), Some(1));
    assert_eq!(run("write_force", &[0; 10]), Some(1));
    for name in ["drive", "answer"] {
        assert_eq!(run(name, b"start\nfresh 0 1 1 1 1 1\n"), Some(0));
        assert_eq!(run(name, b"start\nstop\nstart\n"), Some(1));
    }
}

#[test]
fn frames_of_a_type_a_panel() {
    let _turn = turn();
    let run = |program: &str, bytes: &[u8]| output(&mut second(&[program]), bytes).status.code();
    let report = |reports: usize| [&SETUP[..], &[0; 8].repeat(reports)].concat();
    assert_eq!(run("write_anonymous", &SETUP), Some(0));
    assert_eq!(run("write_anonymous", &report(3)), Some(0));
    assert_eq!(run("write_anonymous", &report(3)[..40]), Some(0));
    assert_eq!(run("write_anonymous", &report(3)[..41]), Some(1));
    assert_eq!(run("write_anonymous", &SETUP[..23]), Some(1));
}

#[test]
fn records_both_ways() {
    let _turn = turn();
    let bytes = output(&mut second(&["records", "encode"]), b"SETUP 1 9 9 9 9 9\nX 1\n");
    check(&bytes, 0, "");
    let text = output(&mut second(&["records", "decode"]), &bytes.stdout);
    check(&text, 0, "");
    assert_eq!(text.stdout, b"SETUP 1 9 9 9 9 9\nX 1\n");
    let wrong = output(&mut second(&["records", "encode"]), b"X 1\nQ 1\n");
    check(&wrong, 1, "second: line 2: 'Q' is no event\n");
}

/// A directory can be opened and not be read.
#[test]
fn failed_reads() {
    let _turn = turn();
    let failed = "a read from standard input failed: Is a directory\n";
    for (words, said) in [
        (&["show_table"][..], format!("show_table: {failed}show_table: the setup is cut: 0 of 24 bytes\n")),
        (
            &["write_frames"],
            format!("write_frames: {failed}refused 1\nwrite_frames: the setup is cut: 0 of 24 bytes\n"),
        ),
        (
            &["write_anonymous"],
            format!("write_anonymous: {failed}refused 1\nwrite_anonymous: the setup is cut: 0 of 24 bytes\n"),
        ),
        (&["record"], format!("record: {failed}refused 1\nrecord: the setup is cut: 0 of 24 bytes\n")),
        (&["replay"], format!("replay: {failed}replay: the setup is cut: 0 of 24 bytes\n")),
        (&["crane_table"], format!("crane_table: {failed}crane_table: the setup is cut: 0 of 24 bytes\n")),
        (&["show_pod"], format!("show_pod: {failed}")),
        (&["show_force"], format!("show_force: {failed}")),
        (&["write_force"], format!("write_force: {failed}write_force: input was lost, and no packet can say so\n")),
        (&["show_commands"], format!("show_commands: {failed}")),
        (
            &["write_commands"],
            format!("write_commands: {failed}write_commands: input was lost, and no command can say so\n"),
        ),
        (&["drive"], format!("drive: {failed}")),
        (&["records", "encode"], format!("second: {failed}")),
        (&["records", "decode"], format!("second: {failed}")),
    ] {
        let output = second(words).stdin(File::open("/").unwrap()).output().unwrap();
        check(&output, 2, &said);
    }
}

#[test]
fn failed_writes() {
    let _turn = turn();
    for (words, name, bytes) in [
        (&["show_table"][..], "show_table", &SETUP[..]),
        (&["crane_table"], "crane_table", &SETUP),
        (&["write_frames"], "write_frames", &SETUP),
        (&["show_pod"], "show_pod", &[1]),
        (&["record"], "record", &SETUP),
        (&["write_anonymous"], "write_anonymous", &SETUP),
        (&["show_force"], "show_force", &[43]),
        (&["write_force"], "write_force", &[0; 9]),
        (&["show_commands"], "show_commands", &[8]),
        (&["write_commands"], "write_commands", b"reset\n"),
        (&["replay"], "replay", &SETUP),
        (&["drive"], "drive", b"start\n"),
        (&["records", "encode"], "second", b"REPORT\n"),
        (&["records", "decode", "frames"], "second", &SETUP),
    ] {
        let said = format!("{name}: a write to standard output failed: ");
        let on_full = output(second(words).stdout(full()), bytes);
        check(&on_full, 2, &format!("{said}No space left on device\n"));

        let mut child = second(words).stdin(Stdio::piped()).spawn().unwrap();
        drop(child.stdout.take());
        child.stdin.take().unwrap().write_all(bytes).unwrap();
        let closed = child.wait_with_output().unwrap();
        if words[0] == "records" {
            check(&closed, 0, "");
        } else {
            check(&closed, 2, &format!("{said}Broken pipe\n"));
        }
    }
    // Standard error too.
    assert_eq!(output(second(&["show_table"]).stderr(full()), b"").status.code(), Some(2));
}

/// What `noises` keeps is what `noise` makes and the program says of it.
#[test]
fn many_inputs_with_their_answers() {
    let _turn = turn();
    let folder = std::env::temp_dir().join(format!("second-noises-{}", std::process::id()));
    fs::create_dir(&folder).unwrap();
    for program in PROGRAMS.into_iter().chain(["write_frames --pointer"]) {
        check(&output(&mut second(&["noises", program, "5", "30", "12", folder.to_str().unwrap()]), b""), 0, "");
        for index in 30..42 {
            let kept = |part: &str| fs::read(folder.join(format!("{index}.{part}"))).unwrap();
            let input = output(&mut second(&["noise", program, "5", &index.to_string()]), b"").stdout;
            let said = output(&mut second(&program.split(' ').collect::<Vec<_>>()), &input);
            let status = format!("{}\n", said.status.code().unwrap()).into_bytes();
            assert_eq!(
                (kept("in"), kept("out"), kept("err"), kept("status")),
                (input, said.stdout, said.stderr, status)
            );
        }
        assert!(!folder.join("42.in").exists());
    }
    let nowhere = output(&mut second(&["noises", "drive", "5", "0", "1", "/nowhere"]), b"");
    check(&nowhere, 1, "second: /nowhere/0.in: No such file or directory (os error 2)\n");
    check(
        &output(&mut second(&["noises", "bench_sheet", "5", "0", "1", "/tmp"]), b""),
        1,
        "second: no program bench_sheet\n",
    );
    fs::remove_dir_all(&folder).unwrap();
}

/// Each would be a test of nothing if `differ` took it for the same.
#[test]
fn answers_that_differ() {
    let _turn = turn();
    let folder = std::env::temp_dir().join(format!("second-differ-{}", std::process::id()));
    fs::create_dir(&folder).unwrap();
    let (script, answers) = (folder.join("script"), folder.join("answers"));
    fs::write(&script, "# a pod\nstart\n\n  \n").unwrap();
    for (said, status) in [
        ("1 0 0 0 0 0 0 0\nbad line\n", 0),
        ("1 0 0 0 0 0 0 0\nbad line", 0),
        ("1 0 0 0 0 0 0 0\r\nbad line\n", 1),
        ("1 0 0 0 0 0 0 0\nbad line \n", 1),
        ("1 0 0 0 0 0 0 0\n", 1),
        ("1 0 0 0 0 0 0 0\nbad line\n\n", 1),
    ] {
        fs::write(&answers, said).unwrap();
        let words = ["differ", script.to_str().unwrap(), answers.to_str().unwrap()];
        assert_eq!(output(&mut second(&words), b"").status.code(), Some(status), "{said}");
    }
    fs::remove_dir_all(&folder).unwrap();
}

#[test]
fn a_long_shift_and_one_that_is_too_short() {
    let _turn = turn();
    let run = |words: &[&str]| output(&mut second(words), b"");
    for words in [&["long", "100", "1"][..], &["long", "100", "1", "pointer"]] {
        let made = run(words);
        let said = String::from_utf8_lossy(&made.stderr).into_owned();
        let calls = made.stdout.iter().filter(|byte| **byte == b'\n').count();
        assert!(said.starts_with("second: 100 frames, ") && said.ends_with(&format!(" {calls} calls\n")), "{said}");
        assert_eq!(made.status.code(), Some(0));
    }
    check(&run(&["long", "0", "1"]), 1, "second: of 0 frames: no frame was refused for its length\n");
    check(&run(&["long", "x", "1"]), 1, "second: 'x' is no number\n");
    assert_eq!(run(&["long", "100", "1", "mouse"]).status.code(), Some(2));
    check(
        second(&["long", "100", "1"]).stdout(full()).output().as_ref().unwrap(),
        2,
        "second: No space left on device\n",
    );
}

#[test]
fn an_argument_is_one_too_many() {
    let _turn = turn();
    let said = |name: &str, argument: &str| {
        let taken = if name == "write_frames" { " but --pointer" } else { "" };
        format!("{name}: no argument{taken} is taken, and '{argument}' is one; a file is given as {name} < FILE\n")
    };
    for name in PROGRAMS {
        let output = output(&mut second(&[name, "a b", "c"]), b"");
        check(&output, 2, &said(name, "a b"));
        assert!(output.stdout.is_empty());
    }
    for (words, argument) in [
        (&["write_frames", "--pointers"][..], "--pointers"),
        (&["write_frames", "--pointer=1"], "--pointer=1"),
        (&["write_frames", ""], ""),
        (&["write_frames", "pointer", "--pointer"], "pointer"),
        (&["write_frames", "--pointer", "--pointer"], "--pointer"),
        (&["write_frames", "--pointer", "a"], "a"),
        (&["record", "--pointer"], "--pointer"),
        (&["write_anonymous", "--pointer"], "--pointer"),
    ] {
        check(&output(&mut second(words), b""), 2, &said(words[0], argument));
    }
}
