//! The program `second`: each mode is a filter or a report; see README.md beside Cargo.toml.

use std::borrow::Cow;
use std::ffi::OsString;
use std::fs::{self, File};
use std::io::{self, Read, Write};
use std::os::fd::AsFd;
use std::os::unix::ffi::OsStrExt;
use std::path::Path;
use std::process::ExitCode;

use second::requests::Request;
use second::script::{answer_line, is_passed_over, lines_of, Call};
use second::streams::{text, Status};
use second::tally::Tally;
use second::{brief, long, maker, noise, programs, records, shift, smaller};

const USAGE: &str = "\
second answer < SCRIPT                 the answers of a script of docs/DRIVE.md, as drive gives them
second script ROUNDS SEED              a random script of that many calls
second tally SCRIPT ANSWERS            how often each answer occurred; fails where one never did
second differ SCRIPT ANSWERS           the first call that is answered otherwise here; fails where there is one
second smaller < LINE                  smaller calls than this one, the smallest first
second brief < SCRIPT                  a script's calls in short, for people
second expand < CASES                  a script from such short lines
second cases                           the named cases, as a script
second records encode < TEXT           a program's input from readable text
second records decode [frames] < BYTES the text of such an input
second shift FRAMES SEED               so many frames of a made-up shift, for write_frames
second shift FRAMES SEED lost FRAME    the records of these frames, SYN_DROPPED for the first one from FRAME on that lifts a hand
second long FRAMES SEED [pointer]      the long shift of K14 as a script, with pointer emulation or without; fails where something that K14 claims does not hold
second noise PROGRAM SEED INDEX        one random input for a program
second noises PROGRAM SEED FIRST COUNT FOLDER
                                       COUNT of them from FIRST on, with what the program answers, as files
second programs FOLDER                 the programs that have a folder there and a twin here, in one line
second PROGRAM < BYTES                 show_table, crane_table, write_frames, show_pod, record, replay, show_force, write_force, show_commands, write_commands, write_anonymous or drive:
                                       the program of that name
second write_frames --pointer < BYTES  the same with pointer emulation; as PROGRAM above it is one word, 'write_frames --pointer'";

const CASES: &str = include_str!("../cases.txt");

/// The named cases of a request that `drive` did not always know.
fn cases_of(request: Request) -> &'static str {
    match request {
        Request::Recorder => include_str!("../cases_recorder.txt"),
        Request::Force => include_str!("../cases_force.txt"),
        Request::Commands => include_str!("../cases_commands.txt"),
        Request::Pointer => include_str!("../cases_pointer.txt"),
        Request::Anonymous => include_str!("../cases_anonymous.txt"),
    }
}

/// What went wrong, in words for standard error; `Differs` has already said it.
enum Failure {
    Usage,
    Words(String),
    Io(io::Error),
    Differs,
}

impl From<io::Error> for Failure {
    fn from(error: io::Error) -> Failure {
        Failure::Io(error)
    }
}

impl From<String> for Failure {
    fn from(words: String) -> Failure {
        Failure::Words(words)
    }
}

fn main() -> ExitCode {
    let arguments: Vec<OsString> = std::env::args_os().skip(1).collect();
    let texts: Vec<Cow<str>> = arguments.iter().map(|argument| argument.to_string_lossy()).collect();
    let words: Vec<&str> = texts.iter().map(|text| &**text).collect();
    let status = match words[..] {
        ["write_frames", "--pointer"] => run(&[programs::WITH_POINTER]).unwrap_or_else(status_of),
        ["write_frames", "--pointer", ..] => too_many("write_frames", &arguments[2]),
        [program, _, ..] if programs::NAMES.contains(&program) => too_many(program, &arguments[1]),
        _ => run(&words).unwrap_or_else(status_of),
    };
    ExitCode::from(status.number())
}

/// A program reads nothing but its standard input, and one of them takes a word, once.
fn too_many(program: &str, argument: &OsString) -> Status {
    let taken = if program == "write_frames" { " but --pointer" } else { "" };
    let before = format!("{program}: no argument{taken} is taken, and '");
    let after = format!("' is one; a file is given as {program} < FILE\n");
    say(&[before.as_bytes(), argument.as_bytes(), after.as_bytes()].concat());
    Status::Failed
}

fn status_of(failure: Failure) -> Status {
    let (words, status) = match failure {
        Failure::Differs => return Status::Refused,
        // Whoever read us has seen enough, as in `second script 9 1 | head`.
        Failure::Io(error) if error.kind() == io::ErrorKind::BrokenPipe => return Status::Accepted,
        Failure::Io(error) => (format!("second: {}", text(&error)), Status::Failed),
        Failure::Words(words) => (format!("second: {words}"), Status::Refused),
        Failure::Usage => (USAGE.to_string(), Status::Failed),
    };
    say(format!("{words}\n").as_bytes());
    status
}

/// Where nobody can be told, the status still tells.
fn say(words: &[u8]) {
    let _ = io::stderr().write_all(words);
}

fn run(words: &[&str]) -> Result<Status, Failure> {
    match words {
        ["answer"] => filter(programs::drive),
        ["records", "encode"] => filter(records::encode),
        ["records", "decode"] => filter(|input, out, err| records::decode(input, out, err, false)),
        ["records", "decode", "frames"] => filter(|input, out, err| records::decode(input, out, err, true)),
        [program] if programs::NAMES.contains(program) || *program == programs::WITH_POINTER => {
            filter(|input, out, err| programs::run(program, input, out, err).unwrap_or(Status::Failed))
        }
        _ => {
            let mut out = io::BufWriter::new(io::stdout().lock());
            print(words, &mut out)?;
            out.flush()?;
            Ok(Status::Accepted)
        }
    }
}

fn filter(program: impl Fn(File, File, File) -> Status) -> Result<Status, Failure> {
    Ok(program(plain(io::stdin())?, plain(io::stdout())?, plain(io::stderr())?))
}

/// A standard stream as a plain file: Rust's own handles take one that is not open for reading as ended, and write out line by line.
fn plain(stream: impl AsFd) -> io::Result<File> {
    Ok(File::from(stream.as_fd().try_clone_to_owned()?))
}

fn print(words: &[&str], out: &mut impl Write) -> Result<(), Failure> {
    match words {
        ["script", rounds, seed] => script(number(rounds)?, number(seed)?, out)?,
        ["tally", script, answers] => tally(&file(script)?, &file(answers)?, out)?,
        ["differ", script, answers] => differ(&file(script)?, &file(answers)?, out)?,
        ["smaller"] => {
            let script = input()?;
            let line = lines_of(&script).find(|line| !is_passed_over(line.as_bytes())).unwrap_or("");
            // A line that is no call has nothing to make smaller.
            for call in Call::parse(line.as_bytes()).iter().flat_map(smaller::smaller) {
                writeln!(out, "{}", call.line())?;
            }
        }
        ["brief"] => {
            for line in lines_of(&input()?) {
                match Call::parse(line.as_bytes()) {
                    Some(call) if !is_passed_over(line.as_bytes()) => writeln!(out, "{}", brief::shorten(&call))?,
                    _ => writeln!(out, "{line}")?,
                }
            }
        }
        ["expand"] => out.write_all(brief::expand(&input()?)?.as_bytes())?,
        ["cases"] => {
            for cases in [CASES].into_iter().chain(Request::MADE.iter().map(|request| cases_of(*request))) {
                let script = brief::expand(cases).map_err(|error| format!("the named cases: {error}"))?;
                out.write_all(script.as_bytes())?;
            }
        }
        ["programs", folder] => {
            let there: Vec<&str> =
                programs::NAMES.into_iter().filter(|name| Path::new(folder).join(name).is_dir()).collect();
            writeln!(out, "{}", there.join(" "))?;
        }
        ["shift", frames, seed] => shift::frames(number(frames)?, number(seed)?, out)?,
        ["shift", frames, seed, "lost", frame] => {
            let found = shift::records(number(frames)?, number(seed)?, number(frame)?, out)?;
            found.ok_or_else(|| format!("in frames {frame} to {frames} no hand lifts, so nothing was lost"))?;
        }
        ["long", frames, seed] => long_shift(number(frames)?, number(seed)?, false, out)?,
        ["long", frames, seed, "pointer"] => long_shift(number(frames)?, number(seed)?, true, out)?,
        ["noise", program, seed, index] => {
            out.write_all(&noise_for(program, number(seed)?, number(index)?)?)?;
        }
        ["noises", program, seed, first, count, folder] => {
            noises(program, number(seed)?, number(first)?, number(count)?, Path::new(folder))?;
        }
        _ => return Err(Failure::Usage),
    }
    Ok(())
}

fn script(rounds: u64, seed: u64, out: &mut impl Write) -> io::Result<()> {
    writeln!(out, "# second script {rounds} {seed}")?;
    let mut maker = maker::Maker::new(seed);
    (0..rounds).try_for_each(|_| out.write_all(maker.lines().as_bytes()))
}

/// What there was is said on standard error once all of the script is written.
fn long_shift(frames: u64, seed: u64, pointer: bool, out: &mut impl Write) -> Result<(), Failure> {
    let tally = long::script(&long::RIGHT, frames, seed, pointer, out).map_err(|stopped| match stopped {
        long::Stopped::Io(error) => Failure::Io(error),
        long::Stopped::Wrong(words) => Failure::Words(words),
    })?;
    out.flush()?;
    say(format!("second: {tally}\n").as_bytes());
    Ok(())
}

fn noise_for(program: &str, seed: u64, index: u64) -> Result<Vec<u8>, Failure> {
    noise::noise(program, seed, index).ok_or_else(|| Failure::Words(format!("no program {program}")))
}

/// Of each input FOLDER/INDEX.in, and what is to be seen of the program: .out, .err and .status. The input is there before it is answered, and the status comes last: where this crashes, they tell by what.
fn noises(program: &str, seed: u64, first: u64, count: u64, folder: &Path) -> Result<(), Failure> {
    for index in first..first.saturating_add(count) {
        let keep = |part: &str, bytes: &[u8]| {
            let name = folder.join(format!("{index}.{part}"));
            fs::write(&name, bytes).map_err(|error| Failure::Words(format!("{}: {error}", name.display())))
        };
        let input = noise_for(program, seed, index)?;
        keep("in", &input)?;
        let (mut out, mut err) = (Vec::new(), Vec::new());
        let status = programs::run(program, &input[..], &mut out, &mut err).unwrap_or(Status::Failed);
        keep("out", &out)?;
        keep("err", &err)?;
        keep("status", format!("{}\n", status.number()).as_bytes())?;
    }
    Ok(())
}

fn tally(script: &str, answers: &str, out: &mut impl Write) -> Result<(), Failure> {
    let tally = Tally::of(script, answers)?;
    writeln!(out, "{}", tally.report(Request::MADE))?;
    let missing = tally.missing(Request::MADE);
    if missing.is_empty() {
        return Ok(());
    }
    out.flush()?;
    Err(Failure::Words(format!("never seen: {}", missing.join("; "))))
}

/// The first call whose answer in the file is not ours: its number, comment, line, and both answers, one a line.
fn differ(script: &str, answers: &str, out: &mut impl Write) -> Result<(), Failure> {
    let mut answers = lines_of(answers);
    let mut calls = 0;
    let mut comment = "#";
    for line in lines_of(script) {
        if is_passed_over(line.as_bytes()) {
            comment = if line.is_empty() { comment } else { line };
            continue;
        }
        calls += 1;
        let ours = answer_line(line.as_bytes());
        let theirs = answers.next();
        if theirs != Some(&ours) {
            let theirs = theirs.unwrap_or("(no answer)");
            writeln!(out, "{calls}\n{comment}\n{line}\n{ours}\n{theirs}")?;
            out.flush()?;
            return Err(Failure::Differs);
        }
    }
    match answers.next() {
        None => Ok(()),
        Some(more) => Err(Failure::Words(format!("more answers than the {calls} calls; the first is '{more}'"))),
    }
}

fn number(word: &str) -> Result<u64, Failure> {
    word.parse().map_err(|_| Failure::Words(format!("'{word}' is no number")))
}

/// Answers that are no text are to be shown as a difference, not to stop the comparison.
fn file(name: &str) -> Result<String, Failure> {
    let bytes = fs::read(name).map_err(|error| Failure::Words(format!("{name}: {error}")))?;
    Ok(String::from_utf8_lossy(&bytes).into_owned())
}

fn input() -> Result<String, Failure> {
    let mut bytes = Vec::new();
    io::stdin().lock().read_to_end(&mut bytes)?;
    String::from_utf8(bytes).map_err(|error| Failure::Words(format!("standard input is no text: {error}")))
}
