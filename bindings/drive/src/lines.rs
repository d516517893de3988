//! The filter: each line of a script answered, and at the end, on standard error, who answered how many.

use std::collections::BTreeMap;
use std::io::{self, Read, Write};

use second::script::{is_passed_over, Call, BAD_LINE, LONGEST_LINE};
use second::streams::{Came, Lines, Status, Streams};

use crate::answers;
use crate::states::{self, Unlent};

/// Who answered a line.
#[derive(Clone, Copy, PartialEq, Eq, PartialOrd, Ord)]
enum By {
    Library,
    /// The second program, since there is no such function.
    NotExported,
    /// The second program, since a number has no place in the bytes.
    TooWide,
    /// Nobody: it is no call.
    NoCall,
}

/// How many lines of each call were answered by whom.
#[derive(Default)]
struct Tally(BTreeMap<By, BTreeMap<String, u64>>);

/// All of standard input answered; the status that drive would end with.
pub fn answer(input: impl Read, out: impl Write, err: impl Write) -> u8 {
    let mut tally = Tally::default();
    let mut streams = Streams::new("host_drive", input, out, err);
    let done = answer_all(&mut streams, &mut tally);
    if done.is_ok() {
        tally.lines().iter().for_each(|line| streams.words.say(line));
    }
    streams.end(done).number()
}

fn answer_all<R: Read, W: Write, E: Write>(streams: &mut Streams<R, W, E>, tally: &mut Tally) -> io::Result<()> {
    let mut lines = Lines::new(LONGEST_LINE);
    let mut each = |line: &[u8], out: &mut dyn Write| -> io::Result<Status> {
        if is_passed_over(line) {
            return Ok(Status::Accepted);
        }
        let (said, status) = tally.answer(line);
        writeln!(out, "{said}")?;
        Ok(status)
    };
    let ended = streams.units(1, |piece, out, words| {
        lines.take(piece, |line| -> io::Result<()> {
            words.at_least(each(line, out)?);
            Ok(())
        })
    })?;
    if ended == Came::End {
        let status = each(lines.last(), &mut streams.out)?;
        streams.words.at_least(status);
    }
    Ok(())
}

impl Tally {
    /// One line's answer. A promise that was broken is said in its place, so that a comparison shows it.
    fn answer(&mut self, line: &[u8]) -> (String, Status) {
        let Some(call) = Call::parse(line) else {
            self.count(By::NoCall, "bad line".to_string());
            return (BAD_LINE.to_string(), Status::Refused);
        };
        let (by, said) = match states::lent(&call) {
            Ok(state) => {
                let bytes = state.map_or(Vec::new(), |(_, bytes)| bytes);
                let told = answers::answer(&call, &bytes).map(|told| told.words);
                (By::Library, told.unwrap_or_else(|broken| format!("the library {broken}")))
            }
            Err(Unlent::NotExported) => (By::NotExported, call.answer()),
            Err(Unlent::TooWide) => (By::TooWide, call.answer()),
        };
        self.count(by, call.name());
        (said, Status::Accepted)
    }

    fn count(&mut self, by: By, name: String) {
        *self.0.entry(by).or_default().entry(name).or_default() += 1;
    }

    /// What was counted, in words; nothing where no line was answered.
    fn lines(&self) -> Vec<String> {
        let line = |(by, calls): (&By, &BTreeMap<String, u64>)| {
            let total: u64 = calls.values().sum();
            let each: Vec<String> = calls.iter().map(|(name, count)| format!("{name} {count}")).collect();
            let who = match by {
                By::Library => "by the library",
                By::NotExported => "by the second program, not exported",
                By::TooWide => "by the second program, a number that the bytes cannot hold",
                By::NoCall => "no call",
            };
            format!("{total} lines {who}: {}", each.join(", "))
        };
        self.0.iter().map(line).collect()
    }
}
