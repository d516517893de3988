//! What a script and its answers showed: how often each verdict, mode, count and answer occurred, and what never did.

mod anonymous;
mod commands;
mod expected;
mod force;
mod pieces;
mod pointer;
mod reading;
mod recorder;
#[cfg(test)]
mod tests;
mod wide;
mod writing;

use std::collections::BTreeMap;

use crate::maker::tried;
use crate::pod::Pod;
use crate::reader::Mode;
use crate::requests::Request;
use crate::script::{is_passed_over, lines_of, Call, BAD_LINE, POD_NUMBERS};

/// The words of an answer. What is tallied may be anything, so a word that is not there is an empty one.
struct Words<'a>(Vec<&'a str>);

impl<'a> Words<'a> {
    fn of(text: &'a str) -> Words<'a> {
        Words(text.split(' ').filter(|word| !word.is_empty()).collect())
    }

    fn at(&self, place: usize) -> &'a str {
        self.0.get(place).copied().unwrap_or("")
    }

    /// The call of that name with the answer's first numbers behind the verdict and then these: it has the answer's state.
    fn as_call(&self, name: &str, numbers: usize, more: &str) -> Option<Call> {
        let state = self.0.get(1..=numbers)?;
        Call::parse(format!("{name} {} {more}", state.join(" ")).as_bytes())
    }
}

fn mode_name(mode: Mode) -> &'static str {
    match mode {
        Mode::Following => "following",
        Mode::Dropped => "dropped",
        Mode::Stale => "stale",
    }
}

/// How often what was seen, of the answers and of what the comments say is tried.
#[derive(Default)]
pub struct Tally {
    calls: u64,
    seen: BTreeMap<String, u64>,
    tried: BTreeMap<String, u64>,
}

impl Tally {
    /// Counts a whole script with its answers.
    pub fn of(script: &str, answers: &str) -> Result<Tally, String> {
        let mut tally = Tally::default();
        let mut answers = lines_of(answers);
        for line in lines_of(script) {
            if let Some(comment) = line.strip_prefix("# ") {
                for tag in tried::of(comment) {
                    *tally.tried.entry(tag).or_default() += 1;
                }
            }
            if !is_passed_over(line.as_bytes()) {
                let answer = answers.next().ok_or_else(|| format!("call {} has no answer", tally.calls + 1))?;
                tally.calls += 1;
                tally.count(line, answer);
            }
        }
        match answers.next() {
            None => Ok(tally),
            Some(_) => Err(format!("more answers than {} calls", tally.calls)),
        }
    }

    fn note(&mut self, what: impl Into<String>) {
        *self.seen.entry(what.into()).or_default() += 1;
    }

    fn count(&mut self, line: &str, answer: &str) {
        if answer == BAD_LINE {
            return self.note(answer);
        }
        let said = Words::of(answer);
        let verdict = said.at(0);
        let Some(call) = Call::parse(line.as_bytes()) else {
            return self.note(format!("no call: answered {verdict}"));
        };
        let name = call.name();
        match &call {
            Call::Ask { .. } | Call::PiecesAsk { .. } if verdict != "contact" => self.note(format!("{name} {answer}")),
            Call::PiecesTake { pieces, cut } => self.count_pieces(pieces, cut, answer),
            Call::Pod { pod, bytes } => self.count_steps(*pod, bytes, answer),
            Call::Commands(call) => self.count_commands(call, &said),
            _ => self.note(format!("{name} {verdict}")),
        }
        self.count_width(&call, &said);
        match &call {
            Call::PiecesLoad { pieces, .. } => self.count_between(pieces, &said),
            Call::Load { reader, .. } if verdict == "7" => {
                self.note(format!("{name}: refused while {}", mode_name(reader.mode)));
            }
            Call::Ask { reader, .. } if verdict == "unknown" => {
                self.note(format!("{name}: unknown while {}", mode_name(reader.mode)));
            }
            Call::Run { .. } | Call::One { .. } if verdict == "0" => self.count_run(&call, &said),
            Call::Write { writer, frame, position, .. } => {
                self.count_write(writer, frame, &said);
                self.count_pointer(writer, frame, *position, &said);
            }
            Call::Anonymous { .. } => self.count_anonymous(&call, &said),
            Call::New { pointer: true, .. } => {
                self.note_when(verdict == "0", "new: the option on, accepted");
                self.note_when(verdict == "1", "new: the option on, refused");
            }
            Call::Recorder(call) => self.count_recorder(call, &said),
            Call::Force(call) => self.count_force(call, &said),
            _ => {}
        }
    }

    /// The answers to a string of bytes, with the first byte of the report that each of them ends.
    fn count_steps(&mut self, mut pod: Pod, bytes: &[u8], answer: &str) {
        for (step, byte) in answer.split(" / ").zip(bytes) {
            let first = if pod.held == 0 { *byte } else { pod.bytes[0] };
            self.count_step(step);
            self.note_when(first == 0xFC && step.ends_with("bad report"), "pod: a wrong digit of the time");
            // A state that is refused stays, and is refused again.
            let _ = pod.take(*byte);
        }
    }

    /// The answer to one byte of a pod.
    fn count_step(&mut self, step: &str) {
        let said: Vec<&str> = step.split(' ').collect();
        let words = said.get(POD_NUMBERS..).unwrap_or(&[]);
        let kept = match words.first() {
            Some(&("self-test" | "bad" | "stick" | "refused")) => 2,
            _ => 1,
        };
        self.note(format!("pod {}", words[..kept.min(words.len())].join(" ")));
        if words == ["up", "112"] {
            self.note("pod: key 112 up");
        }
        if let ["relative", _, _, dx, dy] = words {
            for (name, moved) in [("dx", dx), ("dy", dy)] {
                if *moved == "-128" {
                    self.note(format!("pod: {name} -128"));
                }
            }
        }
    }

    /// What should have occurred and never did, in a script with the calls of these requests.
    pub fn missing(&self, requests: &[Request]) -> Vec<String> {
        let never = |counted: &BTreeMap<String, u64>, names: Vec<String>| {
            names.into_iter().filter(|name| !counted.contains_key(name)).collect::<Vec<_>>()
        };
        let mut missing = never(&self.seen, expected::all(requests));
        missing.extend(never(&self.tried, tried::all(requests)));
        missing
    }

    /// The report: expected answers in their order, then any others, then what was tried.
    pub fn report(&self, requests: &[Request]) -> String {
        let mut names = expected::all(requests);
        let others: Vec<String> = self.seen.keys().filter(|name| !names.contains(name)).cloned().collect();
        names.extend(others);
        let mut report = format!("{} calls; answers:\n{}", self.calls, rows(&self.seen, &names));
        let tried = tried::all(requests);
        if tried.iter().any(|name| self.tried.contains_key(name)) {
            report.push_str("\ntried:\n");
            report.push_str(&rows(&self.tried, &tried));
        }
        report
    }
}

/// One row for each first word, with the counts of what comes after it.
fn rows(counted: &BTreeMap<String, u64>, names: &[String]) -> String {
    let mut rows: Vec<(&str, Vec<String>)> = Vec::new();
    for name in names {
        let (group, what) = name.split_once(' ').unwrap_or((name, ""));
        let group = group.trim_end_matches(':');
        let entry = format!("{what} {}", counted.get(name).copied().unwrap_or(0));
        match rows.iter_mut().find(|(known, _)| *known == group) {
            Some((_, entries)) => entries.push(entry),
            None => rows.push((group, vec![entry])),
        }
    }
    let rows: Vec<String> =
        rows.iter().map(|(group, entries)| format!("  {group:<11} {}", entries.join(" | "))).collect();
    rows.join("\n")
}
