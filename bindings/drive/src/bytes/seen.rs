//! What came of the calls of each function, how often, and what never did.

use std::collections::BTreeMap;

use crate::states::Wrong;

/// What came of a call, as it should.
#[derive(Clone, Copy, PartialEq, Eq, PartialOrd, Ord, Debug)]
pub enum Outcome {
    /// Refused by 2, since the bytes are no state.
    NotFormed(Wrong),
    /// Refused for what no line of a script can have.
    Odd,
    Accepted,
    Refused(u32),
}

impl Outcome {
    /// Of the number that a call was answered.
    pub fn of(refusal: u32) -> Outcome {
        match refusal {
            0 => Outcome::Accepted,
            refusal => Outcome::Refused(refusal),
        }
    }
}

/// A function and what must come of its calls at least once.
struct Function {
    name: &'static str,
    wrongs: &'static [Wrong],
    /// What its odd calls are.
    odd: Option<&'static str>,
    refusals: &'static [u32],
}

const LENGTH: &[Wrong] = &[Wrong::Length];

const fn function(
    name: &'static str,
    wrongs: &'static [Wrong],
    odd: Option<&'static str>,
    refusals: &'static [u32],
) -> Function {
    Function { name, wrongs, odd, refusals }
}

const FUNCTIONS: [Function; 16] = [
    function("writer_fresh", LENGTH, Some("an option over 1"), &[1]),
    function("write", &Wrong::ALL, None, &[2, 3, 4, 5]),
    function("write_anonymous", &Wrong::ALL, None, &[2, 4, 5, 6, 9, 10]),
    function("reader_fresh", LENGTH, None, &[1]),
    function("run", &Wrong::ALL, None, &[2, 6]),
    function("load", &Wrong::ALL, None, &[2, 7, 8]),
    function("ask", &Wrong::ALL, None, &[2]),
    function("line_fresh", LENGTH, None, &[1]),
    function("take", &Wrong::ALL, None, &[2]),
    function("line_load", &Wrong::ALL, None, &[2, 7, 8]),
    function("line_ask", &Wrong::ALL, None, &[2]),
    function("pod_fresh", LENGTH, None, &[]),
    function("pod_step", &Wrong::ALL, None, &[2]),
    function("command_write", &Wrong::ALL, Some("a number too wide"), &[2, 5, 11]),
    function("force_write", &[], Some("a number too wide"), &[4, 5]),
    function("make_block", &[], Some("a block of another length"), &[4, 6]),
];

impl Function {
    fn due(&self) -> impl Iterator<Item = Outcome> {
        let wrongs = self.wrongs.iter().map(|wrong| Outcome::NotFormed(*wrong));
        let odd = self.odd.map(|_| Outcome::Odd);
        wrongs
            .chain(odd)
            .chain([Outcome::Accepted])
            .chain(self.refusals.iter().map(|refusal| Outcome::Refused(*refusal)))
    }

    fn words(&self, outcome: Outcome) -> String {
        match outcome {
            Outcome::NotFormed(wrong) => format!("not formed, {}", wrong.name()),
            Outcome::Odd => format!("with {}", self.odd.unwrap_or("what it never has")),
            Outcome::Accepted => "accepted".to_string(),
            Outcome::Refused(refusal) => format!("refused by {refusal}"),
        }
    }
}

/// A part of a function's line: how many calls it has, and of what.
#[derive(Default)]
struct Part {
    total: u64,
    each: Vec<String>,
}

impl Part {
    fn add(&mut self, what: String, count: u64) {
        self.total += count;
        self.each.push(format!("{what} {count}"));
    }
}

/// How often each came.
#[derive(Default)]
pub struct Seen(BTreeMap<&'static str, BTreeMap<Outcome, u64>>);

impl Seen {
    pub fn count(&mut self, function: &'static str, outcome: Outcome) {
        *self.0.entry(function).or_default().entry(outcome).or_default() += 1;
    }

    fn of(&self, function: &Function) -> impl Iterator<Item = (&Outcome, &u64)> {
        self.0.get(function.name).into_iter().flatten()
    }

    /// A line for each function.
    pub fn report(&self) -> String {
        FUNCTIONS.iter().map(|function| self.line(function)).collect()
    }

    fn line(&self, function: &Function) -> String {
        let (mut formed, mut not_formed, mut odd) = (Part::default(), Part::default(), Part::default());
        for (outcome, count) in self.of(function) {
            match outcome {
                Outcome::NotFormed(wrong) => not_formed.add(wrong.name().to_string(), *count),
                Outcome::Odd => odd.add(String::new(), *count),
                Outcome::Accepted => formed.add("accepted".to_string(), *count),
                Outcome::Refused(refusal) => formed.add(format!("refused by {refusal}"), *count),
            }
        }
        let mut line = format!("{:<15} {} formed: {}", function.name, formed.total, formed.each.join(", "));
        if not_formed.total > 0 {
            line += &format!("; {} not formed: {}", not_formed.total, not_formed.each.join(", "));
        }
        if let Some(words) = function.odd {
            line += &format!("; {} with {words}", odd.total);
        }
        line + "\n"
    }

    /// What never came.
    pub fn missing(&self) -> Vec<String> {
        let of = |function: &'static Function| {
            let due = function.due().filter(|due| self.of(function).all(|(outcome, _)| outcome != due));
            due.map(|due| format!("{}: {}", function.name, function.words(due)))
        };
        FUNCTIONS.iter().flat_map(of).collect()
    }
}
