//! Seeded random scripts: calls of every kind, good, at the edges of every range, and broken in each way.

mod anonymous;
mod broken;
mod commands;
mod events;
mod force;
mod forms;
mod ids;
mod lines;
mod loads;
mod numbers;
mod packets;
mod pieces;
mod pods;
pub mod pointer;
mod recorder;
mod runs;
mod states;
pub mod tried;
mod writing;

pub(crate) use anonymous::need_of as need_of_anonymous;
pub(crate) use writing::need_of;

use crate::pod::Pod;
use crate::random::Random;
use crate::reader::Reader;
use crate::requests::Request;
use crate::script::Call;
use crate::table::Layout;
use crate::writer::Writer;
use tried::CRANE;

const KEPT_STATES: usize = 6;
/// One line in so many is at a limit. There are five kinds of them, so that 4,000 calls try each.
const LIMIT_TURN: u64 = 800;
const LIMITS: u64 = 5;
/// So many calls in a turn are those of 01 and of the requests that `drive` always knew.
const TURN: u64 = 108;

/// How many each later request adds: more where states are kept and broken than where there are none.
const fn share(request: Request) -> u64 {
    match request {
        Request::Recorder | Request::Force | Request::Commands => 12,
        Request::Pointer => 16,
        Request::Anonymous => 24,
    }
}

/// Makes one call after the other; some go on from the states that those before them ended in.
pub struct Maker {
    pub(crate) random: Random,
    writers: Vec<Writer>,
    /// Those with the option on.
    pointing: Vec<Writer>,
    /// Those that type A frames are for.
    anonymous: Vec<Writer>,
    readers: Vec<Reader>,
    cranes: Vec<Reader>,
    pod: Pod,
    next_first_byte: u8,
    next_unknown: [u64; 2],
    tags: Vec<&'static str>,
    made: u64,
    requests: &'static [Request],
}

impl Maker {
    /// The same seed makes the same script, of calls that `drive` knows.
    pub fn new(seed: u64) -> Maker {
        Maker::with(seed, Request::MADE)
    }

    /// The same with the calls of these requests.
    pub fn with(seed: u64, requests: &'static [Request]) -> Maker {
        let mut maker = Maker {
            random: Random::new(seed),
            writers: Vec::new(),
            pointing: Vec::new(),
            anonymous: Vec::new(),
            readers: Vec::new(),
            cranes: Vec::new(),
            pod: Pod::FRESH,
            next_first_byte: 0,
            next_unknown: [0; 2],
            tags: Vec::new(),
            made: 0,
            requests,
        };
        for _ in 0..KEPT_STATES {
            let setup = maker.setup(Layout::Panel);
            maker.writers.push(Writer::fresh(setup, false).expect("a good setup"));
            maker.readers.push(Reader::fresh(Layout::Panel, setup).expect("a good setup"));
            let setup = maker.setup(Layout::Crane);
            maker.cranes.push(Reader::fresh(Layout::Crane, setup).expect("a good setup"));
            let pointing = maker.fresh_pointing();
            maker.pointing.push(pointing);
        }
        maker
    }

    /// One call's line, with a comment line before it that says what it tries.
    pub fn lines(&mut self) -> String {
        let line = self.next_line();
        format!("# {}\n{line}\n", self.tags.join("; "))
    }

    /// The same line without its comment and its end.
    pub fn next_line(&mut self) -> String {
        self.tags.clear();
        self.made += 1;
        self.line()
    }

    fn line(&mut self) -> String {
        if self.made % LIMIT_TURN == 0 {
            return self.at_limit(self.made / LIMIT_TURN);
        }
        if self.random.once_in(20) {
            return self.bad_line();
        }
        if self.random.once_in(50) {
            return self.respelled();
        }
        let call = self.call();
        let line = call.line();
        debug_assert_eq!(Call::parse(line.as_bytes()), Some(call));
        line
    }

    fn call(&mut self) -> Call {
        let later: u64 = self.requests.iter().map(|request| share(*request)).sum();
        match self.random.below(TURN + later) {
            0..=3 => Call::New { setup: self.any_setup(Layout::Panel), pointer: false },
            4..=32 => self.write(),
            33..=67 => self.reader_call(Layout::Panel),
            68..=90 => {
                self.tag(CRANE);
                self.reader_call(Layout::Crane)
            }
            91 => Call::Start,
            92..=99 => self.pod(),
            100..TURN => self.pieces_call(),
            turn => self.later_call(self.later(turn - TURN)),
        }
    }

    /// The request whose share a turn behind the others falls into.
    fn later(&self, turn: u64) -> Request {
        let mut shares = self.requests.iter().flat_map(|request| (0..share(*request)).map(|_| *request));
        shares.nth(turn as usize).expect("a turn of one of them")
    }

    fn later_call(&mut self, request: Request) -> Call {
        match request {
            Request::Recorder => Call::Recorder(self.recorder_call()),
            Request::Force => Call::Force(self.force_call()),
            Request::Commands => Call::Commands(self.commands_call()),
            Request::Pointer => self.pointer_call(),
            Request::Anonymous => self.anonymous_call(),
        }
    }

    fn reader_call(&mut self, layout: Layout) -> Call {
        match self.random.below(35) {
            0..=2 => Call::Fresh(layout, self.any_setup(layout)),
            3..=13 => self.run(layout),
            14..=22 => self.one(layout),
            23..=29 => self.load(layout),
            30..=32 => self.ask(layout),
            _ => self.good(layout),
        }
    }

    fn tag(&mut self, tag: &'static str) {
        debug_assert!(tag == CRANE || tried::is_tried(tag), "{tag}");
        if !self.tags.contains(&tag) {
            self.tags.push(tag);
        }
    }
}

#[cfg(test)]
mod tests {
    use super::*;
    use crate::script::{answer_line, BAD_LINE};

    #[test]
    fn the_same_seed_makes_the_same_script() {
        let script = |seed| {
            let mut maker = Maker::with(seed, Request::ALL);
            (0..200).map(|_| maker.lines()).collect::<String>()
        };
        assert_eq!(script(1), script(1));
        assert_ne!(script(1), script(2));
    }

    /// Few slots try most rules best; each number of slots comes, and the most often.
    #[test]
    fn small_panels_stay_frequent() {
        let mut maker = Maker::new(5);
        let mut counts = [0; 33];
        for _ in 0..4_000 {
            counts[maker.setup(Layout::Panel).slots as usize] += 1;
            assert!(maker.setup(Layout::Crane).slots <= 16);
        }
        assert!(counts[1..].iter().all(|count| *count > 10), "{counts:?}");
        assert!(counts[1..=3].iter().sum::<u32>() > 1_600 && counts[32] > 500, "{counts:?}");
    }

    #[test]
    fn comments_say_what_is_true_of_their_line() {
        let mut maker = Maker::with(3, Request::ALL);
        for _ in 0..4000 {
            let lines = maker.lines();
            let (comment, line) = lines.strip_suffix('\n').unwrap().split_once('\n').unwrap();
            let answer = answer_line(line.as_bytes());
            assert_eq!(comment.starts_with("# line: "), answer == BAD_LINE, "{comment}\n{line}");
            if comment.contains("broken: ") {
                let call = Call::parse(line.as_bytes()).unwrap();
                let good = match call.writer() {
                    Some(writer) => writer.is_well_formed(),
                    None => {
                        call.pieces().map(|pieces| &pieces.reader).or(call.reader()).expect(comment).is_well_formed()
                    }
                };
                assert!(!good, "{comment}\n{line}");
            } else if comment.contains("pieces: held too many") || comment.contains("pieces: unused place") {
                let call = Call::parse(line.as_bytes()).unwrap();
                let pieces = call.pieces().expect(comment);
                assert!(pieces.reader.is_well_formed() && !pieces.is_well_formed(), "{comment}\n{line}");
            } else if comment.contains("state: ") {
                assert!(!answer.starts_with("2 ") && answer != "refused 2", "{comment}");
            }
        }
    }
}
