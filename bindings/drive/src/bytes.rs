//! `--bytes`: random bytes as states. What is no state must be refused by 2 and stay; what is formed must be answered as the second program answers its numbers.

mod changes;
mod odd;
mod seen;

use second::maker::Maker;
use second::pieces::{PieceReader, LEFT_OVER};
use second::random::Random;
use second::reader::Reader;
use second::refusal::Refusal;
use second::script::{answer_line, Call, CommandsCall, Cut, LONGEST_LINE, MOST_NUMBERS};
use second::table::Layout;

use crate::answers::{self, Told};
use crate::states::{self, each_byte_counts, Kind, Wrong};
use changes::{changed, room};
use seen::{Outcome, Seen};

/// One call in so many is an odd one.
const ODD_TURN: u64 = 25;
/// Fewer calls than these may miss an outcome by chance; then it is no failure.
const ENOUGH: u64 = 20_000;
/// How much of a line is shown.
const SHOWN: usize = 3_000;

/// So many calls; the status.
pub fn compare(count: u64, seed: u64) -> u8 {
    if !each_byte_counts() {
        eprintln!(
            "host_drive: a byte of a state is neither judged nor told here, so equal words would not be equal bytes"
        );
        return 2;
    }
    let mut trial = Trial { maker: Maker::new(seed), random: Random::new(!seed), seen: Seen::default(), tried: 0 };
    while trial.tried < count {
        if let Err(difference) = trial.next() {
            println!("host_drive: call {} of --bytes {count} {seed}: {difference}", trial.tried);
            return 1;
        }
    }
    print!("{}", trial.seen.report());
    let missing = trial.seen.missing();
    if !missing.is_empty() {
        println!("host_drive: never seen: {}", missing.join("; "));
        if count >= ENOUGH {
            return 1;
        }
        println!("host_drive: (fewer than {ENOUGH} calls, so that is no failure)");
    }
    println!("host_drive: {count} calls of seed {seed} on changed bytes, every answer as it should be");
    0
}

/// A refusal as a call answers it.
fn number(refusal: Refusal) -> u32 {
    refusal.number().into()
}

struct Trial {
    maker: Maker,
    random: Random,
    seen: Seen,
    tried: u64,
}

impl Trial {
    /// The maker's next call on a state, and its twin on the line's reader.
    fn next(&mut self) -> Result<(), String> {
        if self.random.once_in(ODD_TURN) {
            self.tried += 1;
            let (function, outcome) = odd::call(&mut self.random)?;
            self.seen.count(function, outcome);
        }
        let Some(call) = Call::parse(self.maker.next_line().as_bytes()) else { return Ok(()) };
        let twin = self.twin(&call);
        self.on_changed(&call)?;
        twin.map_or(Ok(()), |twin| self.on_changed(&twin))
    }

    /// The same call of the line's reader, which has few of the maker's own.
    fn twin(&mut self, call: &Call) -> Option<Call> {
        let held = self.random.below(LEFT_OVER as u64 + 1);
        let mut bytes = [0; LEFT_OVER];
        bytes[..held as usize].fill_with(|| self.random.word() as u8);
        if call.layout() == Some(Layout::Crane) {
            return None;
        }
        let pieces = |reader: &Reader| PieceReader { reader: reader.clone(), held, bytes };
        Some(match call {
            Call::Fresh(_, setup) | Call::New { setup, .. } => Call::PiecesFresh(*setup),
            Call::Run { reader, bytes } => {
                let cut = Cut { lengths: vec![bytes.len() as u64], bytes: bytes.clone() };
                Call::PiecesTake { pieces: pieces(reader), cut }
            }
            Call::Load { reader, current, image } => {
                Call::PiecesLoad { pieces: pieces(reader), current: *current, image: image.clone() }
            }
            Call::Ask { reader, slot } => Call::PiecesAsk { pieces: pieces(reader), slot: *slot },
            _ => return None,
        })
    }

    /// A call on its state's bytes, changed or not. One without a state is passed over, and one whose changed numbers no line holds.
    fn on_changed(&mut self, call: &Call) -> Result<(), String> {
        let (Ok(Some((kind, packed))), Some(function)) = (states::lent(call), function_of(call)) else { return Ok(()) };
        let bytes = match is_fresh(call) {
            true => room(&mut self.random, kind, packed),
            false => changed(&mut self.random, kind, packed),
        };
        let Some(due) = Due::of(call, kind, &bytes) else { return Ok(()) };
        self.tried += 1;
        let outcome = answers::answer(call, &bytes).and_then(|told| due.outcome(&told));
        self.seen.count(function, outcome.map_err(|why| shown(&why, function, call, &bytes))?);
        Ok(())
    }
}

/// The exported function that a call on a state is of, without the name that all begin with.
fn function_of(call: &Call) -> Option<&'static str> {
    Some(match call {
        Call::New { .. } => "writer_fresh",
        Call::Write { .. } => "write",
        Call::Anonymous { .. } => "write_anonymous",
        Call::Fresh(..) => "reader_fresh",
        Call::Run { .. } | Call::One { .. } => "run",
        Call::Load { .. } => "load",
        Call::Ask { .. } => "ask",
        Call::PiecesFresh(_) => "line_fresh",
        Call::PiecesTake { .. } => "take",
        Call::PiecesLoad { .. } => "line_load",
        Call::PiecesAsk { .. } => "line_ask",
        Call::Start => "pod_fresh",
        Call::Pod { .. } => "pod_step",
        Call::Commands(CommandsCall::Write { .. }) => "command_write",
        _ => return None,
    })
}

/// Whether a call makes its state, so that what stood there does not matter.
fn is_fresh(call: &Call) -> bool {
    matches!(call, Call::Fresh(..) | Call::New { .. } | Call::PiecesFresh(_) | Call::Start)
}

/// What should come of a call.
enum Due {
    /// Refusal 2, since the bytes are no state.
    NotFormed(Wrong),
    /// The second program's answer.
    Line(String),
}

impl Due {
    /// `None` where the second program cannot be asked: the line would be too long.
    fn of(call: &Call, kind: Kind, bytes: &[u8]) -> Option<Due> {
        let wrong = kind.wrong(bytes);
        if is_fresh(call) {
            let answer = call.answer();
            // The setup is judged before the room.
            let is_judged = *call != Call::Start && answer.starts_with(&format!("{} ", Refusal::Setup.number()));
            return Some(match wrong {
                Some(Wrong::Length) if !is_judged => Due::NotFormed(Wrong::Length),
                _ => Due::Line(answer),
            });
        }
        if let Some(wrong) = wrong {
            return Some(Due::NotFormed(wrong));
        }
        let line = with_state(call, kind, bytes);
        let is_line = line.len() <= LONGEST_LINE && line.split(' ').count() <= 1 + MOST_NUMBERS;
        is_line.then(|| Due::Line(answer_line(line.as_bytes())))
    }

    /// What came of it, where that is due.
    fn outcome(&self, told: &Told) -> Result<Outcome, String> {
        match self {
            Due::NotFormed(wrong) if told.refusals.iter().all(|told| *told == number(Refusal::State)) => {
                Ok(Outcome::NotFormed(*wrong))
            }
            Due::NotFormed(wrong) => Err(format!("not formed ({}), but told: {:?}", wrong.name(), told.refusals)),
            Due::Line(line) if *line == told.words => Ok(Outcome::of(told.refusals[0])),
            Due::Line(line) => {
                Err(format!("not as the second program\ntold:   {}\nsecond: {}", cut(&told.words), cut(line)))
            }
        }
    }
}

/// The call's line with the numbers of these bytes as its state, which stands behind the first word.
fn with_state(call: &Call, kind: Kind, bytes: &[u8]) -> String {
    let line = call.line();
    let words: Vec<&str> = line.split(' ').collect();
    let state = kind.words(bytes);
    [&words[..1], &[&state], &words[1 + kind.numbers()..]].concat().join(" ")
}

fn shown(why: &str, function: &str, call: &Call, bytes: &[u8]) -> String {
    let hex: String = bytes.iter().map(|byte| format!("{byte:02x}")).collect();
    let line = call.line();
    format!(
        "chandrulek_{function}: {why}\nstate: {} bytes {}\ncall with the state that it had: {}",
        bytes.len(),
        cut(&hex),
        cut(&line)
    )
}

fn cut(line: &str) -> &str {
    &line[..line.len().min(SHOWN)]
}
