//! What a wrong program is: it answers as the rules do, but for one mistake. The mistake stands around the rules and never in them.

use second::events::{events, Event, EV_ABS, EV_SYN};
use second::pieces::PieceReader;
use second::pod::{Pod, Report};
use second::reader::{Ran, Reader};
use second::recorder::BLOCK;
use second::refusal::Refusal;
use second::script::{
    marks, reader_numbers, Call, CommandsCall, ForceCall, InWords, RecorderCall, PIECES_NUMBERS, POD_NUMBERS,
    WRITER_NUMBERS,
};
use second::table::SlotNumber;
use second::writer::Writer;

/// A line of a script, what it is, and the right answer.
pub struct Asked<'a> {
    pub line: &'a str,
    pub call: Option<&'a Call>,
    pub right: &'a str,
}

/// A program with one mistake.
pub struct Wrong {
    pub name: String,
    answer: Box<Answer>,
}

type Answer = dyn Fn(&Asked) -> Option<String>;

impl Wrong {
    /// Whether this line shows the mistake.
    pub fn shows(&self, asked: &Asked) -> bool {
        (self.answer)(asked).is_some_and(|answer| answer != asked.right)
    }
}

/// By its whole answer; `None` where it answers as the rules do.
pub fn answers(name: impl Into<String>, answer: impl Fn(&Asked) -> Option<String> + 'static) -> Wrong {
    Wrong { name: name.into(), answer: Box::new(answer) }
}

/// It takes a call for another one, and that one's answer is right.
pub fn takes(name: impl Into<String>, change: impl Fn(&mut Call) + 'static) -> Wrong {
    answers(name, move |asked| {
        let mut other = asked.call?.clone();
        change(&mut other);
        if other == *asked.call? {
            return None;
        }
        let answer = other.answer();
        // Of the same refusal it gives back the state that came in, and not the one that it takes it for.
        (refusal(&answer, &other) == 0 || verdict(&answer, &other) != verdict(asked.right, &other)).then_some(answer)
    })
}

/// It refuses a call that it is to take, or for a reason that is judged later.
pub fn refuses(name: impl Into<String>, number: u8, when: impl Fn(&Call) -> bool + 'static) -> Wrong {
    answers(name, move |asked| {
        let right = refusal(asked.right, asked.call?);
        ((right == 0 || right > number) && when(asked.call?)).then(|| refused(asked.call.unwrap(), number))
    })
}

/// It judges this before anything else.
pub fn judges_early(name: impl Into<String>, number: u8, when: impl Fn(&Call) -> bool + 'static) -> Wrong {
    answers(name, move |asked| when(asked.call?).then(|| refused(asked.call.unwrap(), number)))
}

/// It does the right thing, and says it otherwise; the words are those of the right answer.
pub fn says(name: impl Into<String>, change: impl Fn(&Call, &mut Vec<String>) + 'static) -> Wrong {
    answers(name, move |asked| {
        let mut words = asked.right.split(' ').map(str::to_string).collect();
        change(asked.call?, &mut words);
        Some(words.join(" "))
    })
}

/// It reads a record otherwise. The reader that it is handed is well formed, until its mistake makes another of it.
pub fn steps(name: impl Into<String>, step: impl Fn(&mut Reader, Event) -> Ran + 'static) -> Wrong {
    runs(name, step, |records| records.iter().find_map(|(_, ran)| ran.first_skipped))
}

/// It reads a record otherwise, or finds another first skipped one among the records and what each of them told.
pub fn runs(
    name: impl Into<String>,
    step: impl Fn(&mut Reader, Event) -> Ran + 'static,
    first: impl Fn(&[(Event, Ran)]) -> Option<(u16, u16)> + 'static,
) -> Wrong {
    answers(name, move |asked| {
        let (mut reader, events) = match asked.call? {
            Call::Run { reader, bytes } => (reader.clone(), events(bytes).collect()),
            Call::One { reader, event } => (reader.clone(), vec![*event]),
            _ => return None,
        };
        if refusal(asked.right, asked.call?) != 0 {
            return None;
        }
        let records: Vec<_> = events.into_iter().map(|event| (event, step(&mut reader, event))).collect();
        let mut sum = Ran { first_skipped: first(&records), ..Ran::NOTHING };
        for (_, ran) in records {
            sum.shown += ran.shown;
            sum.unknown_type += ran.unknown_type;
            sum.unknown_code += ran.unknown_code;
            sum.bad += ran.bad;
            sum.ignored += ran.ignored;
        }
        Some(format!("0 {} {}", reader_text(&reader), ran_text(&sum)))
    })
}

/// The right step. A reader that a mistake broke is one that no rule tells of: its answer differs already.
pub fn right_step(reader: &mut Reader, event: Event) -> Ran {
    reader.one(event).unwrap_or(Ran::NOTHING)
}

/// What is told of a record that is skipped.
pub fn skipped(event: Event) -> Ran {
    let is_known = matches!(event.kind, EV_SYN | EV_ABS);
    Ran {
        unknown_type: u64::from(!is_known),
        unknown_code: u64::from(is_known),
        first_skipped: Some((event.kind, event.code)),
        ..Ran::NOTHING
    }
}

/// It takes a pod's byte otherwise.
pub fn pods(name: impl Into<String>, take: impl Fn(&mut Pod, u8) -> Result<Report, Refusal> + 'static) -> Wrong {
    answers(name, move |asked| {
        let Call::Pod { pod, bytes } = asked.call? else {
            return None;
        };
        let mut pod = *pod;
        let steps: Vec<String> = bytes.iter().map(|byte| pod_step(&mut pod, |pod| take(pod, *byte))).collect();
        Some(steps.join(" / "))
    })
}

fn pod_step(pod: &mut Pod, take: impl Fn(&mut Pod) -> Result<Report, Refusal>) -> String {
    match take(pod) {
        Ok(report) => format!("{} {}", pod_text(pod), InWords(report)),
        Err(refusal) => format!("{} refused {}", pod_text(pod), refusal.number()),
    }
}

/// It takes a piece otherwise.
pub fn cuts(
    name: impl Into<String>,
    take: impl Fn(&mut PieceReader, &[u8]) -> Result<Ran, Refusal> + 'static,
) -> Wrong {
    answers(name, move |asked| {
        let Call::PiecesTake { pieces, cut } = asked.call? else {
            return None;
        };
        let mut state = pieces.clone();
        let mut step = |piece: &[u8]| {
            let taken = take(&mut state, piece);
            taken_text(&state, &taken)
        };
        let steps: Vec<String> = cut.pieces().map(&mut step).collect();
        Some(steps.join(" / "))
    })
}

/// What one piece is answered: the verdict, the state behind it and what was told.
pub fn taken_text(state: &PieceReader, taken: &Result<Ran, Refusal>) -> String {
    let (verdict, ran) = match taken {
        Ok(ran) => (0, *ran),
        Err(refusal) => (refusal.number(), Ran::NOTHING),
    };
    format!("{verdict} {} {}", pieces_text(state), ran_text(&ran))
}

/// The number of the refusal that an answer is; 0 for none.
pub fn refusal(answer: &str, call: &Call) -> u8 {
    let first = answer.split(' ').next().unwrap_or("");
    match call {
        Call::Good { .. } => 2 * u8::from(first == "0"),
        Call::Ask { .. } | Call::PiecesAsk { .. } => 2 * u8::from(first == "refused"),
        Call::Start | Call::Pod { .. } => 2 * u8::from(answer.ends_with("refused 2")),
        Call::Commands(CommandsCall::Read { .. }) => 11 * u8::from(answer.ends_with("refused 11")),
        _ => first.parse().expect("a verdict"),
    }
}

/// The refusal with its need.
fn verdict(answer: &str, call: &Call) -> (u8, Option<String>) {
    let need = match call {
        Call::Write { .. } | Call::Anonymous { .. } => answer.split(' ').nth(WRITER_NUMBERS + 3).map(str::to_string),
        Call::Recorder(RecorderCall::Lay { .. }) => answer.split(' ').nth(3).map(str::to_string),
        Call::Force(ForceCall::Write { .. }) => answer.split(' ').nth(1).map(str::to_string),
        Call::Commands(CommandsCall::Write { .. }) => answer.split(' ').nth(POD_NUMBERS + 1).map(str::to_string),
        _ => None,
    };
    (refusal(answer, call), need)
}

/// The answer where a call is refused, with no need.
pub fn refused(call: &Call, number: u8) -> String {
    match call {
        Call::Fresh(layout, _) => format!("{number}{}", " 0".repeat(reader_numbers(*layout))),
        Call::New { .. } => format!("{number}{}", " 0".repeat(WRITER_NUMBERS)),
        Call::PiecesFresh(_) => format!("{number}{}", " 0".repeat(PIECES_NUMBERS)),
        Call::PiecesTake { pieces, cut } => {
            let step = format!("{number} {} {}", pieces_text(pieces), ran_text(&Ran::NOTHING));
            vec![step; cut.lengths.len()].join(" / ")
        }
        Call::PiecesLoad { pieces, .. } => format!("{number} {}", pieces_text(pieces)),
        Call::Run { reader, .. } | Call::One { reader, .. } => {
            format!("{number} {} {}", reader_text(reader), ran_text(&Ran::NOTHING))
        }
        Call::Load { reader, .. } => format!("{number} {}", reader_text(reader)),
        Call::Ask { .. } | Call::PiecesAsk { .. } => format!("refused {number}"),
        Call::Good { .. } => "0".to_string(),
        Call::Write { writer, size, .. } | Call::Anonymous { writer, size, .. } => {
            format!("{number} {} 0 0 0 :{}", writer_text(writer), bytes_text(&marks(*size)))
        }
        Call::Start | Call::Pod { .. } => format!("refused {number}"),
        Call::Recorder(RecorderCall::Block { .. }) => format!("{number} :{}", " 0".repeat(BLOCK)),
        Call::Recorder(RecorderCall::Lay { number: next, size, .. }) => {
            format!("{number} 0 {next} 0 :{}", bytes_text(&marks(*size)))
        }
        Call::Recorder(RecorderCall::Read { .. }) | Call::Force(ForceCall::Read { .. }) => number.to_string(),
        Call::Commands(CommandsCall::Read { .. }) => format!("refused {number}"),
        Call::Commands(CommandsCall::Write { pod, size, .. }) => {
            format!("{number} {} 0 :{}", pod_text(pod), bytes_text(&marks(*size)))
        }
        Call::Force(ForceCall::Write { size, .. }) => format!("{number} 0 :{}", bytes_text(&marks(*size))),
    }
}

/// Its numbers as they stand in a line.
pub fn reader_text(reader: &Reader) -> String {
    numbers_of(&Call::Good { reader: reader.clone() })
}

/// Its numbers as they stand in a line.
pub fn pieces_text(pieces: &PieceReader) -> String {
    let asked = Call::PiecesAsk { pieces: pieces.clone(), slot: SlotNumber(0) };
    numbers_of(&asked).strip_suffix(" 0").expect("a slot").to_string()
}

/// Its numbers as they stand in a line.
pub fn writer_text(writer: &Writer) -> String {
    let line = numbers_of(&Call::Write { writer: writer.clone(), position: 0, size: 0, frame: Vec::new() });
    line.strip_suffix(" 0 0").expect("position and size").to_string()
}

fn pod_text(pod: &Pod) -> String {
    numbers_of(&Call::Pod { pod: *pod, bytes: Vec::new() })
}

fn numbers_of(call: &Call) -> String {
    call.line()[call.name().len() + 1..].to_string()
}

fn ran_text(ran: &Ran) -> String {
    let first = ran.first_skipped.map_or("none".to_string(), |(kind, code)| format!("{kind} {code}"));
    format!("{} {} {} {} {} {first}", ran.shown, ran.unknown_type, ran.unknown_code, ran.bad, ran.ignored)
}

/// Bytes as they stand behind the `:` of an answer.
pub fn bytes_text(bytes: &[u8]) -> String {
    bytes.iter().map(|byte| format!(" {byte}")).collect()
}
