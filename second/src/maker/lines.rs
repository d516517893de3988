//! Lines that are no call: one thing is wrong with each.

use super::Maker;
use crate::commands::Command;
use crate::requests::Request;
use crate::script::{head_numbers, reader_numbers, setup_numbers};
use crate::script::{
    Call, CommandsCall, ForceCall, RecorderCall, BEFORE_POINTER, COMMANDS, CRANE, FORCE, PIECES, PIECES_NUMBERS,
    POD_NUMBERS, RECORDER, WRITER_NUMBERS,
};
use crate::table::{Layout, SLOTS};

/// Numbers that a type cannot hold: the next ones outside, and such as would be cut to good ones.
type Outside = &'static [&'static str];
const NO_64_BITS: Outside = &["-1", "18446744073709551616", "18446744073709551617", "-9223372036854775809"];
const NO_32_BITS: Outside = &["-1", "4294967296", "4294967297", "18446744073709551616"];
const NO_SIGNED_32: Outside = &["2147483648", "-2147483649", "4294967295", "-4294967296"];
const NO_16_BITS: Outside = &["65536", "-1", "65539"];
const NO_SIGNED_16: Outside = &["32768", "-32769", "65535", "-65536"];
const NO_SIGNED_BYTE: Outside = &["128", "-129", "255", "-256"];
const NO_COMMAND: Outside = &["10", "10", "11", "-1", "256", "4294967296"];
const NO_BYTE: Outside = &["256", "-1", "257"];
const NO_MODE: Outside = &["3", "3", "-1", "256", "4294967296"];
const NO_FLAG: Outside = &["2", "2", "3", "-1", "256", "257", "4294967296", "4294967297"];
const NO_SIZE: Outside = &["4097", "4097", "-1", "4294967296", "65536"];

impl Maker {
    /// Its comment says what is wrong with the line, and nothing of the call that it was made of.
    pub(super) fn bad_line(&mut self) -> String {
        match self.random.below(25) {
            0..=2 => return self.near_miss(),
            3 => {
                self.tag("line: spaces alone");
                return " ".repeat(self.random.from_to(1, 5) as usize);
            }
            4 => return self.bad_waits(),
            5 => return self.bad_cut(),
            6 if self.requests.contains(&Request::Pointer) => return self.bad_option(),
            _ => {}
        }
        let call = match self.call() {
            // It has no number to leave out or to change.
            Call::Start => Call::New { setup: self.setup(Layout::Panel), pointer: false },
            call => call,
        };
        self.tags.clear();
        let mut words: Vec<String> = call.line().split(' ').map(str::to_string).collect();
        match self.random.below(19) {
            0..=2 => {
                self.tag("line: no such word");
                words[0] = self.random.pick(&["zero", "q", "12", "-1", "?", "x", " #"]).to_string();
            }
            3..=5 => {
                self.tag("line: too few numbers");
                let fewer = self.random.below(fixed(&call) as u64) as usize;
                words.truncate(self.random.pick(&[1 + fewer, fixed(&call)]));
            }
            6..=8 => {
                self.tag("line: too many numbers");
                if takes_any_count(&call) {
                    let full = [
                        "start",
                        "fresh 1 2 3 4 5 6",
                        "new 1 2 3 4 5 6 0",
                        "crane_fresh 1 2 3 4",
                        "pieces_fresh 1 2 3 4 5 6",
                    ];
                    words = self.random.pick(&full).split(' ').map(str::to_string).collect();
                }
                words.push("0".to_string());
            }
            9..=12 => {
                self.tag("line: not a number");
                self.misspell(&mut words);
            }
            _ => {
                self.tag("line: a number that its type cannot hold");
                self.overfill(&call, &mut words);
            }
        }
        words.join(" ")
    }

    /// A good call of a pod but for whether it waits.
    fn bad_waits(&mut self) -> String {
        let line = self.pod().line();
        self.tags.clear();
        self.tag("line: a pod that waits by neither 0 nor 1");
        let mut words: Vec<&str> = line.split(' ').collect();
        words[1] = self.random.pick(NO_FLAG);
        words.join(" ")
    }

    /// A good call of a writer but for the option.
    fn bad_option(&mut self) -> String {
        let (call, place) = match self.random.below(3) {
            0 => (Call::New { setup: self.setup(Layout::Panel), pointer: true }, setup_numbers(Layout::Panel) + 1),
            1 => (self.write(), BEFORE_POINTER + 1),
            _ => {
                let writer = self.fresh_pointing();
                let frame = self.pointer_frame(&writer);
                (Call::Write { writer, position: 0, size: 40, frame }, BEFORE_POINTER + 1)
            }
        };
        self.tags.clear();
        self.tag("line: an option that is neither 0 nor 1");
        let line = call.line();
        let mut words: Vec<&str> = line.split(' ').collect();
        words[place] = self.random.pick(NO_FLAG);
        words.join(" ")
    }

    /// Pieces that are together not the bytes: one length or the count is another, or a byte too many or too few.
    fn bad_cut(&mut self) -> String {
        let (line, lengths, bytes) = loop {
            if let call @ Call::PiecesTake { .. } = self.pieces_call() {
                let Call::PiecesTake { cut, .. } = &call else { unreachable!("it is one") };
                break (call.line(), cut.lengths.clone(), cut.bytes.len());
            }
        };
        self.tags.clear();
        self.tag("line: pieces of other lengths than the bytes");
        let mut words: Vec<String> = line.split(' ').map(str::to_string).collect();
        let count = PIECES_NUMBERS + 1;
        let i = self.random.below(lengths.len() as u64) as usize;
        match self.random.below(6) {
            0 if bytes > 0 => {
                words.pop();
            }
            1 | 2 => words[count + 1 + i] = (lengths[i] + self.random.pick(&[1, 1, 1 << 32, 1 << 63])).to_string(),
            3 if lengths[i] > 0 => words[count + 1 + i] = (lengths[i] - 1).to_string(),
            4 => {
                words.truncate(count);
                words.push("0".to_string());
            }
            _ => words.push("0".to_string()),
        }
        words.join(" ")
    }

    /// A good call but for its word, which a look at less than the whole word takes for the call's name.
    fn near_miss(&mut self) -> String {
        // Without this it would be rare, and its line is the only one that a word alone makes good.
        let call = match self.random.below(8) {
            0 | 1 => Call::Start,
            2 => self.pieces_call(),
            _ => self.call(),
        };
        let line = call.line();
        self.tags.clear();
        self.tag("line: a word that is nearly one");
        let name = call.name();
        let numbers = &line[name.len()..];
        let word = match self.random.below(9) {
            0 => name[..1].to_string(),
            1 => name[..name.len() - 1].to_string(),
            2 => name.to_string() + self.random.pick(&["ly", "s", "0", "-", "#"]),
            3 => name[..1].to_uppercase() + &name[1..],
            4 => other_word(&call),
            _ => self.other_prefix(&call),
        };
        word + numbers
    }

    /// What says that a call is on a crane's reader, written otherwise, or in front of a call that is on none.
    fn other_prefix(&mut self, call: &Call) -> String {
        let name = call.name();
        if let Some(name) = name.strip_prefix(PIECES).filter(|_| self.random.once_in(2)) {
            return self.random.pick(&["piece_", "piece_", "pieces", "pieces-", "Pieces_"]).to_string() + name;
        }
        if let Some(name) = name.strip_prefix(RECORDER) {
            return self.random.pick(&["record_", "recorder", "recorder-", "crane_recorder_", ""]).to_string() + name;
        }
        if let Some(name) = name.strip_prefix(FORCE) {
            return self.random.pick(&["forces_", "force", "force-", "pieces_", ""]).to_string() + name;
        }
        if let Some(name) = name.strip_prefix(COMMANDS) {
            return self.random.pick(&["command_", "commands", "commands-", "pod_", ""]).to_string() + name;
        }
        match (call.layout(), name.strip_prefix(CRANE)) {
            (None, _) => format!("{CRANE}{name}"),
            (_, Some(name)) => {
                self.random.pick(&["crane", "crane", "crane-", "cranes_", "_", "Crane_"]).to_string() + name
            }
            _ => self.random.pick(&["panel_", "_", "crane", "cranes_"]).to_string() + &name,
        }
    }

    /// One number becomes what a hasty look takes for one.
    fn misspell(&mut self, words: &mut [String]) {
        let last = words.len() - 1;
        let place = self.random.from_to(1, last as u64) as usize;
        let negative = words.iter().position(|word| word.starts_with('-'));
        let old = words[place].clone();
        match self.random.below(9) {
            0 => words[place] = "-".to_string(),
            1 => words[place] = old + "x",
            2 => words[place] = old + ".5",
            3 => words[place] = old + "-",
            4 => words[place] = "+".to_string() + &old,
            5 => words[place] = "0x".to_string() + &old,
            6 => words[place] = "\t".to_string() + &old,
            7 => words[last] += "\r",
            // Where a negative number may stand, a second sign is all that is wrong.
            _ => match negative {
                Some(place) => words[place].insert(0, '-'),
                None => words[place] = "--".to_string() + &old,
            },
        }
    }

    /// One number becomes one that its type cannot hold.
    fn overfill(&mut self, call: &Call, words: &mut [String]) {
        let mut places = self.state_places(call);
        places.extend(self.rest_places(call, words.len() - 1));
        let (place, outside) = self.random.pick(&places);
        words[place] = self.random.pick(outside).to_string();
    }

    /// Places of a call's setup or state, and what their types cannot hold; of its tables one slot.
    fn state_places(&mut self, call: &Call) -> Vec<(usize, Outside)> {
        let layout = call.layout().unwrap_or(Layout::Panel);
        let setup = (1..=setup_numbers(layout)).map(|place| (place, if place == 1 { NO_64_BITS } else { NO_32_BITS }));
        let (tables, last_of_head) = match call {
            Call::Start | Call::Pod { .. } | Call::Recorder(_) | Call::Force(_) | Call::Commands(_) => {
                return Vec::new()
            }
            Call::New { .. } => return setup.chain([(setup_numbers(layout) + 1, NO_FLAG)]).collect(),
            Call::Fresh(..) | Call::PiecesFresh(_) => return setup.collect(),
            Call::Write { .. } | Call::Anonymous { .. } => (1, vec![NO_32_BITS]),
            _ => (2, vec![NO_MODE, NO_MODE]),
        };
        let head = head_numbers(layout);
        let s = self.random.below((tables * layout.slots()) as u64) as usize;
        let slot = head + 1 + layout.slot_numbers() * s;
        let numbers = (1..=layout.numbers()).map(|i| (slot + i, NO_32_BITS));
        setup
            .chain([(head - 1, NO_64_BITS), (slot, NO_SIGNED_32)])
            .chain(last_of_head.into_iter().map(|outside| (head, outside)))
            .chain(numbers)
            .collect()
    }

    /// The same of what a writer holds for the display; of its ranks one.
    fn pointer_places(&mut self) -> Vec<(usize, Outside)> {
        let rank = self.random.from_to(1, SLOTS as u64) as usize;
        let kinds = [NO_FLAG, NO_BYTE, NO_16_BITS, NO_32_BITS, NO_32_BITS];
        let told = kinds.into_iter().enumerate().map(|(i, outside)| (BEFORE_POINTER + 1 + i, outside));
        told.chain([(BEFORE_POINTER + kinds.len() + rank, NO_BYTE)]).collect()
    }

    /// The same of what stands behind the state; `last` is the place of the line's last number.
    fn rest_places(&mut self, call: &Call, last: usize) -> Vec<(usize, Outside)> {
        let state = fixed(call);
        match call {
            Call::Pod { .. } => {
                let byte = self.random.from_to(3, last as u64) as usize;
                vec![(1, NO_FLAG), (2, NO_64_BITS), (byte, NO_BYTE), (last, NO_BYTE)]
            }
            Call::Run { .. } if last > state => vec![(last, NO_BYTE); 3],
            Call::One { .. } => vec![(last - 2, NO_16_BITS), (last - 1, NO_16_BITS), (last, NO_SIGNED_32)],
            Call::PiecesTake { .. } => {
                let place = self.random.from_to(PIECES_NUMBERS as u64 - 6, PIECES_NUMBERS as u64) as usize;
                let held = [(PIECES_NUMBERS - 7, NO_64_BITS), (place, NO_BYTE), (place, NO_BYTE)];
                let cut = [(PIECES_NUMBERS + 1, NO_64_BITS), (PIECES_NUMBERS + 2, NO_64_BITS), (last, NO_BYTE)];
                [held, cut].concat()
            }
            Call::Ask { .. } | Call::PiecesAsk { .. } => vec![(last, NO_64_BITS)],
            Call::Load { .. } | Call::PiecesLoad { .. } if last > state => {
                vec![(state, NO_64_BITS), (last, NO_SIGNED_32)]
            }
            Call::Write { .. } | Call::Anonymous { .. } => {
                let room = [(WRITER_NUMBERS + 1, NO_64_BITS), (WRITER_NUMBERS + 2, NO_SIZE)];
                let outside = if let Call::Write { .. } = call { NO_SIGNED_32 } else { NO_BYTE };
                let frame = if last > state { vec![(last, outside)] } else { Vec::new() };
                [&room[..], &room, &frame, &self.pointer_places()].concat()
            }
            Call::Recorder(call) => recorder_places(call, last),
            Call::Force(call) => force_places(call, last),
            Call::Commands(call) => commands_places(call, last),
            _ => Vec::new(),
        }
    }
}

/// How many numbers a call has at least.
fn fixed(call: &Call) -> usize {
    let layout = call.layout().unwrap_or(Layout::Panel);
    match call {
        Call::Start => 0,
        Call::Fresh(..) | Call::PiecesFresh(_) => setup_numbers(layout),
        Call::New { .. } => setup_numbers(layout) + 1,
        Call::PiecesTake { .. } => PIECES_NUMBERS + 2,
        Call::PiecesLoad { .. } | Call::PiecesAsk { .. } => PIECES_NUMBERS + 1,
        Call::Pod { .. } => POD_NUMBERS + 1,
        Call::Ask { .. } | Call::Load { .. } => reader_numbers(layout) + 1,
        Call::One { .. } => reader_numbers(layout) + 3,
        Call::Run { .. } | Call::Good { .. } => reader_numbers(layout),
        Call::Write { .. } | Call::Anonymous { .. } => WRITER_NUMBERS + 2,
        Call::Recorder(RecorderCall::Lay { .. }) => 3,
        Call::Recorder(_) | Call::Force(ForceCall::Read { .. }) | Call::Commands(CommandsCall::Read { .. }) => 1,
        Call::Force(ForceCall::Write { .. }) => 8,
        Call::Commands(CommandsCall::Write { .. }) => call.line().split(' ').count() - 1,
    }
}

/// Places of a call of commands, and what their types cannot hold.
fn commands_places(call: &CommandsCall, last: usize) -> Vec<(usize, Outside)> {
    const POSITION: usize = POD_NUMBERS + 1;
    const COMMAND: usize = POSITION + 2;
    let command = match call {
        CommandsCall::Read { bytes, .. } if bytes.is_empty() => return vec![(1, NO_64_BITS)],
        CommandsCall::Read { .. } => return vec![(1, NO_64_BITS), (last, NO_BYTE)],
        CommandsCall::Write { command, .. } => command,
    };
    let mut places = vec![(1, NO_FLAG), (2, NO_64_BITS), (POD_NUMBERS, NO_BYTE)];
    places.extend([(POSITION, NO_64_BITS), (POSITION + 1, NO_SIZE), (COMMAND, NO_COMMAND)]);
    match command {
        Command::Absolute { .. } | Command::Load { .. } => places.extend([(last - 1, NO_16_BITS), (last, NO_16_BITS)]),
        _ if last > COMMAND => places.extend([(COMMAND + 1, NO_BYTE), (last, NO_BYTE)]),
        _ => {}
    }
    places
}

/// Places of a force stick's call, and what their types cannot hold.
fn force_places(call: &ForceCall, last: usize) -> Vec<(usize, Outside)> {
    match call {
        ForceCall::Read { bytes, .. } if bytes.is_empty() => vec![(1, NO_64_BITS)],
        ForceCall::Read { .. } => vec![(1, NO_64_BITS), (last, NO_BYTE)],
        ForceCall::Write { .. } => {
            let signed = [(1, NO_SIGNED_16), (2, NO_SIGNED_16), (6, NO_SIGNED_BYTE)];
            let others = [(3, NO_BYTE), (4, NO_16_BITS), (5, NO_BYTE), (7, NO_64_BITS), (8, NO_SIZE)];
            signed.into_iter().chain(others).collect()
        }
    }
}

/// Places of a recorder's call, and what their types cannot hold.
fn recorder_places(call: &RecorderCall, last: usize) -> Vec<(usize, Outside)> {
    let mut places = vec![(1, NO_32_BITS)];
    if let RecorderCall::Lay { .. } = call {
        places.extend([(2, NO_64_BITS), (3, NO_SIZE)]);
    }
    if !call.bytes().is_empty() {
        places.push((last, NO_BYTE));
    }
    places
}

/// Whether more numbers than that make it another call and no bad line.
pub(super) fn takes_any_count(call: &Call) -> bool {
    let is_load = matches!(call, Call::Load { .. } | Call::PiecesLoad { .. });
    let is_read = matches!(call, Call::Force(ForceCall::Read { .. }) | Call::Commands(CommandsCall::Read { .. }));
    let is_bytes = is_read || matches!(call, Call::Recorder(_) | Call::Anonymous { .. });
    is_load || is_bytes || matches!(call, Call::Run { .. } | Call::Write { .. } | Call::Pod { .. })
}

/// A word that begins as the call's does.
fn other_word(call: &Call) -> String {
    let word = match call {
        Call::Fresh(..) => "foo",
        Call::New { .. } => "next",
        Call::Run { .. } => "read",
        Call::One { .. } => "open",
        Call::Load { .. } => "list",
        Call::Ask { .. } => "all",
        Call::Write { .. } => "wrote",
        Call::Anonymous { .. } => "another",
        Call::Good { .. } => "get",
        Call::PiecesFresh(_) => "pieces_first",
        Call::PiecesTake { .. } => "pieces_tell",
        Call::PiecesLoad { .. } => "pieces_list",
        Call::PiecesAsk { .. } => "pieces_all",
        Call::Start => "stop",
        Call::Pod { .. } => "put",
        Call::Recorder(RecorderCall::Block { .. }) => "recorder_blow",
        Call::Recorder(RecorderCall::Lay { .. }) => "recorder_load",
        Call::Recorder(RecorderCall::Read { .. }) => "recorder_run",
        Call::Force(ForceCall::Read { .. }) => "force_ready",
        Call::Force(ForceCall::Write { .. }) => "force_wrote",
        Call::Commands(CommandsCall::Read { .. }) => "commands_ready",
        Call::Commands(CommandsCall::Write { .. }) => "commands_wrote",
    };
    let prefix = if call.layout() == Some(Layout::Crane) { CRANE } else { "" };
    format!("{prefix}{word}")
}
