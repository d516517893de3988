//! What a script tries, by the names in its comment lines. A tally that misses one of them is a script that was too short, or a hole in the maker.

use crate::requests::Request;

/// What a comment begins with where the call is one of a crane's reader.
pub const CRANE: &str = "crane";

/// What is tried with the panel's reader, and with a crane's too.
const READER: &[&str] = &[
    "setup: good",
    "setup: the most slots",
    "setup: n",
    "setup: one slot too many",
    "setup: largest x",
    "setup: largest y",
    "setup: largest pressure",
    "state: reached by calls",
    "state: any well-formed one",
    "broken: n",
    "broken: n cuts off a record in use",
    "broken: largest x",
    "broken: largest y",
    "broken: largest pressure",
    "broken: largest below a number in use",
    "broken: current slot",
    "broken: id in the shown table",
    "broken: id in the pending table",
    "broken: number in the shown table",
    "broken: number in the pending table",
    "broken: id repeated in the shown table",
    "broken: record past n in the shown table",
    "broken: record past n in the pending table",
    "broken: pending differs while lost",
    "allowed: id repeated in the pending table",
    "run: no records",
    "run: calm",
    "run: rough",
    "run: long",
    "run: many alike",
    "run: skipped before a loss",
    "run: unknown behind a loss alone",
    "run: what a writer sends",
    "run: ragged",
    "one: calm",
    "one: rough",
    "record: unknown type",
    "record: unknown code of type 0",
    "record: unknown code of type 3",
    "record: SYN_MT_REPORT",
    "load: while not stale",
    "load: good image",
    "load: length",
    "load: an image for the other reader",
    "load: id",
    "load: number",
    "load: number of an unused slot",
    "load: repeated id",
    "load: current slot",
    "ask: below n",
    "ask: n or more",
    "ask: id 0 or 65,535",
    "good: a well-formed one",
    "good: a broken one",
];

/// What is tried besides: with the panel's reader alone, with writers and pods, and in lines.
const OTHERS: &[&str] = &[
    "setup: largest major",
    "setup: largest minor",
    "broken: largest major",
    "broken: largest minor",
    "broken: counter",
    "broken: id in the writer's table",
    "broken: number in the writer's table",
    "broken: id repeated in the writer's table",
    "broken: record past n in the writer's table",
    "frame: equal",
    "frame: one number changed",
    "frame: one slot's kind changed",
    "frame: several slots changed",
    "frame: touch sizes alone changed",
    "frame: landings with the sizes that were there",
    "frame: every number changed",
    "frame: all begin",
    "frame: all lift",
    "frame: any good one",
    "frame: the upper half alone",
    "frame: junk in slots of kind 0",
    "frame: wrong length",
    "frame: four numbers a slot",
    "frame: bad kind",
    "frame: bad number",
    "frame: kind 0, pressure 0",
    "frame: kind 0, pressure 1",
    "frame: kind 1, pressure 0",
    "frame: kind 1, pressure 1",
    "frame: kind 2, pressure 0",
    "frame: kind 2, pressure 1",
    "ids: one in both halves",
    "ids: near the wrap",
    "ids: far apart",
    "ids: a block without a gap",
    "room: exact",
    "room: to spare",
    "room: one byte less",
    "room: less",
    "room: at the end",
    "room: past the end",
    "room: position near 2^64",
    "pieces: one piece",
    "pieces: byte by byte",
    "pieces: an empty piece",
    "pieces: cut inside a record",
    "pieces: cut between records",
    "pieces: a long string",
    "pieces: nothing held",
    "pieces: bytes held",
    "pieces: held too many",
    "pieces: unused place not 0",
    "pod: waits",
    "pod: does not wait",
    "pod: several bytes",
    "pod: first byte",
    "pod: F0 or near it while it waits",
    "pod: F0 or near it, not waited for",
    "pod: byte inside a report",
    "pod: F0 inside a report",
    "pod: held too many",
    "pod: held as many as the report is long",
    "pod: first byte opens nothing",
    "pod: unused place not 0",
    "line: no such word",
    "line: a word that is nearly one",
    "line: too few numbers",
    "line: too many numbers",
    "line: a number that its type cannot hold",
    "line: pieces of other lengths than the bytes",
    "line: a pod that waits by neither 0 nor 1",
    "line: not a number",
    "line: spaces alone",
    "line: too long",
    "line: one byte too many",
    "line: one number too many",
    "form: as many bytes as may be",
    "form: as many numbers as may be",
    "form: spaces and zeros too many",
];

/// What is tried with a crane's reader alone.
const CRANES: &[&str] = &["setup: a wide panel's n", "record: a touch size"];

/// What is tried with the recorder.
const RECORDER: &[&str] = &[
    "recorder: number 0",
    "recorder: the last number",
    "recorder: numbers past the last",
    "recorder: no records",
    "recorder: 62 records",
    "recorder: a block over full",
    "recorder: several blocks",
    "recorder: ragged",
    "recorder: ragged, without room",
    "recorder: as many blocks as may be",
    "recorder: a good block",
    "recorder: one byte altered",
    "recorder: one bit of the check altered",
    "recorder: two bytes altered, the sum as it was",
    "recorder: another number expected",
    "recorder: another number written",
    "recorder: count over 62",
    "recorder: count one less",
    "recorder: count one more",
    "recorder: byte 6 or 7 not zero",
    "recorder: a byte behind the events not zero",
    "recorder: several faults",
    "recorder: a piece cut",
    "recorder: a piece too long",
];

/// What is tried with the force stick.
const FORCE: &[&str] = &[
    "force: a report",
    "force: not for us",
    "force: a report's OP with another LEN",
    "force: length over 16",
    "force: wrong check",
    "force: a packet inside a refused one",
    "force: bytes before a packet",
    "force: many 2B",
    "force: bytes cut",
    "force: from the middle",
    "force: at the end",
    "force: past the end",
    "force: position near 2^64",
    "force: buttons over 4,095",
    "force: hat over 15",
];

/// What is tried with commands to the pod.
const COMMANDS: &[&str] = &[
    "commands: a good command",
    "commands: button action over 4",
    "commands: threshold 0",
    "commands: scale 0",
    "commands: a wrong digit",
    "commands: a filler that is not 0",
    "commands: 80 and another byte",
    "commands: any first byte",
    "commands: a report is held",
    "commands: bytes cut",
    "commands: from the middle",
    "commands: at the end",
    "commands: past the end",
    "commands: position near 2^64",
];

/// What is tried with pointer emulation.
const POINTER: &[&str] = &[
    "pointer: a new writer",
    "pointer: one lands",
    "pointer: two to five land",
    "pointer: six or more land",
    "pointer: lands where X and Y stand",
    "pointer: the oldest lifts",
    "pointer: the oldest is replaced",
    "pointer: the oldest moves",
    "pointer: another moves",
    "pointer: all land, every number changed",
    "pointer: all lift",
    "pointer: all are replaced",
    "pointer: a lift and a landing",
    "pointer: no contact, X and Y kept",
    "pointer: room for the contact events alone",
    "pointer: emulated events are read",
    "broken: pointer, a gap in the ranks",
    "broken: pointer, no rank 0",
    "broken: pointer, a rank of 32 or more",
    "broken: pointer, the rank of an unused slot",
    "broken: pointer, a rank past n",
    "broken: pointer, touch",
    "broken: pointer, tool",
    "broken: pointer, X is not the oldest's",
    "broken: pointer, Y is not the oldest's",
    "broken: pointer, X out of range",
    "broken: pointer, Y out of range",
    "broken: pointer off, all as with it on",
    "broken: pointer off, touch",
    "broken: pointer off, tool",
    "broken: pointer off, X",
    "broken: pointer off, Y",
    "broken: pointer off, a rank",
    "line: an option that is neither 0 nor 1",
];

/// What is tried with anonymous panels.
const ANONYMOUS: &[&str] = &[
    "anonymous: a full table",
    "anonymous: near the old contacts",
    "anonymous: on a grid",
    "anonymous: in the corners",
    "anonymous: where old contacts are",
    "anonymous: in the middle of two old contacts",
    "anonymous: anywhere",
    "anonymous: a packet with none",
    "anonymous: a repeated code",
    "anonymous: skipped records",
    "anonymous: skipped records behind the report",
    "anonymous: ragged",
    "anonymous: more than five contacts",
    "anonymous: more contacts than n",
    "anonymous: a value out of range",
    "anonymous: pressure 0",
    "anonymous: a number is left out",
    "anonymous: a SYN_MT_REPORT is left out",
    "anonymous: SYN_DROPPED",
    "anonymous: no report",
    "anonymous: two reports",
    "anonymous: a packet behind the report",
    "anonymous: a SYN_MT_REPORT behind the report",
    "anonymous: a number behind the last packet",
    "anonymous: no records",
];

/// What is tried with a request that `drive` did not always know.
fn later(request: Request) -> &'static [&'static str] {
    match request {
        Request::Recorder => RECORDER,
        Request::Force => FORCE,
        Request::Commands => COMMANDS,
        Request::Pointer => POINTER,
        Request::Anonymous => ANONYMOUS,
    }
}

/// Whether a comment may say so.
pub(super) fn is_tried(tag: &str) -> bool {
    let later = Request::ALL.iter().any(|request| later(*request).contains(&tag));
    later || [READER, OTHERS, CRANES].iter().any(|list| list.contains(&tag))
}

/// Each of them, in order, with those of these requests; what is tried with a crane's reader has its word in front.
pub fn all(requests: &[Request]) -> Vec<String> {
    let plain = READER.iter().chain(OTHERS).map(|tag| tag.to_string());
    let cranes = READER.iter().chain(CRANES).map(|tag| format!("{CRANE} {tag}"));
    let later = requests.iter().flat_map(|request| later(*request)).map(|tag| tag.to_string());
    plain.chain(cranes).chain(later).collect()
}

/// What one comment line says is tried, by the same names.
pub fn of(comment: &str) -> Vec<String> {
    let mut tags = comment.split("; ").peekable();
    let prefix = if tags.next_if_eq(&CRANE).is_some() { "crane " } else { "" };
    tags.map(|tag| format!("{prefix}{tag}")).collect()
}
