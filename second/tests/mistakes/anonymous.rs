//! Mistakes in what K12 asks of a type A frame: what is read of its records, what is a packet and a contact, and in which order all is judged.

use second::events::*;
use second::script::{Call, WRITER_NUMBERS};

use crate::pairing;
use crate::slow_panel::{ends, has, is_good, reads, reports, Packet, Read, RIGHT};
use crate::wrong::{answers, refused, says, takes, Wrong};

fn of_records() -> Vec<Wrong> {
    vec![
        reads("SYN_DROPPED is skipped", |parts| {
            parts.read = |event| (RIGHT.read)(event).filter(|(letter, _)| *letter != 'd');
        }),
        reads("ABS_X and ABS_Y are x and y", |parts| {
            parts.read = |event| match (event.kind, event.code) {
                (3, 0) => Some(('x', event.value)),
                (3, 1) => Some(('y', event.value)),
                _ => (RIGHT.read)(event),
            };
        }),
        reads("types are not looked at", |parts| {
            parts.read = |event| {
                let kind = if event.code < 4 { 0 } else { 3 };
                (RIGHT.read)(Event { kind, ..event })
            };
        }),
        reads("codes have 8 bits", |parts| {
            parts.read = |event| (RIGHT.read)(Event { code: event.code & 255, ..event });
        }),
        reads("types have 8 bits", |parts| {
            parts.read = |event| (RIGHT.read)(Event { kind: event.kind & 255, ..event });
        }),
        reads("a report with a value is skipped", |parts| {
            parts.read = |event| (RIGHT.read)(event).filter(|(letter, value)| *letter != 'r' || *value == 0);
        }),
        reads("a SYN_MT_REPORT with a value is skipped", |parts| {
            parts.read = |event| (RIGHT.read)(event).filter(|(letter, value)| *letter != 'm' || *value == 0);
        }),
    ]
}

fn of_ends() -> Vec<Wrong> {
    vec![
        answers("what is skipped behind the report is an end that is no report", |asked| {
            let Call::Anonymous { records, .. } = asked.call? else {
                return None;
            };
            let last = events(records).last()?;
            (asked.right.starts_with('0') && (last.kind, last.code) != (0, 0)).then(|| refused(asked.call.unwrap(), 10))
        }),
        reads("all behind the first report is let go", |parts| {
            parts.seen = |seen| {
                let end = seen.iter().position(|(letter, _)| *letter == 'r').map_or(seen.len(), |i| i + 1);
                seen[..end].to_vec()
            };
        }),
        reads("only the last report counts", |parts| {
            parts.seen = |mut seen| {
                let last = seen.len().saturating_sub(1);
                let mut i = 0;
                seen.retain(|(letter, _)| {
                    i += 1;
                    *letter != 'r' || i == last + 1
                });
                seen
            };
        }),
        takes("a ragged end is let go", |call| {
            if let Call::Anonymous { records, .. } = call {
                records.truncate(records.len() / RECORD * RECORD);
            }
        }),
    ]
}

fn of_packets() -> Vec<Wrong> {
    vec![
        reads("the first of a repeated code counts", |parts| parts.counting = |values| values[0]),
        reads("the largest of a repeated code counts", |parts| {
            parts.counting = |values| *values.iter().max().unwrap();
        }),
        reads("SYN_REPORT closes a packet", |parts| {
            parts.packets = |seen| (RIGHT.packets)(&with_closing(seen, 'r'));
        }),
        reads("numbers that are not closed are let go", |parts| {
            parts.packets = |seen| ((RIGHT.packets)(seen).0, Vec::new());
        }),
        reads("a contact keeps the numbers of the one before", |parts| {
            parts.packets = |seen| {
                let (mut closed, open) = (RIGHT.packets)(seen);
                for i in 1..closed.len() {
                    let before = closed[i - 1].clone();
                    closed[i] = [before, closed[i].clone()].concat();
                }
                (closed, open)
            };
        }),
        reads("a packet with none is a contact that lacks all", |parts| {
            parts.packets = |seen| {
                let (closed, open) = (RIGHT.packets)(seen);
                (
                    closed.into_iter().map(|packet| if packet.is_empty() { vec![('?', 0)] } else { packet }).collect(),
                    open,
                )
            };
        }),
    ]
}

fn of_wholes() -> Vec<Wrong> {
    vec![
        whole("x may be missing", |contacts, open, seen| is_whole_without("yp", contacts, open, seen)),
        whole("y may be missing", |contacts, open, seen| is_whole_without("xp", contacts, open, seen)),
        whole("pressure may be missing", |contacts, open, seen| is_whole_without("xy", contacts, open, seen)),
        whole("a report anywhere will do", |contacts, open, seen| {
            let others: Vec<Read> =
                seen.iter().copied().filter(|(letter, _)| *letter != 'r').chain([('r', 0)]).collect();
            has(seen, 'r') && (RIGHT.is_whole)(contacts, open, &others)
        }),
        whole("a frame may have several reports", |contacts, open, seen| {
            let others: Vec<Read> =
                seen.iter().copied().filter(|(letter, _)| *letter != 'r').chain([('r', 0)]).collect();
            ends(seen) && (RIGHT.is_whole)(contacts, open, &others)
        }),
        whole("a frame may have no report", |contacts, open, seen| {
            let with = [seen, &[('r', 0)]].concat();
            (RIGHT.is_whole)(contacts, open, seen) || reports(seen) == 0 && (RIGHT.is_whole)(contacts, open, &with)
        }),
        whole("no records are a frame of no contacts", |contacts, open, seen| {
            seen.is_empty() || (RIGHT.is_whole)(contacts, open, seen)
        }),
        whole("a SYN_MT_REPORT may come behind the report", |contacts, open, seen| {
            let end = seen.iter().rposition(|(letter, _)| *letter != 'm').map_or(0, |i| i + 1);
            (RIGHT.is_whole)(contacts, open, &seen[..end])
        }),
        whole("SYN_REPORT alone is no frame", |contacts, open, seen| {
            !contacts.is_empty() && (RIGHT.is_whole)(contacts, open, seen)
        }),
    ]
}

/// What is read, with a SYN_MT_REPORT before each of these.
fn with_closing(seen: &[Read], at: char) -> Vec<Read> {
    seen.iter().flat_map(|read| if read.0 == at { vec![('m', 0), *read] } else { vec![*read] }).collect()
}

fn whole(name: &str, is_whole: fn(&[Packet], &[Read], &[Read]) -> bool) -> Wrong {
    let mut parts = RIGHT;
    parts.is_whole = is_whole;
    answers(name, move |asked| parts.answer(asked.call?))
}

fn is_whole_without(letters: &str, contacts: &[Packet], open: &[Read], seen: &[Read]) -> bool {
    contacts.iter().all(|packet| letters.chars().all(|letter| has(packet, letter))) && (RIGHT.is_whole)(&[], open, seen)
}

fn of_counts() -> Vec<Wrong> {
    vec![
        reads("six contacts may be", |parts| parts.most = |n| n.min(6)),
        reads("four contacts are the most", |parts| parts.most = |n| n.min(4)),
        reads("contacts are one fewer than n at most", |parts| parts.most = |n| 5.min(n.max(2) - 1)),
        reads("packets with none are counted", |parts| parts.count = |closed, _, _| closed.len()),
        reads("an open packet is counted", |parts| {
            parts.count = |closed, open, seen| (RIGHT.count)(closed, open, seen) + usize::from(!open.is_empty());
        }),
        reads("contacts that lack a number are not counted", |parts| {
            parts.count =
                |closed, _, _| closed.iter().filter(|packet| "xyp".chars().all(|letter| has(packet, letter))).count();
        }),
        reads("contacts behind the report are not counted", |parts| {
            parts.count = |_, _, seen| {
                let end = seen.iter().position(|(letter, _)| *letter == 'r').unwrap_or(seen.len());
                let (closed, open) = (RIGHT.packets)(&seen[..end]);
                (RIGHT.count)(&closed, &open, seen)
            };
        }),
        reads("SYN_DROPPED begins the count anew", |parts| {
            parts.count = |_, _, seen| {
                let from = seen.iter().rposition(|(letter, _)| *letter == 'd').map_or(0, |i| i + 1);
                let (closed, open) = (RIGHT.packets)(&seen[from..]);
                (RIGHT.count)(&closed, &open, seen)
            };
        }),
        reads("SYN_REPORT lets an open packet go", |parts| {
            parts.count = |_, _, seen| {
                let runs = seen.split(|(letter, _)| *letter == 'r').map(|run| (RIGHT.packets)(run));
                runs.map(|(closed, open)| (RIGHT.count)(&closed, &open, seen)).sum()
            };
        }),
    ]
}

fn of_values() -> Vec<Wrong> {
    vec![
        // As pressure 0 it would be refused by the writer all the same.
        reads("pressure 0 is taken for 1", |parts| {
            parts.are_good = |setup, _, contacts| contacts.iter().all(|contact| is_good(setup, contact, 0));
            parts.row = |_, [x, y, pressure]| vec![1, *x, *y, (*pressure).max(1), 0, 0];
        }),
        reads("pressure 1 is too little", |parts| {
            parts.are_good = |setup, _, contacts| contacts.iter().all(|contact| is_good(setup, contact, 2));
        }),
        reads("every value of a repeated code is judged", |parts| {
            parts.are_good = |setup, packets, _| {
                let of = |(letter, value): &Read| match letter {
                    'x' => is_good(setup, &[*value, 0, 1], 1),
                    'y' => is_good(setup, &[0, *value, 1], 1),
                    _ => is_good(setup, &[0, 0, *value], 1),
                };
                packets.iter().flatten().all(of)
            };
        }),
        reads("x is cut to 15 bits", |parts| {
            parts.are_good = |setup, _, contacts| {
                contacts.iter().all(|[x, y, pressure]| is_good(setup, &[x & 0x7fff, *y, *pressure], 1))
            };
            parts.row = |_, [x, y, pressure]| vec![1, x & 0x7fff, *y, *pressure, 0, 0];
        }),
    ]
}

fn of_order() -> Vec<Wrong> {
    vec![
        reads("9 is judged before 6", |parts| parts.order = [9, 6, 10, 4]),
        reads("10 is judged before 6", |parts| parts.order = [10, 6, 9, 4]),
        reads("10 is judged before 9", |parts| parts.order = [6, 10, 9, 4]),
        reads("4 is judged before 10", |parts| parts.order = [6, 9, 4, 10]),
        reads("4 is judged before 9", |parts| parts.order = [6, 4, 9, 10]),
        answers("6 is judged before 2", |asked| {
            let Call::Anonymous { records, .. } = asked.call? else {
                return None;
            };
            (records.len() % RECORD != 0).then(|| refused(asked.call.unwrap(), 6))
        }),
        answers("room is judged before the values", |asked| {
            let Call::Anonymous { size, position, .. } = asked.call? else {
                return None;
            };
            let is_past = asked.right.starts_with("4 ") && *position > *size as u64;
            is_past.then(|| refused(asked.call.unwrap(), 5))
        }),
        says("no need is told with 5", |call, words| {
            if let (Call::Anonymous { .. }, "5") = (call, words[0].as_str()) {
                words[WRITER_NUMBERS + 3] = "0".to_string();
            }
        }),
    ]
}

/// The slow reader without a mistake.
pub fn right() -> Vec<Wrong> {
    vec![answers("type A frames", |asked| RIGHT.answer(asked.call?))]
}

/// Each mistake of this file.
pub fn all() -> Vec<Wrong> {
    let read = [of_records(), of_ends(), of_packets(), of_wholes(), of_counts(), of_values(), of_order()];
    read.into_iter().chain([pairing::all()]).flatten().collect()
}
