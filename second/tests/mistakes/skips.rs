//! Mistakes in what is told of skipped records: why each was skipped, and which was the first.

use second::events::*;
use second::reader::Ran;
use second::script::{reader_numbers, Call};
use second::table::Layout;

use crate::wrong::{right_step, runs, says, skipped, steps, Wrong};

/// The types that Linux has, and the codes of its types EV_ABS and EV_SYN.
const TYPES: u16 = 0x20;
const ABS_CODES: u16 = 0x40;
const SYN_CODES: u16 = 0x10;

/// Where they stand behind an answer's state: the second of the five counts, and what comes behind them.
const UNKNOWN_TYPE: usize = 1;
const FIRST: usize = 5;

/// It tells a run or a record otherwise, from the call, the verdict and the words behind the state.
fn tells(name: impl Into<String>, change: impl Fn(&Call, &str, &mut Vec<String>) + 'static) -> Wrong {
    says(name, move |call, words| {
        if let Call::Run { reader, .. } | Call::One { reader, .. } = call {
            let mut told = words.split_off(1 + reader_numbers(reader.layout));
            change(call, &words[0], &mut told);
            words.append(&mut told);
        }
    })
}

/// It tells other counts of a skipped record: of an unknown type, and of an unknown code.
fn counts(name: impl Into<String>, of: impl Fn(Event) -> (u64, u64) + 'static) -> Wrong {
    steps(name, move |reader, event| {
        let ran = right_step(reader, event);
        if ran.skipped() == 0 {
            return ran;
        }
        let (unknown_type, unknown_code) = of(event);
        Ran { unknown_type, unknown_code, ..ran }
    })
}

/// It takes other types for known ones.
fn knows(name: impl Into<String>, is_known: impl Fn(u16) -> bool + 'static) -> Wrong {
    counts(name, move |event| if is_known(event.kind) { (0, 1) } else { (1, 0) })
}

fn is_known(kind: u16) -> bool {
    matches!(kind, EV_SYN | EV_ABS)
}

fn types(layout: Layout) -> Vec<Wrong> {
    let mut all = vec![
        knows("type 0 is unknown", |kind| kind == EV_ABS),
        knows("type 3 is unknown", |kind| kind == EV_SYN),
        knows("no type is known", |_| false),
        knows("every type is known", |_| true),
        knows("types up to 3 are known", |kind| kind <= EV_ABS),
        knows("Linux's types are known", |kind| kind < TYPES),
        knows("of a type the low byte is looked at", |kind| is_known(kind & 0xff)),
        knows("of a type the high byte is looked at", |kind| is_known(kind) || is_known(kind.swap_bytes())),
        knows("of a type the low two bits are looked at", |kind| is_known(kind & 3)),
        counts("a code that is listed makes its type known", move |event| {
            let is_listed = listed(layout).iter().any(|(_, code)| *code == event.code);
            if is_known(event.kind) || is_listed {
                (0, 1)
            } else {
                (1, 0)
            }
        }),
        counts("a code of Linux's makes its type known", |event| {
            if is_known(event.kind) && event.code < ABS_CODES {
                (0, 1)
            } else {
                (1, 0)
            }
        }),
        counts("a code of another type makes its own unknown", move |event| {
            let is_of = |kind: u16| listed(layout).contains(&(kind, event.code));
            if is_known(event.kind) && !is_of(EV_SYN) && !is_of(EV_ABS) {
                (0, 1)
            } else {
                (1, 0)
            }
        }),
        counts("an unknown type counts for both", |event| if is_known(event.kind) { (0, 1) } else { (1, 1) }),
        counts("an unknown code counts for both", |event| if is_known(event.kind) { (1, 1) } else { (1, 0) }),
        counts("SYN_MT_REPORT is of an unknown type", |event| match (event.kind, event.code) {
            (EV_SYN, 2) => (1, 0),
            (kind, _) => (u64::from(!is_known(kind)), u64::from(is_known(kind))),
        }),
    ];
    let beside = (0..16).flat_map(|bit| [EV_SYN ^ 1 << bit, EV_ABS ^ 1 << bit]);
    for kind in (0..TYPES).chain(beside).filter(|kind| !is_known(*kind)) {
        all.push(knows(format!("type {kind} is known"), move |other| is_known(other) || other == kind));
    }
    all
}

fn told() -> Vec<Wrong> {
    vec![
        tells("the two counts are swapped", |_, _, told| told.swap(UNKNOWN_TYPE, UNKNOWN_TYPE + 1)),
        tells("the sum stands for unknown types", |_, _, told| {
            let counts = told[UNKNOWN_TYPE..UNKNOWN_TYPE + 2].iter();
            let sum: u64 = counts.map(|word| word.parse::<u64>().unwrap()).sum();
            told[UNKNOWN_TYPE] = sum.to_string();
        }),
        tells("none is 0 and 0", |_, _, told| {
            if told[FIRST] == "none" {
                told.splice(FIRST.., ["0".to_string(), "0".to_string()]);
            }
        }),
        tells("a refused call is told without its none", |_, verdict, told| {
            told.truncate(if verdict == "0" { told.len() } else { FIRST });
        }),
        tells("a ragged run names what it would skip", |call, verdict, told| {
            if let (Call::Run { reader, bytes }, "6") = (call, verdict) {
                let ran = reader.clone().run(&bytes[..bytes.len() / RECORD * RECORD]);
                if let Ok(Ran { first_skipped: Some((kind, code)), .. }) = ran {
                    told.splice(FIRST.., [kind.to_string(), code.to_string()]);
                }
            }
        }),
        tells("a run names nothing", |call, _, told| {
            if let Call::Run { .. } = call {
                told.splice(FIRST.., ["none".to_string()]);
            }
        }),
        tells("one record names nothing", |call, _, told| {
            if let Call::One { .. } = call {
                told.splice(FIRST.., ["none".to_string()]);
            }
        }),
    ]
}

/// It names another one than the first skipped.
fn names(name: impl Into<String>, first: impl Fn(&[(Event, Ran)]) -> Option<(u16, u16)> + 'static) -> Wrong {
    runs(name, right_step, first)
}

/// It names the first skipped by another type and code, or none.
fn renames(name: impl Into<String>, of: impl Fn(u16, u16) -> Option<(u16, u16)> + 'static) -> Wrong {
    names(name, move |records| named(records).first().and_then(|(kind, code)| of(*kind, *code)))
}

/// The skipped ones in their order.
fn named(records: &[(Event, Ran)]) -> Vec<(u16, u16)> {
    records.iter().filter_map(|(_, ran)| ran.first_skipped).collect()
}

/// The first of them that is so.
fn first_where(records: &[(Event, Ran)], is_so: impl Fn(u16, u16) -> bool) -> Option<(u16, u16)> {
    named(records).into_iter().find(|(kind, code)| is_so(*kind, *code))
}

fn firsts(layout: Layout) -> Vec<Wrong> {
    vec![
        names("the last skipped is named", |records| named(records).last().copied()),
        names("the second skipped is named where there is one", |records| {
            let all = named(records);
            all.get(1).or(all.first()).copied()
        }),
        names("an unknown type alone is named", |records| first_where(records, |kind, _| !is_known(kind))),
        names("an unknown code alone is named", |records| first_where(records, |kind, _| is_known(kind))),
        names("an unknown type is named first", |records| {
            first_where(records, |kind, _| !is_known(kind)).or(named(records).first().copied())
        }),
        names("an unknown code is named first", |records| {
            first_where(records, |kind, _| is_known(kind)).or(named(records).first().copied())
        }),
        names("the lowest skipped is named", |records| named(records).into_iter().min()),
        names("the highest skipped is named", |records| named(records).into_iter().max()),
        names("a report forgets what was skipped", |records| {
            let since = records.iter().rposition(|(_, ran)| ran.shown == 1).unwrap_or(0);
            named(&records[since..]).first().copied()
        }),
        names("a run that is lost names nothing", |records| {
            let is_lost = records.iter().any(|(_, ran)| ran.ignored + ran.bad > 0);
            named(records).first().filter(|_| !is_lost).copied()
        }),
        names("a bad value forgets what was skipped", |records| {
            let is_bad = records.iter().any(|(_, ran)| ran.bad > 0);
            named(records).first().filter(|_| !is_bad).copied()
        }),
        names("what is unknown while lost is named", move |records| {
            let is_listed = |event: &Event| listed(layout).contains(&(event.kind, event.code));
            let unknown = records.iter().find(|(event, _)| !is_listed(event));
            unknown.map(|(event, _)| (event.kind, event.code))
        }),
        names("what is ignored is named", |records| {
            let found = records.iter().find(|(_, ran)| ran.skipped() + ran.ignored > 0);
            found.map(|(event, _)| (event.kind, event.code))
        }),
        names("a bad value is named", |records| {
            let found = records.iter().find(|(_, ran)| ran.skipped() + ran.bad > 0);
            found.map(|(event, _)| (event.kind, event.code))
        }),
        names("a run's first record is named, or none", |records| records.first()?.1.first_skipped),
        names("a run's last record is named, or none", |records| records.last()?.1.first_skipped),
        names("the type of the first stands with the code of the last", |records| {
            let all = named(records);
            Some((all.first()?.0, all.last()?.1))
        }),
        renames("code and type are swapped", |kind, code| Some((code, kind))),
        renames("the type's bytes are swapped", |kind, code| Some((kind.swap_bytes(), code))),
        renames("the code's bytes are swapped", |kind, code| Some((kind, code.swap_bytes()))),
        renames("of a type the low byte is named", |kind, code| Some((kind & 0xff, code))),
        renames("of a code the low byte is named", |kind, code| Some((kind, code & 0xff))),
        renames("code 0 is not named", |kind, code| (code != 0).then_some((kind, code))),
        renames("an unknown type is named without its code", |kind, code| {
            Some((kind, if is_known(kind) { code } else { 0 }))
        }),
    ]
}

/// It does not name one code of a known type, or one unknown type, but goes on to the next.
fn unnamed(layout: Layout) -> Vec<Wrong> {
    let abs = (0..ABS_CODES).map(|code| (EV_ABS, code));
    let syn = (0..SYN_CODES).map(|code| (EV_SYN, code));
    let of_code = |(kind, code): (u16, u16)| {
        names(format!("type {kind}, code {code:#x} is not named"), move |records| {
            first_where(records, |other_kind, other_code| (other_kind, other_code) != (kind, code))
        })
    };
    let of_type = |kind: u16| {
        names(format!("type {kind} is not named"), move |records| first_where(records, |other, _| other != kind))
    };
    let codes = abs.chain(syn).filter(|pair| !listed(layout).contains(pair)).map(of_code);
    codes.chain((0..TYPES).map(of_type)).collect()
}

/// It reads a listed one as unknown, and tells so.
fn skips_listed(layout: Layout) -> Vec<Wrong> {
    let taken = |pair: (u16, u16)| {
        steps(format!("{pair:x?} is skipped"), move |reader, event| {
            if (event.kind, event.code) == pair && right_step(&mut reader.clone(), event).ignored == 0 {
                return skipped(event);
            }
            right_step(reader, event)
        })
    };
    listed(layout).iter().copied().map(taken).collect()
}

/// Each mistake of this file.
pub fn all(layout: Layout) -> Vec<Wrong> {
    let named = [firsts(layout), unnamed(layout), skips_listed(layout)];
    [types(layout), told()].into_iter().chain(named).flatten().collect()
}
