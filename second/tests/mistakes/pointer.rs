//! Mistakes in what K6 asks: what a display is told, in which order, whom it follows, and what is held for it.

use second::events::*;
use second::maker::pointer::mended;
use second::pointer::{Pointer, Ranks, Told, TOOLS};
use second::refusal::Refusal;
use second::script::{Call, BEFORE_POINTER, WRITER_NUMBERS};
use second::table::{Table, SLOTS, X, Y};
use second::writer::{Writer, LARGEST_FRAME};

use crate::slow_writer::{goes_on, kept_ranks, ranks_by, some, writes, Five, RIGHT};
use crate::wrong::{answers, judges_early, refuses, right_step, says, steps, takes, Wrong};

fn live(table: &Table) -> Vec<usize> {
    (0..SLOTS).filter(|s| table[*s].id.is_live()).collect()
}

fn followed() -> Vec<Wrong> {
    vec![
        writes("the lowest slot is followed", |parts| parts.followed = |table, _| live(table).first().copied()),
        writes("the newest contact is followed", |parts| {
            parts.followed = |table, ranks| live(table).into_iter().rev().max_by_key(|s| ranks[*s]);
        }),
        writes("the higher slot of a tie is followed", |parts| {
            parts.followed = |table, ranks| live(table).into_iter().rev().min_by_key(|s| ranks[*s]);
        }),
        writes("the contact of the least id is followed", |parts| {
            parts.followed = |table, _| live(table).into_iter().min_by_key(|s| table[*s].id.0);
        }),
        writes("X and Y are cleared when none is live", |parts| parts.still = |_| (0, 0)),
        writes("Y is cleared when none is live", |parts| parts.still = |told| (told.x, 0)),
    ]
}

fn ranks() -> Vec<Wrong> {
    vec![
        writes("a gap in the ranks stays", |parts| {
            parts.ranks = |before, table| {
                let next = kept_ranks(before, table).last().map_or(0, |rank| usize::from(*rank) + 1);
                ranks_by(before, table, |s| before.pointer.ranks[s].into(), |_| next)
            };
        }),
        writes("contacts that begin together have ranks by their slots", |parts| {
            parts.ranks = |before, table| {
                let taken = kept_ranks(before, table);
                let began = |s: usize| (0..s).filter(|t| table[*t].id.is_live() && !goes_on(before, table, *t)).count();
                ranks_by(before, table, |s| (RIGHT.ranks)(before, table)[s].into(), |s| taken.len() + began(s))
            };
        }),
        writes("contacts of one rank part in the next frame", |parts| {
            parts.ranks = |before, table| {
                let key = |s: usize| (before.pointer.ranks[s], s);
                let older = |s: usize| (0..SLOTS).filter(|t| goes_on(before, table, *t) && key(*t) < key(s)).count();
                let all = (0..SLOTS).filter(|s| goes_on(before, table, *s)).count();
                ranks_by(before, table, older, |_| all)
            };
        }),
        writes("a replaced contact keeps its rank", |parts| {
            parts.ranks = |before, table| {
                let mut other = before.clone();
                let is_live = |s: &usize| other.table[*s].id.is_live() && table[*s].id.is_live();
                let both: Vec<usize> = (0..SLOTS).filter(is_live).collect();
                both.into_iter().for_each(|s| other.table[s].id = table[s].id);
                (RIGHT.ranks)(&other, table)
            };
        }),
        writes("a contact that moves loses its rank", |parts| {
            parts.ranks = |before, table| {
                let mut other = before.clone();
                for s in (0..SLOTS).filter(|s| table[*s].numbers != before.table[*s].numbers) {
                    other.table[s].id.0 = -1;
                }
                (RIGHT.ranks)(&other, table)
            };
        }),
        writes("contacts that begin have rank 0 and the others move on", |parts| {
            parts.ranks = |before, table| {
                let began = (0..SLOTS).any(|s| table[s].id.is_live() && !goes_on(before, table, s));
                let right = (RIGHT.ranks)(before, table);
                ranks_by(before, table, |s| usize::from(right[s]) + usize::from(began), |_| 0)
            };
        }),
        writes("contacts that begin have the last rank of the others", |parts| {
            parts.ranks = |before, table| {
                let right = (RIGHT.ranks)(before, table);
                let last = kept_ranks(before, table).len().saturating_sub(1);
                ranks_by(before, table, |s| right[s].into(), |_| last)
            };
        }),
        writes("a lifted contact's rank stays", |parts| {
            parts.ranks = |before, table| {
                let right = (RIGHT.ranks)(before, table);
                std::array::from_fn(|s| if table[s].id.is_live() { right[s] } else { before.pointer.ranks[s] })
            };
        }),
        writes("with the option off a rank is kept", |parts| {
            parts.off = |before, table| Pointer { ranks: (RIGHT.ranks)(before, table), ..Pointer::OFF };
        }),
    ]
}

fn tools() -> Vec<Wrong> {
    vec![
        writes("six contacts have no tool", |parts| parts.tool = |live| if live > 5 { 0 } else { (RIGHT.tool)(live) }),
        writes("0x148 is of four contacts too", |parts| {
            parts.tool = |live| if live == 4 { 0x148 } else { (RIGHT.tool)(live) };
        }),
        writes("the tools go on behind 0x14f", |parts| {
            parts.tool = |live| if live > 4 { 0x150 } else { (RIGHT.tool)(live) };
        }),
        writes("one tool is of every number of contacts", |parts| parts.tool = |live| (RIGHT.tool)(live.min(1))),
    ]
}

/// It sends the emulated events in other places: in front of the contacts' and behind them.
fn lays(name: &str, laid: fn(&Five) -> (Vec<Event>, Vec<Event>)) -> Wrong {
    writes(name, |parts| parts.laid = laid)
}

fn order() -> Vec<Wrong> {
    vec![
        lays("BTN_TOUCH comes last", |told| (Vec::new(), [some(&told[1..]), some(&told[..1])].concat())),
        lays("BTN_TOUCH comes first of what is behind the contacts", |told| (Vec::new(), some(told))),
        lays("all come before the contacts", |told| (some(told), Vec::new())),
        lays("the tools come with BTN_TOUCH", |told| (some(&told[..3]), some(&told[3..]))),
        tells("the new tool comes before the old one", |_, _, told| told.swap(1, 2)),
        tells("X and Y come before the tools", |_, _, told| told[1..].rotate_left(2)),
        tells("Y comes before X", |_, _, told| told.swap(3, 4)),
        writes("the report comes before the tools, X and Y", |parts| {
            parts.end = |events| {
                let mut events = (RIGHT.end)(events);
                let behind = 1 + events.iter().rev().skip(1).take_while(|event| is_behind(event)).count();
                let from = events.len().saturating_sub(behind);
                events[from..].sort_by_key(|event| *event != Event::REPORT);
                events
            };
        }),
    ]
}

/// A tool, X or Y.
fn is_behind(event: &Event) -> bool {
    event.kind == EV_KEY && event.code != BTN_TOUCH || event.kind == EV_ABS && event.code <= ABS_Y
}

/// It tells the display something else, from what was told before and is now.
fn tells(name: &str, retold: fn(&Told, &Told, &mut Five)) -> Wrong {
    writes(name, |parts| parts.retold = retold)
}

/// X and Y, changed or not.
fn tell_place(new: &Told, told: &mut Five) {
    told[3] = Some(Event::abs(ABS_X, new.x as i32));
    told[4] = Some(Event::abs(ABS_Y, new.y as i32));
}

fn changes() -> Vec<Wrong> {
    vec![
        tells("no emulated event is sent", |_, _, told| *told = [None; 5]),
        tells("the old tool is left at 1", |_, _, told| told[1] = None),
        tells("a swap of tools leaves the old one at 1", |_, new, told| {
            told[1] = told[1].filter(|_| new.tool == 0);
        }),
        tells("the last tool is left at 1", |_, new, told| told[1] = told[1].filter(|_| new.tool != 0)),
        tells("six contacts send their tool again", |old, new, told| {
            if (old.tool, new.tool) == (0x148, 0x148) {
                told[2] = Some(Event::key(0x148, true));
            }
        }),
        tells("X and Y are sent with every frame", |_, new, told| tell_place(new, told)),
        tells("X and Y are sent while a contact is live", |_, new, told| {
            if new.touch == 1 {
                tell_place(new, told);
            }
        }),
        tells("a first touch always sends X and Y", |old, new, told| {
            if (old.touch, new.touch) == (0, 1) {
                tell_place(new, told);
            }
        }),
        tells("X and Y are sent together", |_, new, told| {
            if told[3].is_some() || told[4].is_some() {
                tell_place(new, told);
            }
        }),
        tells("BTN_TOUCH is sent while it stays 1", |_, new, told| {
            if new.touch == 1 {
                told[0] = Some(Event::key(BTN_TOUCH, true));
            }
        }),
        tells("buttons are of type 3", |_, _, told| {
            told.iter_mut().flatten().for_each(|event| event.kind = EV_ABS);
        }),
        tells("X and Y are told with the contacts' codes", |_, _, told| {
            told[3].iter_mut().for_each(|event| event.code = ABS_MT_POSITION_X);
            told[4].iter_mut().for_each(|event| event.code = ABS_MT_POSITION_Y);
        }),
    ]
}

/// How many of a good frame's events are emulated.
fn emulated(call: &Call) -> Option<usize> {
    let Call::Write { writer, frame, .. } = call else {
        return None;
    };
    let count = |writer: &Writer| Some(writer.clone().write(frame, &mut [0; LARGEST_FRAME], 0).ok()?.events as usize);
    Some(count(writer)? - count(&Writer { pointer: Pointer::OFF, ..writer.clone() })?)
}

/// It tells one number of the answer with a verdict without what the emulated events add.
fn counts_less(name: &str, verdict: &'static str, place: usize, each: usize) -> Wrong {
    says(name, move |call, words| {
        if let Some(emulated) = emulated(call).filter(|_| words[0] == verdict) {
            let right: usize = words[place].parse().expect("a number");
            words[place] = (right - each * emulated).to_string();
        }
    })
}

fn counts() -> Vec<Wrong> {
    vec![
        counts_less("the emulated events are not counted", "0", WRITER_NUMBERS + 1, 1),
        counts_less("the need has no emulated events", "5", WRITER_NUMBERS + 3, RECORD),
        answers("room is judged without the emulated events", |asked| {
            let Call::Write { writer, position, size, frame } = asked.call? else {
                return None;
            };
            let less = emulated(asked.call?)? * RECORD;
            let right = RIGHT.answer(writer, *position, *size, frame);
            let is_taken =
                right.starts_with('5') && !RIGHT.answer(writer, *position, *size + less, frame).starts_with('5');
            is_taken.then(|| right.replacen('5', "0", 1))
        }),
        writes("224 events are the most", |parts| {
            parts.end = |events| (RIGHT.end)(events).into_iter().take(224).collect();
        }),
    ]
}

/// It takes what is held for the display for something else.
fn display(name: impl Into<String>, mend: impl Fn(&Writer, &mut Pointer) + 'static) -> Wrong {
    takes(name, move |call| {
        if let Call::Write { writer, .. } = call {
            let mut pointer = writer.pointer;
            mend(writer, &mut pointer);
            writer.pointer = pointer;
        }
    })
}

/// The same with the option on, where its right numbers are told too.
fn held(name: impl Into<String>, mend: impl Fn(&Writer, &Pointer, &mut Pointer) + 'static) -> Wrong {
    display(name, move |writer, pointer| {
        if writer.pointer.on {
            let right = mended(pointer, &writer.setup, &writer.table);
            mend(writer, &right, pointer);
        }
    })
}

fn held_ranks() -> Vec<Wrong> {
    let with_live = |ranks: &mut Ranks, writer: &Writer, of: &dyn Fn(usize) -> u8| {
        live(&writer.table).into_iter().for_each(|s| ranks[s] = of(s));
    };
    let mut all = vec![
        held("a gap in the ranks is well formed", move |writer, right, pointer| {
            let ranks = right.ranks;
            with_live(&mut pointer.ranks, writer, &|s| ranks[s]);
        }),
        held("ranks may begin at 1", move |writer, _, pointer| {
            let ranks = pointer.ranks;
            if live(&writer.table).iter().all(|s| ranks[*s] > 0) {
                with_live(&mut pointer.ranks, writer, &|s| ranks[s] - 1);
            }
        }),
        held("the rank of an unused slot is not judged", |writer, right, pointer| {
            let n = (writer.setup.slots as usize).min(SLOTS);
            (0..n).filter(|s| !writer.table[*s].id.is_live()).for_each(|s| pointer.ranks[s] = right.ranks[s]);
        }),
        held("ranks past n are not judged", |writer, right, pointer| {
            let n = (writer.setup.slots as usize).min(SLOTS);
            pointer.ranks[n..].copy_from_slice(&right.ranks[n..]);
        }),
        refuses("two contacts may not share a rank", 2, |call| {
            pointing(call).is_some_and(|writer| {
                let mut ranks: Vec<u8> = live(&writer.table).iter().map(|s| writer.pointer.ranks[*s]).collect();
                let count = ranks.len();
                ranks.sort_unstable();
                ranks.dedup();
                ranks.len() < count
            })
        }),
        refuses("ranks rise with the slots", 2, |call| {
            pointing(call).is_some_and(|writer| {
                live(&writer.table).windows(2).any(|pair| writer.pointer.ranks[pair[0]] > writer.pointer.ranks[pair[1]])
            })
        }),
        refuses("a rank is 15 at most", 2, |call| {
            pointing(call).is_some_and(|writer| writer.pointer.ranks.iter().any(|rank| *rank > 15))
        }),
        refuses("a rank is 30 at most", 2, |call| {
            pointing(call).is_some_and(|writer| writer.pointer.ranks.iter().any(|rank| *rank > 30))
        }),
    ];
    for bits in [5, 6, 7] {
        all.push(held(format!("ranks are cut to {bits} bits"), move |_, _, pointer| {
            pointer.ranks.iter_mut().for_each(|rank| *rank &= (1 << bits) - 1);
        }));
    }
    all
}

/// The writer of a call, with the option on.
fn pointing(call: &Call) -> Option<&Writer> {
    match call {
        Call::Write { writer, .. } if writer.pointer.on => Some(writer),
        _ => None,
    }
}

fn held_numbers() -> Vec<Wrong> {
    let is_live = |writer: &Writer| !live(&writer.table).is_empty();
    vec![
        held("touch is not judged", |_, right, pointer| pointer.told.touch = right.told.touch),
        held("touch is any number but 0", |_, _, pointer| pointer.told.touch = pointer.told.touch.min(1)),
        held("touch has one bit", |_, _, pointer| pointer.told.touch &= 1),
        held("tool is not judged", |_, right, pointer| pointer.told.tool = right.told.tool),
        held("any tool is well formed while a contact is live", move |writer, right, pointer| {
            if is_live(writer) && TOOLS.contains(&pointer.told.tool) {
                pointer.told.tool = right.told.tool;
            }
        }),
        held("tool may be 0 while a contact is live", |_, right, pointer| {
            if pointer.told.tool == 0 {
                pointer.told.tool = right.told.tool;
            }
        }),
        held("tool is not judged with no contact", move |writer, right, pointer| {
            if !is_live(writer) {
                pointer.told.tool = right.told.tool;
            }
        }),
        held("tool has 12 bits", |_, _, pointer| pointer.told.tool &= 0xfff),
        held("X is not judged while a contact is live", move |writer, right, pointer| {
            if is_live(writer) {
                pointer.told.x = right.told.x;
            }
        }),
        held("Y is not judged while a contact is live", move |writer, right, pointer| {
            if is_live(writer) {
                pointer.told.y = right.told.y;
            }
        }),
        held("X may be any contact's", |writer, right, pointer| {
            if live(&writer.table).iter().any(|s| writer.table[*s].numbers[X] == pointer.told.x) {
                pointer.told.x = right.told.x;
            }
        }),
        held("Y may be any contact's", |writer, right, pointer| {
            if live(&writer.table).iter().any(|s| writer.table[*s].numbers[Y] == pointer.told.y) {
                pointer.told.y = right.told.y;
            }
        }),
        held("X is not judged with no contact", move |writer, right, pointer| {
            if !is_live(writer) {
                pointer.told.x = right.told.x;
            }
        }),
        held("Y is not judged with no contact", move |writer, right, pointer| {
            if !is_live(writer) {
                pointer.told.y = right.told.y;
            }
        }),
        held("X may be one too large with no contact", |writer, right, pointer| {
            if pointer.told.x == writer.setup.largest[X].wrapping_add(1) {
                pointer.told.x = right.told.x;
            }
        }),
        held("Y may be one too large with no contact", |writer, right, pointer| {
            if pointer.told.y == writer.setup.largest[Y].wrapping_add(1) {
                pointer.told.y = right.told.y;
            }
        }),
        held("X and Y are cut to 16 bits", |_, _, pointer| {
            pointer.told.x &= 0xffff;
            pointer.told.y &= 0xffff;
        }),
        refuses("X and Y are 0 with no contact", 2, move |call| {
            pointing(call).is_some_and(|writer| !is_live(writer) && writer.pointer.told != Told::NOTHING)
        }),
        refuses("X may not be the largest with no contact", 2, move |call| {
            pointing(call).is_some_and(|writer| !is_live(writer) && writer.pointer.told.x == writer.setup.largest[X])
        }),
        refuses("Y is judged by the largest x", 2, |call| {
            pointing(call).is_some_and(|writer| writer.pointer.told.y > writer.setup.largest[X])
        }),
    ]
}

/// With the option off it does not judge one of the numbers, or any.
fn off() -> Vec<Wrong> {
    let overlooks = |what: &str, mend: fn(&mut Pointer)| {
        display(format!("with the option off {what} not judged"), move |writer, pointer| {
            if !writer.pointer.on {
                mend(pointer);
            }
        })
    };
    vec![
        overlooks("nothing is", |pointer| *pointer = Pointer::OFF),
        overlooks("touch is", |pointer| pointer.told.touch = 0),
        overlooks("tool is", |pointer| pointer.told.tool = 0),
        overlooks("X is", |pointer| pointer.told.x = 0),
        overlooks("Y is", |pointer| pointer.told.y = 0),
        overlooks("ranks are", |pointer| pointer.ranks = [0; SLOTS]),
        overlooks("the ranks behind the first are", |pointer| pointer.ranks[1..].fill(0)),
        display("with numbers for a display the option is on", |writer, pointer| {
            pointer.on |= writer.pointer != Pointer::OFF;
        }),
    ]
}

/// Whether what is held for the display is all that is broken, and what the frame is refused with where it is mended.
fn hidden(call: &Call) -> Option<Refusal> {
    let Call::Write { writer, position, size, frame } = call else {
        return None;
    };
    let mut whole = Writer { pointer: mended(&writer.pointer, &writer.setup, &writer.table), ..writer.clone() };
    if writer.is_well_formed() {
        return None;
    }
    whole.write(frame, &mut vec![0; *size], *position).err()
}

fn order_of_refusals() -> Vec<Wrong> {
    vec![
        judges_early("a frame's length is judged before the display's numbers", 3, |call| {
            hidden(call) == Some(Refusal::Frame)
        }),
        judges_early("a frame's numbers are judged before the display's", 4, |call| {
            hidden(call) == Some(Refusal::Value)
        }),
        takes("room is judged before the display's numbers", |call| {
            let is_hidden = matches!(hidden(call), Some(Refusal::NoRoom { .. }));
            if let Call::Write { writer, .. } = call {
                if is_hidden {
                    writer.pointer = mended(&writer.pointer, &writer.setup, &writer.table);
                }
            }
        }),
    ]
}

fn fresh() -> Vec<Wrong> {
    let option = |of: fn(bool) -> bool| {
        move |call: &mut Call| {
            if let Call::New { pointer, .. } = call {
                *pointer = of(*pointer);
            }
        }
    };
    vec![
        takes("a fresh writer has the option off", option(|_| false)),
        takes("a fresh writer has the option on", option(|_| true)),
        takes("the option off is 1", option(|pointer| !pointer)),
        says("a refused fresh writer has the option that was asked for", |call, words| {
            if let Call::New { pointer: true, .. } = call {
                words[BEFORE_POINTER + 1] = "1".to_string();
            }
        }),
        takes("the option is off for every frame", |call| {
            if let Call::Write { writer, .. } = call {
                writer.pointer = Pointer::OFF;
            }
        }),
    ]
}

/// The ways to hold and to tell without a mistake.
pub fn right() -> Vec<Wrong> {
    vec![display("the display", |_, _| {}), held("what is held", |_, _, _| {})]
}

/// Each mistake of this file in a writer.
pub fn of_writers() -> Vec<Wrong> {
    let told = [followed(), ranks(), tools(), order(), changes(), counts()];
    let kept = [held_ranks(), held_numbers(), off(), order_of_refusals(), fresh()];
    told.into_iter().chain(kept).flatten().collect()
}

/// It takes an emulated event for one of its own.
fn takes_event(name: &str, own: fn(Event) -> Option<Event>) -> Wrong {
    steps(name, move |reader, event| right_step(reader, own(event).unwrap_or(event)))
}

/// Each mistake of this file in a reader, which knows none of the emulated events.
pub fn of_readers() -> Vec<Wrong> {
    vec![
        takes_event("ABS_X is the current slot's x", |event| {
            ((event.kind, event.code) == (EV_ABS, ABS_X)).then_some(Event { code: ABS_MT_POSITION_X, ..event })
        }),
        takes_event("ABS_Y is the current slot's y", |event| {
            ((event.kind, event.code) == (EV_ABS, ABS_Y)).then_some(Event { code: ABS_MT_POSITION_Y, ..event })
        }),
        takes_event("BTN_TOUCH 0 lifts the current slot", |event| {
            (event == Event::key(BTN_TOUCH, false)).then_some(Event::abs(ABS_MT_TRACKING_ID, -1))
        }),
        takes_event("buttons are of a known type", |event| {
            (event.kind == EV_KEY && (0x140..0x150).contains(&event.code)).then_some(Event { kind: EV_ABS, ..event })
        }),
    ]
}
