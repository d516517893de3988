//! Mistakes in what records do: losses, what is pending and shown, the counts, and the length of a run.

use second::events::*;
use second::reader::{Mode, Ran, Reader};
use second::script::{reader_numbers, Call};
use second::table::{Slot, SlotNumber, TrackingId, PRESSURE, X, Y};

use crate::states::{ids_meet, too_few_bits};
use crate::wrong::{judges_early, right_step, says, skipped, steps, takes, Wrong};

/// It does the right thing and then something else: the reader before, the event, the reader after, what is told.
pub fn after(name: &str, more: impl Fn(&Reader, Event, &mut Reader, &mut Ran) + 'static) -> Wrong {
    steps(name, move |reader, event| {
        let before = reader.clone();
        let mut ran = right_step(reader, event);
        more(&before, event, reader, &mut ran);
        ran
    })
}

fn is_report(event: Event) -> bool {
    (event.kind, event.code) == (EV_SYN, SYN_REPORT)
}

fn is_dropped(event: Event) -> bool {
    (event.kind, event.code) == (EV_SYN, SYN_DROPPED)
}

/// Whether it follows no more.
pub fn is_lost(before: &Reader, now: &Reader) -> bool {
    before.mode == Mode::Following && now.mode != Mode::Following
}

fn losses() -> Vec<Wrong> {
    vec![
        after("a bad value makes it stale", |_, _, now, ran| {
            if ran.bad == 1 && now.mode == Mode::Dropped {
                now.mode = Mode::Stale;
            }
        }),
        after("a repeated id makes it dropped", |_, _, now, ran| {
            if ran.bad == 1 && now.mode == Mode::Stale {
                now.mode = Mode::Dropped;
            }
        }),
        after("a repeated id is shown all the same", |before, _, now, ran| {
            if ran.bad == 1 && now.mode == Mode::Stale {
                *now = Reader { shown: before.pending, ..before.clone() };
            }
        }),
        after("a loss keeps what is pending", |before, _, now, _| {
            if is_lost(before, now) {
                now.pending = before.pending;
            }
        }),
        after("a loss shows what is pending", |before, _, now, _| {
            if is_lost(before, now) {
                now.shown = before.pending;
                now.pending = before.pending;
            }
        }),
        after("a loss sets the current slot to 0", |before, _, now, _| {
            if is_lost(before, now) {
                now.current = SlotNumber(0);
            }
        }),
        after("a report while stale makes it follow", |before, event, now, _| {
            if before.mode == Mode::Stale && is_report(event) {
                now.mode = Mode::Following;
            }
        }),
        after("a report while dropped makes it follow", |before, event, now, _| {
            if before.mode == Mode::Dropped && is_report(event) {
                now.mode = Mode::Following;
            }
        }),
        after("SYN_DROPPED while stale does nothing", |before, event, now, _| {
            if before.mode == Mode::Stale && is_dropped(event) {
                now.mode = Mode::Stale;
            }
        }),
        after("SYN_DROPPED while dropped makes it stale", |before, event, now, _| {
            if before.mode == Mode::Dropped && is_dropped(event) {
                now.mode = Mode::Stale;
            }
        }),
        steps("a slot is taken while lost", |reader, event| {
            let ran = right_step(reader, event);
            let is_slot = (event.kind, event.code) == (EV_ABS, ABS_MT_SLOT);
            if ran.ignored == 1 && is_slot && (0..reader.setup.slots as i32).contains(&event.value) {
                reader.current = SlotNumber(event.value as u64);
            }
            ran
        }),
        steps("a report has value 0", |reader, event| {
            right_step(reader, if is_report(event) && event.value != 0 { Event::abs(0, 0) } else { event })
        }),
        steps("SYN_DROPPED has value 0", |reader, event| {
            right_step(reader, if is_dropped(event) && event.value != 0 { Event::abs(0, 0) } else { event })
        }),
    ]
}

fn tables() -> Vec<Wrong> {
    let mut all = vec![
        after("shown before the report", |_, _, now, _| now.shown = now.pending),
        after("an id that changes clears x and y", |before, _, now, _| {
            for (slot, old) in now.pending.iter_mut().zip(&before.pending) {
                if slot.id != old.id {
                    (slot.numbers[X], slot.numbers[Y]) = (0, 0);
                }
            }
        }),
        after("a lift clears pressure", |before, _, now, _| {
            for (slot, old) in now.pending.iter_mut().zip(&before.pending) {
                if old.id.is_live() && !slot.id.is_live() {
                    slot.numbers[PRESSURE] = 0;
                }
            }
        }),
        after("numbers of an unused slot are not taken", |before, event, now, _| {
            let s = before.current.0 as usize;
            if now.mode == Mode::Following && event.code != ABS_MT_TRACKING_ID && !before.pending[s].id.is_live() {
                now.pending[s] = before.pending[s];
            }
        }),
        after("an id over a live one is not taken", |before, event, now, _| {
            let s = before.current.0 as usize;
            if now.mode == Mode::Following && event.value != -1 && before.pending[s].id.is_live() {
                now.pending[s].id = before.pending[s].id;
            }
        }),
        steps("ids are compared at a report in the first eight slots", |reader, event| {
            let mut few = reader.clone();
            few.pending[8..].iter_mut().for_each(|slot| slot.id = TrackingId::UNUSED);
            let ran = right_step(&mut few, event);
            if ran.shown == 1 {
                reader.shown = reader.pending;
                return ran;
            }
            right_step(reader, event)
        }),
    ];
    for (how, bits) in too_few_bits() {
        all.push(after(&format!("ids are compared {how} at a report"), move |before, _, now, ran| {
            if ran.shown == 1 && ids_meet(before.pending.iter().map(|slot| slot.id.0), bits) {
                *now = Reader { mode: Mode::Stale, pending: before.shown, ..before.clone() };
                *ran = Ran { bad: 1, ..Ran::NOTHING };
            }
        }));
    }
    all
}

/// How many slots have an id of one before them.
fn repeats(slots: &[Slot]) -> u64 {
    let is_repeat = |s: &usize| slots[*s].id.is_live() && slots[..*s].iter().any(|slot| slot.id == slots[*s].id);
    (0..slots.len()).filter(is_repeat).count() as u64
}

fn counts() -> Vec<Wrong> {
    let mut all = vec![
        after("SYN_DROPPED while following is ignored", |before, event, _, ran| {
            ran.ignored += u64::from(before.mode == Mode::Following && is_dropped(event));
        }),
        after("SYN_DROPPED while following is bad", |before, event, _, ran| {
            ran.bad += u64::from(before.mode == Mode::Following && is_dropped(event));
        }),
        after("the report that makes it stale is not ignored", |before, _, now, ran| {
            ran.ignored *= u64::from(before.mode == now.mode || now.mode == Mode::Dropped);
        }),
        after("the SYN_DROPPED that makes it dropped is not ignored", |before, _, now, ran| {
            ran.ignored *= u64::from(before.mode == now.mode || now.mode == Mode::Stale);
        }),
        after("a bad value while lost is bad", |before, event, _, ran| {
            ran.bad += u64::from(before.mode != Mode::Following && event.kind == EV_ABS && event.value < -1);
        }),
        after("a bad value is ignored too", |_, _, _, ran| ran.ignored += ran.bad),
        after("what is unknown while lost is skipped", |before, event, _, ran| {
            if ran.ignored == 1 && !listed(before.layout).contains(&(event.kind, event.code)) {
                *ran = Ran { ignored: 1, first_skipped: None, ..skipped(event) };
            }
        }),
        after("an empty report shows nothing", |before, _, _, ran| {
            ran.shown *= u64::from(before.pending != before.shown);
        }),
        after("each repeated id is bad", |before, event, _, ran| {
            ran.bad *= if is_report(event) { repeats(&before.pending) } else { 1 };
        }),
        after("a repeated id is not bad", |_, event, _, ran| ran.bad *= u64::from(!is_report(event))),
    ];
    for (i, name) in ["tables shown", "unknown type", "unknown code", "bad", "ignored"].into_iter().enumerate() {
        for bits in [7, 8, 9, 10] {
            // A run is lost by the first bad one.
            if name == "bad" {
                continue;
            }
            all.push(says(format!("{name} is cut to {bits} bits"), move |call, words| {
                if let Call::Run { reader, .. } = call {
                    let count = &mut words[reader_numbers(reader.layout) + 1 + i];
                    *count = (count.parse::<u64>().unwrap() & ((1 << bits) - 1)).to_string();
                }
            }));
        }
    }
    all
}

fn runs() -> Vec<Wrong> {
    let mut all = vec![
        takes("a cut record is left out", |call| {
            if let Call::Run { bytes, .. } = call {
                bytes.truncate(bytes.len() / RECORD * RECORD);
            }
        }),
        takes("half a record is not a cut one", |call| {
            if let Call::Run { bytes, .. } = call {
                bytes.truncate(if bytes.len() % RECORD == RECORD / 2 { bytes.len() - RECORD / 2 } else { bytes.len() });
            }
        }),
        takes("one byte too many is not a cut record", |call| {
            if let Call::Run { bytes, .. } = call {
                bytes.truncate(if bytes.len() % RECORD == 1 { bytes.len() - 1 } else { bytes.len() });
            }
        }),
        judges_early("6 is judged before 2", 6, |call| match call {
            Call::Run { bytes, .. } => bytes.len() % RECORD != 0,
            _ => false,
        }),
    ];
    for most in [255, 256, 511, 512, 1_000, 1_023, 1_024, 1_400] {
        all.push(takes(format!("a run ends after {most} records"), move |call| {
            if let Call::Run { bytes, .. } = call {
                bytes.truncate(most * RECORD);
            }
        }));
    }
    all
}

/// Each mistake of this file.
pub fn all() -> Vec<Wrong> {
    [losses(), tables(), counts(), runs()].into_iter().flatten().collect()
}
