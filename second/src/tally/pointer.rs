//! What K6 asks: each emulated event, what the display follows, and each way in which its numbers are not well formed.

use super::writing::{BYTES, EVENTS};
use super::{Tally, Words};
use crate::events::*;
use crate::pointer::{tool, Pointer};
use crate::script::{Call, WRITER_NUMBERS};
use crate::table::{Table, SLOTS, X, Y};
use crate::writer::{Writer, MOST_EVENTS};

impl Tally {
    pub(super) fn count_pointer(&mut self, writer: &Writer, frame: &[i32], position: u64, said: &Words) {
        let verdict = said.at(0);
        if writer.pointer.on {
            self.note(format!("pointer {verdict}"));
        }
        match verdict {
            "0" if writer.pointer.on => self.count_display(writer, position, said),
            "2" if is_good_without(writer) => self.count_fault(writer),
            "5" if writer.pointer.on => {
                let mut without = Writer { pointer: Pointer::OFF, ..writer.clone() };
                // The buffer is as long as what is said of it.
                let mut buffer = vec![0; said.0.len().saturating_sub(BYTES)];
                let is_room = without.write(frame, &mut buffer, position).is_ok();
                self.note_when(is_room, "pointer: no room for the emulated events alone");
            }
            _ => {}
        }
    }

    /// One thing alone that is not well formed; a state that is broken twice tells little.
    fn count_fault(&mut self, writer: &Writer) {
        match (writer.pointer.on, &faults(writer)[..]) {
            (true, [fault]) => self.note(format!("pointer: refused for {fault}")),
            (false, [fault]) => self.note(format!("pointer: refused with the option off, for {fault}")),
            (false, [_, _, ..]) => self.note("pointer: refused with the option off, for several"),
            _ => {}
        }
    }

    /// An accepted frame to a writer with the option on.
    fn count_display(&mut self, before: &Writer, position: u64, said: &Words) {
        let Some(Call::Write { writer: after, .. }) = said.as_call("write", WRITER_NUMBERS, "0 0") else {
            return;
        };
        let events = sent(position, said);
        let emulated: Vec<Event> = events.iter().copied().filter(is_emulated).collect();
        match (events.len(), emulated.len()) {
            (0, _) => self.note("pointer: no event"),
            (_, 0) => self.note("pointer: contact events alone"),
            (_, 1) => self.note("pointer: 1 emulated event"),
            (_, count @ 2..=4) => self.note(format!("pointer: {count} emulated events")),
            _ => {}
        }
        self.note_when(events.len() == MOST_EVENTS, "pointer: 228 events");
        self.count_emulated(&emulated);
        self.count_contacts(before, &after, &emulated);
    }

    fn count_emulated(&mut self, emulated: &[Event]) {
        let has = |kind: u16, code: u16| emulated.iter().any(|event| (event.kind, event.code) == (kind, code));
        let mut tools = 0;
        for event in emulated.iter().filter(|event| event.kind == EV_KEY) {
            match event.code {
                BTN_TOUCH => self.note(format!("pointer: BTN_TOUCH {}", event.value)),
                code => {
                    tools += 1;
                    self.note(format!("pointer: tool {code:#x} {}", event.value));
                }
            }
        }
        self.note_when(tools == 2, "pointer: a swap of tools");
        match (has(EV_ABS, ABS_X), has(EV_ABS, ABS_Y)) {
            (true, false) => self.note("pointer: X alone"),
            (false, true) => self.note("pointer: Y alone"),
            (true, true) => self.note("pointer: X and Y"),
            (false, false) => {
                let is_first = emulated.contains(&Event::key(BTN_TOUCH, true));
                self.note_when(is_first, "pointer: a first touch without X and Y");
            }
        }
    }

    /// Which contact is followed, and the ranks.
    fn count_contacts(&mut self, before: &Writer, after: &Writer, emulated: &[Event]) {
        let (old, new) = (followed(before), followed(after));
        let is_away = (after.pointer.told.x, after.pointer.told.y) != (0, 0);
        let goes_on = |s: &usize| after.table[*s].id.is_live() && after.table[*s].id == before.table[*s].id;
        if let (Some(s), Some(now)) = (old, new) {
            let is_replaced = after.table[s].id.is_live() && !goes_on(&s);
            self.note_when(!after.table[s].id.is_live(), "pointer: the oldest lifts, another is followed");
            self.note_when(is_replaced && now != s, "pointer: the oldest is replaced, another is followed");
            self.note_when(is_replaced && now == s, "pointer: the oldest is replaced, and followed");
        }
        self.note_when(old.is_some() && new.is_none() && is_away, "pointer: all lift, X and Y keep still");
        let live = live(&after.table);
        self.note_when(new != live.first().copied(), "pointer: not the lowest slot is followed");
        let places = |s: &usize| (after.table[*s].numbers[X], after.table[*s].numbers[Y]);
        let tied = |s: &&usize| after.pointer.ranks[**s] == 0 && new.is_some_and(|new| places(&new) != places(s));
        self.note_when(live.iter().any(|s| tied(&s)), "pointer: the lower slot of a tie is followed");
        let is_closed = |s: &&usize| goes_on(s) && after.pointer.ranks[**s] < before.pointer.ranks[**s];
        self.note_when(live.iter().any(|s| is_closed(&s)), "pointer: a gap is closed");
        let began: Vec<&usize> = live.iter().filter(|s| !goes_on(s)).collect();
        let is_tie = began.len() > 1 && began.len() < live.len();
        self.note_when(is_tie, "pointer: several begin behind others, with one rank");
        let counts = (count(&before.table), live.len());
        let is_many = counts.0 != counts.1 && counts.0.min(counts.1) >= 5;
        let is_quiet = !emulated.iter().any(|event| event.kind == EV_KEY);
        self.note_when(is_many && is_quiet, "pointer: five to six contacts or back, no tool event");
    }
}

fn live(table: &Table) -> Vec<usize> {
    (0..SLOTS).filter(|s| table[*s].id.is_live()).collect()
}

fn count(table: &Table) -> usize {
    live(table).len()
}

/// The slot of the least rank, the lowest of them.
fn followed(writer: &Writer) -> Option<usize> {
    live(&writer.table).into_iter().min_by_key(|s| writer.pointer.ranks[*s])
}

/// The events that an answer has from the position on.
fn sent(position: u64, said: &Words) -> Vec<Event> {
    let count: usize = said.at(EVENTS).parse().unwrap_or(0);
    let from = usize::try_from(position).ok().and_then(|position| position.checked_add(BYTES));
    let words = from.and_then(|from| said.0.get(from..)).unwrap_or(&[]);
    let bytes: Vec<u8> = words.iter().take(count.saturating_mul(RECORD)).map_while(|word| word.parse().ok()).collect();
    events(&bytes).collect()
}

fn is_emulated(event: &Event) -> bool {
    event.kind == EV_KEY || event.kind == EV_ABS && matches!(event.code, ABS_X | ABS_Y)
}

/// Whether all is well formed but, it may be, what is held for the display.
fn is_good_without(writer: &Writer) -> bool {
    Writer { pointer: Pointer::OFF, ..writer.clone() }.is_well_formed()
}

/// What is wrong with what a writer holds for the display, said the slow way; its other parts are well formed.
fn faults(writer: &Writer) -> Vec<&'static str> {
    let Pointer { on, told, ranks } = writer.pointer;
    if !on {
        let numbers = [("touch", told.touch != 0), ("tool", told.tool != 0), ("X", told.x != 0), ("Y", told.y != 0)];
        let rank = ("a rank", ranks.iter().any(|rank| *rank != 0));
        return numbers.into_iter().chain([rank]).filter(|(_, is_wrong)| *is_wrong).map(|(name, _)| name).collect();
    }
    let live = live(&writer.table);
    let taken = |rank: u8| live.iter().any(|s| ranks[*s] == rank);
    let unused = |s: &usize| !live.contains(s) && ranks[*s] != 0;
    let n = writer.setup.slots as usize;
    let largest = writer.setup.largest;
    let is_large = live.iter().any(|s| usize::from(ranks[*s]) >= SLOTS);
    let has_gap = live.iter().any(|s| ranks[*s] > 0 && !taken(ranks[*s] - 1));
    let mut all = vec![
        ("a rank of 32 or more", is_large),
        ("no rank 0", !is_large && !live.is_empty() && !taken(0)),
        ("a gap in the ranks", !is_large && taken(0) && has_gap),
        ("the rank of an unused slot", (0..n).any(|s| unused(&s))),
        ("a rank past n", (n..SLOTS).any(|s| unused(&s))),
        ("touch", told.touch != u8::from(!live.is_empty())),
        ("tool", told.tool != tool(live.len())),
    ];
    match followed(writer).map(|s| writer.table[s].numbers) {
        Some(numbers) => all.extend([
            ("X of another than the oldest", told.x != numbers[X]),
            ("Y of another than the oldest", told.y != numbers[Y]),
        ]),
        None => all.extend([("X out of range", told.x > largest[X]), ("Y out of range", told.y > largest[Y])]),
    }
    all.into_iter().filter(|(_, is_wrong)| *is_wrong).map(|(name, _)| name).collect()
}

#[cfg(test)]
mod tests {
    use super::*;
    use crate::maker::Maker;
    use crate::requests::Request;

    /// A state that is broken in no way that is counted, or well formed in spite of one, would be a hole.
    #[test]
    fn each_fault_is_one_and_there_is_no_other() {
        let mut maker = Maker::with(31, Request::ALL);
        let mut seen = [0; 2];
        for _ in 0..20_000 {
            let Some(Call::Write { writer, .. }) = Call::parse(maker.next_line().as_bytes()) else {
                continue;
            };
            if is_good_without(&writer) {
                assert_eq!(faults(&writer).is_empty(), writer.is_well_formed(), "{writer:?}");
                seen[usize::from(writer.is_well_formed())] += 1;
            }
        }
        assert!(seen.iter().all(|count| *count > 200), "{seen:?}");
    }

    #[test]
    fn records_that_an_answer_has_not_are_none() {
        for (text, count) in [("0", 0), ("0 x", 0), (&"0 ".repeat(900), 0)] {
            assert_eq!(sent(3, &Words::of(text)).len(), count);
        }
        let state = format!("0{} 2 0 0 : 9 {}", " 0".repeat(WRITER_NUMBERS), "0 ".repeat(15));
        assert_eq!(sent(1, &Words::of(&state)).len(), 1);
        assert_eq!(sent(u64::MAX, &Words::of(&state)).len(), 0);
        assert!(is_emulated(&Event::key(BTN_TOUCH, true)) && !is_emulated(&Event::REPORT));
    }
}
