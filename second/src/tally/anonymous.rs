//! What K12 asks: each refusal for each of its reasons, packets of every kind, and pairings that only a careful look finds.

use super::writing::{BYTES, EVENTS, NEED};
use super::{Tally, Words};
use crate::events::*;
use crate::pairing::{squared, Place, MOST_CONTACTS};
use crate::script::{Call, WRITER_NUMBERS};
use crate::table::{Slot, Table, MAJOR, MINOR, PRESSURE, SLOTS, X, Y};
use crate::writer::Writer;

/// With more old contacts than this, pairings are too many to look at each.
const FEW: usize = 6;

/// The type and code of what is not skipped, in one letter each.
fn letter(event: Event) -> Option<char> {
    Some(match (event.kind, event.code) {
        (EV_SYN, SYN_REPORT) => 'r',
        (EV_SYN, SYN_MT_REPORT) => 'm',
        (EV_SYN, SYN_DROPPED) => 'd',
        (EV_ABS, ABS_MT_POSITION_X) => 'x',
        (EV_ABS, ABS_MT_POSITION_Y) => 'y',
        (EV_ABS, ABS_MT_PRESSURE) => 'p',
        _ => return None,
    })
}

/// What is read of a frame, in letters.
fn letters(records: &[u8]) -> String {
    events(records).filter_map(letter).collect()
}

/// The packets that are closed, in letters, and what is left behind the last one; reports and losses are left out.
fn packets(letters: &str) -> (Vec<String>, String) {
    let numbers = letters.replace(['r', 'd'], "");
    let mut parts: Vec<String> = numbers.split('m').map(str::to_string).collect();
    let open = parts.pop().unwrap_or_default();
    (parts, open)
}

/// Why a frame is refused with 10, each reason by itself.
fn faults(letters: &str) -> Vec<&'static str> {
    let (closed, open) = packets(letters);
    let lacks = |number: char| closed.iter().any(|packet| !packet.is_empty() && !packet.contains(number));
    let reports = letters.matches('r').count();
    let all = [
        ("no x", lacks('x')),
        ("no y", lacks('y')),
        ("no pressure", lacks('p')),
        ("numbers that are not closed", !open.is_empty()),
        ("SYN_DROPPED", letters.contains('d')),
        ("no report", reports == 0),
        ("two reports", reports > 1),
        ("something behind the report", reports == 1 && !letters.ends_with('r')),
    ];
    all.into_iter().filter(|(_, is_so)| *is_so).map(|(name, _)| name).collect()
}

/// The values that count of whole packets.
fn values(records: &[u8]) -> Vec<[i32; 3]> {
    let (mut all, mut open) = (Vec::new(), [None; 3]);
    for event in events(records) {
        match letter(event) {
            Some('x') => open[X] = Some(event.value),
            Some('y') => open[Y] = Some(event.value),
            Some('p') => open[PRESSURE] = Some(event.value),
            Some('m') => {
                if let [Some(x), Some(y), Some(pressure)] = std::mem::take(&mut open) {
                    all.push([x, y, pressure]);
                }
            }
            _ => {}
        }
    }
    all
}

fn live(table: &Table) -> Vec<usize> {
    (0..SLOTS).filter(|s| table[*s].id.is_live()).collect()
}

fn place_of(slot: &Slot) -> Place {
    Place { x: slot.numbers[X], y: slot.numbers[Y] }
}

/// Every list that pairs as many as possible, with its total.
fn totals(old: &[Place], new: &[Place], taken: &mut Vec<usize>, total: u64, found: &mut Vec<(u64, Vec<usize>)>) {
    let Some(place) = old.get(taken.len()) else {
        let pairs = taken.iter().filter(|number| **number < MOST_CONTACTS).count();
        if pairs == old.len().min(new.len()) {
            found.push((total, taken.clone()));
        }
        return;
    };
    for number in (0..new.len()).chain([MOST_CONTACTS]) {
        if number < MOST_CONTACTS && taken.contains(&number) {
            continue;
        }
        let more = new.get(number).map_or(0, |new| squared(*place, *new));
        taken.push(number);
        totals(old, new, taken, total + more, found);
        taken.pop();
    }
}

impl Tally {
    pub(super) fn count_anonymous(&mut self, call: &Call, said: &Words) {
        let Call::Anonymous { writer, records, position, .. } = call else {
            return;
        };
        let letters = letters(records);
        let (closed, _) = packets(&letters);
        let contacts = closed.iter().filter(|packet| !packet.is_empty()).count();
        match said.at(0) {
            "0" => self.count_paired(writer, records, said),
            "2" => self.note_when(records.len() % RECORD != 0, "anonymous: 2 before 6"),
            "4" => {
                self.count_bad_values(writer, records);
                // The buffer is as long as what is said of it.
                let is_past = *position > said.0.len().saturating_sub(BYTES) as u64;
                self.note_when(is_past, "anonymous: 4 before 5");
            }
            "5" => match said.at(NEED) {
                "0" => self.note("anonymous: no room, no need"),
                _ => self.note("anonymous: no room, a need"),
            },
            "6" => self.note_when(contacts > MOST_CONTACTS, "anonymous: 6 before 9"),
            "9" => self.count_too_many(writer, &letters, contacts),
            "10" => {
                if let [fault] = faults(&letters)[..] {
                    self.note(format!("anonymous: refused for {fault} alone"));
                }
                self.note_when(letters.is_empty(), "anonymous: refused for nothing at all");
                self.note_when(letters.ends_with("rm"), "anonymous: refused for a SYN_MT_REPORT behind the report");
                self.note_when(has_bad_value(writer, &values(records)), "anonymous: 10 before 4");
            }
            _ => {}
        }
    }

    fn count_too_many(&mut self, writer: &Writer, letters: &str, contacts: usize) {
        let n = writer.setup.slots as usize;
        self.note_when(n < MOST_CONTACTS && contacts == n + 1, "anonymous: one more than n is refused");
        self.note_when(n > MOST_CONTACTS && contacts == 6, "anonymous: six are refused where n is more");
        self.note_when(!faults(letters).is_empty(), "anonymous: 9 before 10");
        let before = letters.split('r').next().unwrap_or("");
        let (closed, _) = packets(before);
        let early = closed.iter().filter(|packet| !packet.is_empty()).count();
        self.note_when(early <= MOST_CONTACTS.min(n), "anonymous: too many with those behind the report");
        let (closed, _) = packets(letters);
        let whole = closed.iter().filter(|packet| "xyp".chars().all(|number| packet.contains(number))).count();
        self.note_when(whole <= MOST_CONTACTS.min(n), "anonymous: too many with those that lack a number");
    }

    fn count_bad_values(&mut self, writer: &Writer, records: &[u8]) {
        let is_bad = |i: usize| {
            values(records)
                .iter()
                .any(|contact| contact[i] < 0 || i64::from(contact[i]) > writer.setup.largest[i].into())
        };
        let unpressed = values(records).iter().any(|contact| contact[PRESSURE] == 0);
        match (is_bad(X), is_bad(Y), is_bad(PRESSURE), unpressed) {
            (true, false, false, false) => self.note("anonymous: refused for x alone"),
            (false, true, false, false) => self.note("anonymous: refused for y alone"),
            (false, false, true, false) => self.note("anonymous: refused for pressure alone"),
            (false, false, false, true) => self.note("anonymous: refused for pressure 0 alone"),
            _ => {}
        }
    }

    /// An accepted frame.
    fn count_paired(&mut self, before: &Writer, records: &[u8], said: &Words) {
        let Some(Call::Write { writer: after, .. }) = said.as_call("write", WRITER_NUMBERS, "0 0") else {
            return;
        };
        let new = values(records);
        let old = live(&before.table);
        self.note(format!("anonymous: {} contacts", new.len()));
        let ordering = match old.len().cmp(&new.len()) {
            std::cmp::Ordering::Less => "fewer old than new",
            std::cmp::Ordering::Equal => "as many old as new",
            std::cmp::Ordering::Greater => "more old than new",
        };
        self.note(format!("anonymous: {ordering}"));
        self.note_when(old.len() == SLOTS && !new.is_empty(), "anonymous: 32 old contacts");
        self.note_when(!old.is_empty() && new.is_empty(), "anonymous: all end");
        self.note_when(said.at(EVENTS) == "0", "anonymous: no event");
        self.note_when(before.pointer.on && said.at(EVENTS) != "0", "anonymous: a display is told");
        self.count_records(records);
        self.count_slots_taken(before, &after);
        let places: Vec<Place> = new.iter().map(|[x, y, _]| Place { x: *x as u32, y: *y as u32 }).collect();
        let old: Vec<Place> = old.iter().map(|s| place_of(&before.table[*s])).collect();
        self.count_pairing(&old, &places);
    }

    /// What the records of an accepted frame have besides three numbers a contact.
    fn count_records(&mut self, records: &[u8]) {
        let letters = letters(records);
        let (closed, _) = packets(&letters);
        let skipped: Vec<bool> = events(records).map(|event| letter(event).is_none()).collect();
        let is_twice = |packet: &String| "xyp".chars().any(|number| packet.matches(number).count() > 1);
        self.note_when(skipped.contains(&true), "anonymous: accepted with skipped records");
        self.note_when(skipped.last() == Some(&true), "anonymous: accepted, skipped behind the report");
        self.note_when(closed.iter().any(is_twice), "anonymous: accepted with a repeated code");
        self.note_when(closed.iter().any(String::is_empty), "anonymous: accepted with an empty packet");
    }

    /// Which slots the contacts have afterwards.
    fn count_slots_taken(&mut self, before: &Writer, after: &Writer) {
        let pairs = || before.table.iter().zip(&after.table);
        let goes_on = |(old, new): &(&Slot, &Slot)| new.id.is_live() && new.id == old.id;
        let sized = |slot: &Slot| slot.numbers[MAJOR] + slot.numbers[MINOR] > 0;
        let began: Vec<usize> =
            (0..SLOTS).filter(|s| !before.table[*s].id.is_live() && after.table[*s].id.is_live()).collect();
        let first_unused = before.table.iter().position(|slot| !slot.id.is_live());
        let is_below = began.first().is_some_and(|s| live(&before.table).iter().any(|other| other > s));
        self.note_when(pairs().any(|pair| goes_on(&pair) && sized(pair.0)), "anonymous: sizes become 0");
        let ends = |(old, new): (&Slot, &Slot)| old.id.is_live() && !new.id.is_live() && sized(new);
        self.note_when(pairs().any(ends), "anonymous: a contact that ends keeps its sizes");
        self.note_when(is_below, "anonymous: a contact begins below one that goes on");
        self.note_when(first_unused != Some(0) && !began.is_empty(), "anonymous: slot 0 is not to be had");
        let has_gap = began.windows(2).any(|pair| pair[1] > pair[0] + 1);
        self.note_when(has_gap, "anonymous: two begin around one that goes on");
    }

    /// What must be looked at to find the pairing; all pairings are tried where there are few.
    fn count_pairing(&mut self, old: &[Place], new: &[Place]) {
        let nearest = |place: &Place| old.iter().map(|old| squared(*old, *place)).min();
        // As every new contact is paired, the total is no less than this.
        let no_less: u64 = new.iter().filter_map(nearest).sum();
        let is_wide = new.len() <= old.len() && no_less > u64::from(u32::MAX);
        self.note_when(is_wide, "anonymous: a total above 32 bits");
        if old.is_empty() || new.is_empty() || old.len() > FEW {
            return;
        }
        let mut found = Vec::new();
        totals(old, new, &mut Vec::new(), 0, &mut found);
        let least = found.iter().map(|(total, _)| *total).min().unwrap_or(0);
        let mut lists: Vec<&Vec<usize>> =
            found.iter().filter(|(total, _)| *total == least).map(|(_, list)| list).collect();
        lists.sort();
        self.note_when(lists.len() > 1, "anonymous: a tie");
        let is_both = lists.iter().any(|list| list[0] == MOST_CONTACTS) && lists[0][0] != MOST_CONTACTS;
        self.note_when(is_both, "anonymous: a tie with the first old contact left over");
        self.note_when(
            lists.first().is_some_and(|list| list.windows(2).any(|pair| pair[0] > pair[1])),
            "anonymous: crossed",
        );
        let hasty = |order: bool| total_in_order(old, new, order) > least;
        self.note_when(hasty(true), "anonymous: each old contact's nearest costs more");
        self.note_when(hasty(false), "anonymous: each new contact's nearest costs more");
    }
}

fn has_bad_value(writer: &Writer, contacts: &[[i32; 3]]) -> bool {
    contacts.iter().any(|contact| {
        contact[PRESSURE] == 0
            || (0..3).any(|i| contact[i] < 0 || i64::from(contact[i]) > writer.setup.largest[i].into())
    })
}

/// The total where the old contacts, or the new ones, each take the nearest that is left, one after the other.
fn total_in_order(old: &[Place], new: &[Place], by_old: bool) -> u64 {
    let (first, second) = if by_old { (old, new) } else { (new, old) };
    let mut left = second.to_vec();
    let mut total = 0;
    for place in first {
        let Some(nearest) = (0..left.len()).min_by_key(|i| squared(*place, left[*i])) else {
            break;
        };
        total += squared(*place, left.remove(nearest));
    }
    total
}

#[cfg(test)]
mod tests {
    use super::*;
    use crate::maker::Maker;
    use crate::requests::Request;

    /// A frame that is refused with 10 for no reason that is counted, or taken in spite of one, would be a hole; so would a value.
    #[test]
    fn each_reason_is_one_and_there_is_no_other() {
        let mut maker = Maker::with(32, Request::ALL);
        let mut seen = [0; 3];
        for _ in 0..30_000 {
            let Some(call @ Call::Anonymous { .. }) = Call::parse(maker.next_line().as_bytes()) else {
                continue;
            };
            let Call::Anonymous { writer, records, .. } = &call else { unreachable!("it is one") };
            let verdict = call.answer();
            let (is_whole, is_good) = (faults(&letters(records)).is_empty(), !has_bad_value(writer, &values(records)));
            match verdict.split(' ').next() {
                Some("10") => assert!(!is_whole, "{}", letters(records)),
                Some("4") => assert!(is_whole && !is_good, "{}", letters(records)),
                Some("0" | "5") => assert!(is_whole && is_good, "{}", letters(records)),
                _ => continue,
            }
            seen[usize::from(is_whole) + usize::from(is_whole && is_good)] += 1;
        }
        assert!(seen.iter().all(|count| *count > 100), "{seen:?}");
    }

    #[test]
    fn letters_and_packets() {
        let (closed, open) = packets("xyrpmmxdy");
        assert_eq!((closed, open.as_str()), (vec!["xyp".to_string(), String::new()], "xy"));
        assert_eq!(faults("xypmr"), [""; 0]);
        assert_eq!(faults("r"), [""; 0]);
        assert_eq!(faults("xmrm"), ["no y", "no pressure", "something behind the report"]);
        assert_eq!(faults("xdrr"), ["numbers that are not closed", "SYN_DROPPED", "two reports"]);
    }
}
