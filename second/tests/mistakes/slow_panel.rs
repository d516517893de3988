//! A reader of type A frames said the slow way, each of its parts a function that can be another one: what a wrong one is made of.

use std::collections::HashMap;

use second::events::*;
use second::script::Call;
use second::table::{Setup, Slot, PRESSURE, SLOT_NUMBERS, X, Y};
use second::writer::Writer;

use crate::wrong::{answers, refused, Wrong};

/// What is read of a record: x, y, p, m (SYN_MT_REPORT), r (SYN_REPORT) or d (SYN_DROPPED), and its value.
pub type Read = (char, i32);
/// x, y and pressure.
pub type Contact = [i32; 3];
/// What came up to a SYN_MT_REPORT, or behind the last.
pub type Packet = Vec<Read>;
/// A new contact's number for each old one, 5 for none.
pub type List = Vec<usize>;

/// The parts of a slow reader of type A frames.
#[derive(Clone, Copy)]
pub struct Parts {
    /// What is read of a record; `None` for one that is skipped.
    pub read: fn(Event) -> Option<Read>,
    /// All that is read, changed.
    pub seen: fn(Vec<Read>) -> Vec<Read>,
    /// The packets that are closed, and what is left open.
    pub packets: fn(&[Read]) -> (Vec<Packet>, Packet),
    /// How many of them are contacts, from them, what is open, and all that is read.
    pub count: fn(&[Packet], &[Read], &[Read]) -> usize,
    /// How many there may be with so many slots.
    pub most: fn(usize) -> usize,
    /// Whether the frame is whole, from the contacts, what is open and all that is read.
    pub is_whole: fn(&[Packet], &[Read], &[Read]) -> bool,
    /// Which of a code's values counts.
    pub counting: fn(&[i32]) -> i32,
    /// Whether the values are good, from the packets and what counts of them.
    pub are_good: fn(&Setup, &[Packet], &[Contact]) -> bool,
    /// Who is who, from the old slots and the new contacts.
    pub pair: fn(&[Slot], &[Contact]) -> List,
    /// The slots for those left over, from those that are unused.
    pub unused: fn(&[usize]) -> Vec<usize>,
    /// The row of a contact in the type B frame, from its slot before.
    pub row: fn(&Slot, &Contact) -> Vec<i32>,
    /// The order in which 6, 9, 10 and 4 are judged.
    pub order: [u8; 4],
}

pub const RIGHT: Parts = Parts {
    read: |event| {
        let letter = match (event.kind, event.code) {
            (0, 0) => 'r',
            (0, 2) => 'm',
            (0, 3) => 'd',
            (3, 0x35) => 'x',
            (3, 0x36) => 'y',
            (3, 0x3a) => 'p',
            _ => return None,
        };
        Some((letter, event.value))
    },
    seen: |seen| seen,
    packets: |seen| {
        let numbers: Vec<Read> = seen.iter().copied().filter(|(letter, _)| !"rd".contains(*letter)).collect();
        let mut parts: Vec<Packet> = numbers.split(|(letter, _)| *letter == 'm').map(<[Read]>::to_vec).collect();
        let open = parts.pop().unwrap_or_default();
        (parts, open)
    },
    count: |closed, _, _| closed.iter().filter(|packet| !packet.is_empty()).count(),
    most: |n| n.min(5),
    is_whole: |contacts, open, seen| {
        let is_full = |packet: &Packet| "xyp".chars().all(|letter| has(packet, letter));
        contacts.iter().all(is_full) && open.is_empty() && !has(seen, 'd') && ends(seen) && reports(seen) == 1
    },
    counting: |values| values[values.len() - 1],
    are_good: |setup, _, contacts| contacts.iter().all(|contact| is_good(setup, contact, 1)),
    pair: |old, new| first_of_best(old, new, square),
    unused: <[usize]>::to_vec,
    row: |_, [x, y, pressure]| vec![1, *x, *y, *pressure, 0, 0],
    order: [6, 9, 10, 4],
};

pub fn has(seen: &[Read], letter: char) -> bool {
    seen.iter().any(|(other, _)| *other == letter)
}

pub fn ends(seen: &[Read]) -> bool {
    seen.last().is_some_and(|(letter, _)| *letter == 'r')
}

pub fn reports(seen: &[Read]) -> usize {
    seen.iter().filter(|(letter, _)| *letter == 'r').count()
}

pub fn is_good(setup: &Setup, contact: &Contact, least: i64) -> bool {
    let in_range = |i: usize| (0..=i64::from(setup.largest[i])).contains(&i64::from(contact[i]));
    (0..3).all(in_range) && i64::from(contact[PRESSURE]) >= least
}

/// How far an old contact is from a new one.
pub type Distance = fn(&Slot, &Contact) -> u64;

pub fn ways(old: &Slot, new: &Contact) -> [u64; 3] {
    [X, Y, PRESSURE].map(|i| u64::from(old.numbers[i].abs_diff(new[i] as u32)))
}

pub fn square(old: &Slot, new: &Contact) -> u64 {
    let [x, y, _] = ways(old, new);
    x * x + y * y
}

/// New contacts without a pair, the total, and the list from an old contact on.
pub type Found = (usize, u64, List);

/// The best by this distance; of equals the first list.
pub fn first_of_best(old: &[Slot], new: &[Contact], distance: Distance) -> List {
    best_from(0, 0, old, new, distance, &|a, b| a < b, &mut HashMap::new()).2
}

pub type Before<'a> = &'a dyn Fn(&Found, &Found) -> bool;

pub fn best_from(
    i: usize,
    taken: usize,
    old: &[Slot],
    new: &[Contact],
    distance: Distance,
    is_before: Before,
    known: &mut HashMap<(usize, usize), Found>,
) -> Found {
    if i == old.len() {
        return (new.len() - taken.count_ones() as usize, 0, Vec::new());
    }
    if let Some(found) = known.get(&(i, taken)) {
        return found.clone();
    }
    let free = (0..new.len()).filter(|number| taken >> number & 1 == 0);
    let mut best: Option<Found> = None;
    for number in free.chain([5]) {
        let bit = if number < 5 { 1 << number } else { 0 };
        let (left, total, list) = best_from(i + 1, taken | bit, old, new, distance, is_before, known);
        let more = new.get(number).map_or(0, |new| distance(&old[i], new));
        let found = (left, total + more, [vec![number], list].concat());
        if best.as_ref().map_or(true, |best| is_before(&found, best)) {
            best = Some(found);
        }
    }
    let best = best.expect("5 is always tried");
    known.insert((i, taken), best.clone());
    best
}

impl Parts {
    /// Its answer to a type A frame for a well-formed writer.
    pub fn answer(&self, call: &Call) -> Option<String> {
        let Call::Anonymous { writer, position, size, records } = call else {
            return None;
        };
        if !writer.is_well_formed() {
            return None;
        }
        let seen = (self.seen)(events(records).filter_map(self.read).collect());
        let (closed, open) = (self.packets)(&seen);
        let count = (self.count)(&closed, &open, &seen);
        let packets: Vec<Packet> = closed.into_iter().filter(|packet| !packet.is_empty()).collect();
        let contacts: Vec<Contact> = packets.iter().map(|packet| self.contact(packet)).collect();
        let is_refused = |number: &u8| match number {
            6 => records.len() % RECORD != 0,
            9 => count > (self.most)(writer.setup.slots as usize),
            10 => !(self.is_whole)(&packets, &open, &seen),
            _ => !(self.are_good)(&writer.setup, &packets, &contacts),
        };
        if let Some(number) = self.order.iter().find(|number| is_refused(number)) {
            return Some(refused(call, *number));
        }
        let frame = self.frame(writer, &contacts);
        Some(Call::Write { writer: writer.clone(), position: *position, size: *size, frame }.answer())
    }

    fn contact(&self, packet: &[Read]) -> Contact {
        ['x', 'y', 'p'].map(|letter| {
            let values: Vec<i32> =
                packet.iter().filter(|(other, _)| *other == letter).map(|(_, value)| *value).collect();
            if values.is_empty() {
                0
            } else {
                (self.counting)(&values)
            }
        })
    }

    fn frame(&self, writer: &Writer, contacts: &[Contact]) -> Vec<i32> {
        let n = writer.setup.slots as usize;
        let is_live = |s: &usize| writer.table[*s].id.is_live();
        let live: Vec<usize> = (0..n).filter(is_live).collect();
        let old: Vec<Slot> = live.iter().map(|s| writer.table[*s]).collect();
        let list = (self.pair)(&old, contacts);
        let unused = (self.unused)(&(0..n).filter(|s| !is_live(s)).collect::<Vec<_>>());
        let left_over = (0..contacts.len()).filter(|number| !list.contains(number));
        let slots = list.iter().copied().zip(live).chain(left_over.zip(unused));
        let mut frame = vec![0; n * SLOT_NUMBERS];
        for (number, s) in slots.filter(|(number, _)| *number < contacts.len()) {
            let row = (self.row)(&writer.table[s], &contacts[number]);
            frame[s * SLOT_NUMBERS..][..SLOT_NUMBERS].copy_from_slice(&row);
        }
        frame
    }
}

/// A reader of frames one part of which is changed.
pub fn reads(name: &str, change: fn(&mut Parts)) -> Wrong {
    let mut parts = RIGHT;
    change(&mut parts);
    answers(name, move |asked| parts.answer(asked.call?))
}
