//! K12, anonymous panels: a type A frame judged, its contacts paired with those of the table, and sent as type B.

use crate::events::*;
use crate::pairing::{pairing, Place, MOST_CONTACTS, NONE};
use crate::refusal::Refusal;
use crate::table::*;
use crate::writer::{Writer, Written};

/// The numbers that a packet has: X, Y and PRESSURE.
const PACKET_NUMBERS: usize = 3;

/// What came of a packet so far; of a repeated code the last counts.
type Packet = [Option<i32>; PACKET_NUMBERS];

/// A contact whose numbers are good.
type Contact = [u32; PACKET_NUMBERS];

/// What a type A frame's records tell before any value is judged.
struct Told {
    /// The first five contacts; more are only counted.
    contacts: [Packet; MOST_CONTACTS],
    closed: usize,
    open: Packet,
    reports: usize,
    ends_with_report: bool,
    is_dropped: bool,
}

impl Told {
    fn by(records: &[u8]) -> Told {
        let nothing = [None; PACKET_NUMBERS];
        let mut told = Told {
            contacts: [nothing; MOST_CONTACTS],
            closed: 0,
            open: nothing,
            reports: 0,
            ends_with_report: false,
            is_dropped: false,
        };
        events(records).for_each(|event| told.take(event));
        told
    }

    fn take(&mut self, event: Event) {
        match (event.kind, event.code) {
            (EV_SYN, SYN_REPORT) => self.reports += 1,
            (EV_SYN, SYN_DROPPED) => self.is_dropped = true,
            (EV_SYN, SYN_MT_REPORT) => self.close(),
            (EV_ABS, ABS_MT_POSITION_X) => self.open[X] = Some(event.value),
            (EV_ABS, ABS_MT_POSITION_Y) => self.open[Y] = Some(event.value),
            (EV_ABS, ABS_MT_PRESSURE) => self.open[PRESSURE] = Some(event.value),
            // As if it were not there, also at the end.
            _ => return,
        }
        self.ends_with_report = (event.kind, event.code) == (EV_SYN, SYN_REPORT);
    }

    fn close(&mut self) {
        let packet = std::mem::take(&mut self.open);
        // A packet with none of the three is no contact.
        if packet.iter().any(Option::is_some) {
            if let Some(contact) = self.contacts.get_mut(self.closed) {
                *contact = packet;
            }
            self.closed += 1;
        }
    }

    /// Whether all is closed and whole, and the only report is the end; refusal 10 where it is not. At most five contacts are closed.
    fn is_whole(&self) -> bool {
        self.contacts[..self.closed].iter().flatten().all(Option::is_some)
            && self.open.iter().all(Option::is_none)
            && !self.is_dropped
            && self.reports == 1
            && self.ends_with_report
    }
}

/// The contact of a whole packet; `None` where a value is out of its range.
fn contact(packet: &Packet, setup: &Setup) -> Option<Contact> {
    let mut numbers = [0; PACKET_NUMBERS];
    for (i, number) in numbers.iter_mut().enumerate() {
        *number = in_range(packet[i]?, setup.largest[i])?;
    }
    // K8: a live finger presses.
    (numbers[PRESSURE] > 0).then_some(numbers)
}

impl Writer {
    /// Sends what a type A frame changes as type B records into the buffer, from the position on; refusals 2, 6, 9, 10, 4 and 5, judged in this order.
    pub fn write_anonymous(&mut self, records: &[u8], buffer: &mut [u8], position: u64) -> Result<Written, Refusal> {
        if !self.is_well_formed() {
            return Err(Refusal::State);
        }
        if records.len() % RECORD != 0 {
            return Err(Refusal::Ragged);
        }
        let told = Told::by(records);
        let slots = self.setup.slots as usize;
        if told.closed > MOST_CONTACTS.min(slots) {
            return Err(Refusal::Contacts);
        }
        if !told.is_whole() {
            return Err(Refusal::Packets);
        }
        let mut contacts = [[0; PACKET_NUMBERS]; MOST_CONTACTS];
        for (good, packet) in contacts.iter_mut().zip(&told.contacts[..told.closed]) {
            *good = contact(packet, &self.setup).ok_or(Refusal::Value)?;
        }
        let frame = type_b(&self.table, &contacts[..told.closed]);
        self.write(&frame[..SLOT_NUMBERS * slots], buffer, position)
    }
}

/// The type B frame of these contacts: kind 1 and touch sizes 0 for each, zeros elsewhere.
fn type_b(table: &Table, contacts: &[Contact]) -> [i32; SLOTS * SLOT_NUMBERS] {
    let mut frame = [0; SLOTS * SLOT_NUMBERS];
    for (contact, slot) in contacts.iter().zip(slots_of(table, contacts)) {
        let row = &mut frame[SLOT_NUMBERS * slot..];
        row[0] = 1;
        for (wanted, number) in row[1..].iter_mut().zip(contact) {
            *wanted = *number as i32;
        }
    }
    frame
}

/// The slot of each contact: that of its old one, or else the lowest that is unused in the old table and not given yet.
fn slots_of(table: &Table, contacts: &[Contact]) -> [usize; MOST_CONTACTS] {
    let mut places = [Place { x: 0, y: 0 }; SLOTS + MOST_CONTACTS];
    let (old, new) = places.split_at_mut(SLOTS);
    let live = || (0..SLOTS).filter(|s| table[*s].id.is_live());
    for (place, s) in old.iter_mut().zip(live()) {
        *place = Place { x: table[s].numbers[X], y: table[s].numbers[Y] };
    }
    for (place, contact) in new.iter_mut().zip(contacts) {
        *place = Place { x: contact[X], y: contact[Y] };
    }
    let pairing = pairing(&old[..live().count()], &new[..contacts.len()]);
    let mut slots = [None; MOST_CONTACTS];
    for (s, number) in live().zip(pairing).filter(|(_, number)| *number != NONE) {
        slots[number] = Some(s);
    }
    let mut unused = (0..SLOTS).filter(|s| !table[*s].id.is_live());
    slots.map(|slot| slot.or_else(|| unused.next()).unwrap_or(SLOTS))
}
