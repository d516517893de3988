//! The records of type A frames: good ones, and refused in each way.

use super::anonymous::Contact;
use super::Maker;
use crate::events::*;
use crate::pairing::MOST_CONTACTS;
use crate::table::PRESSURE;
use crate::writer::Writer;

/// The codes of a contact, in the order of its numbers.
const NUMBERS: [u16; 3] = [ABS_MT_POSITION_X, ABS_MT_POSITION_Y, ABS_MT_PRESSURE];
/// All that is not skipped.
const READ: [(u16, u16); 6] = [
    (EV_SYN, SYN_REPORT),
    (EV_SYN, SYN_MT_REPORT),
    (EV_SYN, SYN_DROPPED),
    (EV_ABS, NUMBERS[0]),
    (EV_ABS, NUMBERS[1]),
    (EV_ABS, NUMBERS[2]),
];
/// What panels send besides, and what looks like what is read.
const BESIDE: &[(u16, u16)] = &[
    (EV_SYN, 1),
    (EV_SYN, 4),
    (EV_SYN, 0x102),
    (EV_KEY, BTN_TOUCH),
    (EV_KEY, SYN_MT_REPORT),
    (EV_KEY, SYN_REPORT),
    (EV_ABS, ABS_X),
    (EV_ABS, ABS_Y),
    (EV_ABS, SYN_MT_REPORT),
    (EV_ABS, ABS_MT_SLOT),
    (EV_ABS, ABS_MT_TRACKING_ID),
    (EV_ABS, ABS_MT_TOUCH_MAJOR),
    (EV_ABS, ABS_MT_TOUCH_MINOR),
];

impl Maker {
    /// The records of a frame for this well-formed writer, one in three with something that it is refused for.
    pub(crate) fn type_a_frame(&mut self, writer: &Writer) -> Vec<Event> {
        let mut contacts = self.contacts(writer);
        let is_bad = self.random.once_in(3);
        if is_bad && self.random.once_in(3) {
            self.crowd(writer, &mut contacts);
        }
        let mut packets: Vec<Vec<Event>> = contacts.iter().map(|contact| self.packet(writer, contact)).collect();
        let is_bad_value = is_bad && self.random.once_in(3);
        if is_bad_value {
            self.break_value(writer, &mut packets);
        }
        if self.random.once_in(5) {
            self.tag("anonymous: a packet with none");
            let at = self.random.below(packets.len() as u64 + 1) as usize;
            packets.insert(at, vec![self.closing()]);
        }
        let mut events = packets.concat();
        events.push(Event { value: self.random.pick(&[0, 0, 0, 1, -1, 9]), ..Event::REPORT });
        if is_bad && (!is_bad_value || self.random.once_in(4)) {
            self.break_packets(writer, &mut events);
        }
        self.add_skipped(&mut events);
        events
    }

    fn closing(&mut self) -> Event {
        Event { value: self.random.pick(&[0, 0, 0, 1, -1, 9]), ..Event::MT_REPORT }
    }

    /// A contact's records in any order, and now and then a code twice, the first time with any value.
    fn packet(&mut self, writer: &Writer, contact: &Contact) -> Vec<Event> {
        let mut events: Vec<Event> =
            NUMBERS.iter().zip(contact).map(|(code, number)| Event::abs(*code, *number)).collect();
        if self.random.once_in(3) {
            let by = self.random.from_to(1, 2) as usize;
            events.rotate_left(by);
            events.swap(0, by);
        }
        if self.random.once_in(5) {
            self.tag("anonymous: a repeated code");
            let i = self.random.below(3) as usize;
            let largest = writer.setup.largest[i];
            let first = match self.random.below(3) {
                0 => self.bad_number(largest),
                1 => 0,
                _ => self.number(largest) as i32,
            };
            events.insert(0, Event::abs(NUMBERS[i], first));
        }
        events.push(self.closing());
        events
    }

    /// More contacts than a frame may have of this writer: one more mostly.
    fn crowd(&mut self, writer: &Writer, contacts: &mut Vec<Contact>) {
        let most = (writer.setup.slots as usize).min(MOST_CONTACTS);
        self.tag(match most {
            MOST_CONTACTS => "anonymous: more than five contacts",
            _ => "anonymous: more contacts than n",
        });
        let count = most + self.random.pick(&[1, 1, 1, 2, 7]);
        *contacts = self.contacts_of(&writer.setup, &[], count);
    }

    /// One value that counts is out of its range, or a contact does not press.
    fn break_value(&mut self, writer: &Writer, packets: &mut [Vec<Event>]) {
        let Some(last) = (packets.len() as u64).checked_sub(1) else {
            return;
        };
        let packet = &mut packets[self.random.from_to(0, last) as usize];
        let i = self.random.below(3) as usize;
        let value = if i == PRESSURE && self.random.once_in(2) {
            self.tag("anonymous: pressure 0");
            0
        } else {
            self.tag("anonymous: a value out of range");
            self.bad_number(writer.setup.largest[i])
        };
        // Before the SYN_MT_REPORT it is the last of its code.
        packet.insert(packet.len() - 1, Event::abs(NUMBERS[i], value));
    }

    /// One thing is missing, too many or in a wrong place, and now and then two.
    fn break_packets(&mut self, writer: &Writer, events: &mut Vec<Event>) {
        for _ in 0..self.random.pick(&[1, 1, 1, 2]) {
            self.break_packet(writer, events);
        }
    }

    fn break_packet(&mut self, writer: &Writer, events: &mut Vec<Event>) {
        match self.random.below(14) {
            0..=3 => {
                self.tag("anonymous: a number is left out");
                self.leave_out(events, |event| event.kind == EV_ABS);
            }
            4 | 5 => {
                self.tag("anonymous: a SYN_MT_REPORT is left out");
                self.leave_out(events, |event| (event.kind, event.code) == (EV_SYN, SYN_MT_REPORT));
            }
            6 => {
                self.tag("anonymous: SYN_DROPPED");
                let dropped = Event { value: self.random.pick(&[0, 0, 7]), ..Event::DROPPED };
                self.put_in(events, dropped);
            }
            7 => {
                self.tag("anonymous: no report");
                self.leave_out(events, |event| (event.kind, event.code) == (EV_SYN, SYN_REPORT));
            }
            8 | 9 => {
                self.tag("anonymous: two reports");
                self.put_in(events, Event::REPORT);
            }
            10..=12 => self.put_behind(writer, events),
            _ => {
                self.tag("anonymous: no records");
                events.clear();
            }
        }
    }

    /// A packet, or a part of one, behind the report or the last packet.
    fn put_behind(&mut self, writer: &Writer, events: &mut Vec<Event>) {
        match self.random.below(3) {
            0 => {
                self.tag("anonymous: a packet behind the report");
                let contacts = self.contacts_of(&writer.setup, &[], 1);
                events.extend(self.packet(writer, &contacts[0]));
            }
            1 => {
                self.tag("anonymous: a SYN_MT_REPORT behind the report");
                events.push(self.closing());
            }
            _ => {
                self.tag("anonymous: a number behind the last packet");
                let at = events.len().saturating_sub(1);
                events.insert(at, Event::abs(self.random.pick(&NUMBERS), 1));
            }
        }
    }

    fn put_in(&mut self, events: &mut Vec<Event>, event: Event) {
        let at = self.random.below(events.len() as u64 + 1) as usize;
        events.insert(at, event);
    }

    /// One of these events is missing, if there is one.
    fn leave_out(&mut self, events: &mut Vec<Event>, which: fn(&Event) -> bool) {
        let places: Vec<usize> = (0..events.len()).filter(|i| which(&events[*i])).collect();
        if !places.is_empty() {
            events.remove(self.random.pick(&places));
        }
    }

    /// Records that are as if they were not there: between the others, and behind the report.
    fn add_skipped(&mut self, events: &mut Vec<Event>) {
        if self.random.once_in(3) {
            self.tag("anonymous: skipped records");
            for _ in 0..self.random.pick(&[1, 1, 2, 3, 8]) {
                let event = self.skipped_event();
                self.put_in(events, event);
            }
        }
        if self.random.once_in(8) {
            self.tag("anonymous: skipped records behind the report");
            events.push(self.skipped_event());
        }
    }

    fn skipped_event(&mut self) -> Event {
        loop {
            let (kind, code) = self.random.pick(&READ);
            let bit = 1u16 << self.random.below(16);
            let beside = self.random.pick(BESIDE);
            let (kind, code) = self.random.pick(&[(kind ^ bit, code), (kind, code ^ bit), beside, beside]);
            if !READ.contains(&(kind, code)) {
                return Event { kind, code, value: self.random.pick(&[0, 1, -1, 5, i32::MAX]) };
            }
        }
    }
}
