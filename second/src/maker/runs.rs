//! Calls that read records: runs of any length, and single ones.

use super::Maker;
use crate::events::{Event, ABS_MT_SLOT, KNOWN_TYPES, RECORD};
use crate::pointer::Pointer;
use crate::reader::{Mode, Reader};
use crate::requests::Request;
use crate::script::{reader_numbers, Call, MOST_NUMBERS};
use crate::table::{live_ids_differ, Layout, NARROW};
use crate::writer::{Writer, LARGEST_FRAME};

/// A run of more records is rare, and a long one.
const SHORT_RUN: u64 = 40;
/// More than a count of 8 bits holds.
const MANY: u64 = 300;

/// The longest run behind such a reader, but for one record: a run that is made ragged must still fit its line.
fn most(layout: Layout) -> u64 {
    ((MOST_NUMBERS - reader_numbers(layout)) / RECORD) as u64 - 1
}

impl Maker {
    pub(super) fn run(&mut self, layout: Layout) -> Call {
        let (which, mut reader) = self.reader(layout);
        let kept = !self.random.once_in(6);
        let mut bytes = self.run_bytes(&reader);
        if !kept {
            self.break_reader(&mut reader);
        }
        if self.random.once_in(8) {
            self.tag("run: ragged");
            if self.random.once_in(2) || bytes.is_empty() {
                for _ in 0..self.random.from_to(1, 7) {
                    bytes.push(self.random.word() as u8);
                }
            } else {
                bytes.truncate(bytes.len() - self.random.from_to(1, 7) as usize);
            }
        }
        if kept {
            self.keep(which, &reader, |reader| reader.run(&bytes).is_ok());
        }
        Call::Run { reader, bytes }
    }

    fn run_bytes(&mut self, reader: &Reader) -> Vec<u8> {
        if self.random.once_in(12) {
            self.tag("run: no records");
            return Vec::new();
        }
        if self.random.once_in(4) {
            return self.sent(reader);
        }
        // A lost reader would only ignore them.
        if reader.mode == Mode::Following && self.random.once_in(15) {
            return self.many_alike(reader);
        }
        if reader.mode == Mode::Following && self.random.once_in(8) {
            return self.around_loss(reader);
        }
        let count = if self.random.once_in(30) {
            self.tag("run: long");
            self.random.from_to(MANY, most(reader.layout))
        } else {
            match self.random.below(3) {
                0 => self.random.from_to(1, 4),
                1 => self.random.from_to(5, 20),
                _ => self.random.from_to(1, SHORT_RUN),
            }
        };
        let rough = self.random.once_in(2);
        self.tag(if rough { "run: rough" } else { "run: calm" });
        let mut bytes = Vec::with_capacity(count as usize * RECORD);
        for _ in 0..count {
            // A long run that is lost at once would try little.
            let rough = rough && (count <= SHORT_RUN || self.random.once_in(20));
            bytes.extend(self.event(reader, rough).to_bytes());
        }
        bytes
    }

    /// The records of one frame or a few, from a writer that has what this reader shows.
    fn sent(&mut self, reader: &Reader) -> Vec<u8> {
        self.tag("run: what a writer sends");
        let mut writer = self.writer_beside(reader);
        let mut bytes = Vec::new();
        for _ in 0..self.random.pick(&[1, 1, 2, 3]) {
            let frame = self.frame(&writer);
            let mut buffer = [0; LARGEST_FRAME];
            let written = writer.write(&frame, &mut buffer, 0).expect("a reader's shown table is a writer's");
            bytes.extend(&buffer[..written.events as usize * RECORD]);
        }
        bytes
    }

    /// A panel's writer has touch sizes that a crane does not know of.
    fn writer_beside(&mut self, reader: &Reader) -> Writer {
        let (mut setup, mut table) = (reader.setup, reader.shown);
        if reader.layout == Layout::Crane {
            setup = self.panel_setup(&reader.setup);
            for slot in &mut table[..setup.slots as usize] {
                for i in Layout::Crane.numbers()..Layout::Panel.numbers() {
                    slot.numbers[i] = self.number(setup.largest[i]);
                }
            }
        }
        let mut pointer = Pointer::OFF;
        if self.requests.contains(&Request::Pointer) && self.random.once_in(4) {
            self.tag("pointer: emulated events are read");
            pointer = self.any_pointer(&setup, &table);
        }
        Writer { setup, current: reader.current, counter: self.window(), table, pointer }
    }

    /// Hundreds of records that add to one count: skipped for either reason, shown, or ignored behind a loss.
    fn many_alike(&mut self, reader: &Reader) -> Vec<u8> {
        self.tag("run: many alike");
        let some = self.random.from_to(MANY, most(reader.layout));
        let count = self.random.pick(&[some, most(reader.layout)]);
        let which = self.random.below(4);
        let mut bytes = if which == 3 { Event::DROPPED.to_bytes().to_vec() } else { Vec::new() };
        while bytes.len() < count as usize * RECORD {
            let event = match which {
                _ if self.random.once_in(50) => self.event(reader, false),
                0 => self.unknown_where(reader.layout, |kind| !KNOWN_TYPES.contains(&kind)),
                1 => self.unknown_where(reader.layout, |kind| KNOWN_TYPES.contains(&kind)),
                _ => Event::REPORT,
            };
            bytes.extend(event.to_bytes());
        }
        bytes
    }

    /// A loss with unknown records before it, behind it, or both. Those behind it are not skipped but ignored.
    fn around_loss(&mut self, reader: &Reader) -> Vec<u8> {
        let (before, behind) = self.random.pick(&[(1, 0), (0, 1), (0, 1), (1, 1), (2, 2)]);
        self.tag(if before > 0 { "run: skipped before a loss" } else { "run: unknown behind a loss alone" });
        let mut events: Vec<Event> = Vec::new();
        for _ in 0..self.random.below(4) {
            events.push(self.listed_event(reader));
        }
        for _ in 0..before {
            events.push(self.unknown_event(reader.layout));
        }
        let bad = self.bad_value(reader);
        events.push(self.random.pick(&[Event::DROPPED, Event::DROPPED, bad]));
        // Dropped or stale.
        for _ in 0..self.random.below(2) {
            events.push(Event::REPORT);
        }
        for _ in 0..behind {
            events.push(self.unknown_event(reader.layout));
        }
        events.iter().flat_map(|event| event.to_bytes()).collect()
    }

    pub(super) fn one(&mut self, layout: Layout) -> Call {
        let (which, mut reader) = self.reader(layout);
        let kept = !self.random.once_in(6);
        let rough = self.random.once_in(4);
        self.tag(if rough { "one: rough" } else { "one: calm" });
        let event = if rough {
            self.rough_event(&reader)
        } else if !live_ids_differ(&reader.pending) && !self.random.once_in(3) {
            Event::REPORT
        } else if reader.setup.slots > NARROW as u64 && self.random.once_in(6) {
            Event::abs(ABS_MT_SLOT, reader.setup.slots as i32 - 1)
        } else if kept && reader.mode == Mode::Following && self.random.once_in(2) {
            // Not where it would be ignored: each is to be named in its turn.
            self.next_unknown(layout)
        } else if reader.mode != Mode::Following && self.random.once_in(4) {
            // The two that can move a lost reader on.
            self.random.pick(&[Event::REPORT, Event::DROPPED])
        } else {
            self.event(&reader, false)
        };
        if kept {
            self.keep(which, &reader, |reader| reader.one(event).is_ok());
        } else {
            self.break_reader(&mut reader);
        }
        Call::One { reader, event }
    }
}
