//! Events for a reader: good ones, those that lose it, and those that are no listed one.

use super::Maker;
use crate::events::*;
use crate::reader::Reader;
use crate::table::{Layout, X};

/// The types that Linux has, and the codes of its type EV_ABS and of EV_SYN: the next listed one is never far.
const TYPES: u64 = 0x20;
const ABS_CODES: u64 = 0x40;
const SYN_CODES: u64 = 0x10;
/// From one of them to the next in turn: it has no part in common with their sum, so that each comes, and codes and types come mixed.
const STRIDE: u64 = 45;

/// It closes a contact of a type A panel, and stands between the two listed codes of its type.
const MT_REPORT: (u16, u16) = (EV_SYN, SYN_MT_REPORT);

/// Neighbours of the listed types and codes, and those that a cut or swapped half-word would take for one.
const UNLISTED: &[(u16, u16)] = &[
    (0, 1),
    (0, 2),
    (0, 4),
    (0, 0x2f),
    (0, 0x35),
    (0, 0x100),
    (0, 0x103),
    (0, 0x300),
    (0x100, 0),
    (0x100, 3),
    (1, 0),
    (1, 3),
    (1, 0x2f),
    (1, 330),
    (2, 0x36),
    (3, 0),
    (3, 3),
    (3, 0x2e),
    (3, 0x30),
    (3, 0x31),
    (3, 0x32),
    (3, 0x33),
    (3, 0x34),
    (3, 0x37),
    (3, 0x38),
    (3, 0x3b),
    (3, 0x12f),
    (3, 0x135),
    (3, 0x2f00),
    (3, 0x3900),
    (3, 0x3ff),
    (3, 0xffff),
    (4, 4),
    (0x103, 0x39),
    (0x300, 0x3a),
    (0xffff, 0xffff),
];

impl Maker {
    /// An event for this reader; a rough one may make it lose.
    pub(crate) fn event(&mut self, reader: &Reader, rough: bool) -> Event {
        match self.random.below(19) {
            0..=2 => Event::abs(ABS_MT_SLOT, self.slot(reader.setup.slots) as i32),
            3 => Event::abs(ABS_MT_TRACKING_ID, -1),
            4 => Event::abs(ABS_MT_TRACKING_ID, self.good_id(reader)),
            5..=12 => self.number_event(reader),
            13 | 14 => Event::REPORT,
            15 => Event { value: self.junk(), ..Event::REPORT },
            16 | 17 => self.unknown_event(reader.layout),
            _ if rough => self.rough_event(reader),
            _ => Event::REPORT,
        }
    }

    /// A good number of a slot. A crane does not know the touch sizes, and skips any value of theirs.
    fn number_event(&mut self, reader: &Reader) -> Event {
        let i = self.any_number();
        if i >= reader.layout.numbers() {
            self.tag("record: a touch size");
            let any = self.junk();
            let size = self.random.below(256) as i32;
            return Event::abs(CODES[i], self.random.pick(&[size, size, size, 0, 255, 256, -1, any]));
        }
        Event::abs(CODES[i], self.number(reader.setup.largest[i]) as i32)
    }

    /// Any id, one of the ends, or one that differs from a live one in a bit alone.
    fn good_id(&mut self, reader: &Reader) -> i32 {
        let any = self.random.below(1 << 16) as i32;
        let shown = reader.shown[self.random.below(reader.setup.slots) as usize].id;
        match self.random.below(5) {
            0 => self.random.pick(&[0, 65_535]),
            1 if shown.is_live() => shown.0 ^ 1 << self.random.below(16),
            _ => any,
        }
    }

    /// SYN_DROPPED, a bad value, or an id that stands elsewhere.
    pub(super) fn rough_event(&mut self, reader: &Reader) -> Event {
        let setup = &reader.setup;
        match self.random.below(5 + reader.layout.numbers() as u64) as usize {
            0 => Event::DROPPED,
            1 => Event { value: self.junk(), ..Event::DROPPED },
            2 => Event::abs(ABS_MT_SLOT, self.bad_slot_value(reader)),
            3 => Event::abs(ABS_MT_TRACKING_ID, self.bad_id()),
            4 => {
                // Most often the id of another slot, so that the next report finds it twice.
                let s = self.random.below(setup.slots) as usize;
                Event::abs(ABS_MT_TRACKING_ID, reader.shown[s].id.0)
            }
            which => Event::abs(CODES[which - 5], self.bad_number(setup.largest[which - 5])),
        }
    }

    fn bad_slot_value(&mut self, reader: &Reader) -> i32 {
        let (n, most) = (reader.setup.slots as i32, reader.layout.slots() as i32);
        let value = self.random.pick(&[n, n, n, -1, -1, most - 1, most, 256, 65_536, i32::MIN, i32::MAX]);
        value.max(if value < 0 { value } else { n })
    }

    /// A bad value of one of a slot's numbers, x mostly.
    pub(super) fn bad_value(&mut self, reader: &Reader) -> Event {
        let any = self.random.below(reader.layout.numbers() as u64) as usize;
        let i = self.random.pick(&[X, any]);
        Event::abs(CODES[i], self.bad_number(reader.setup.largest[i]))
    }

    /// A type and code that are not listed, most of them beside listed ones.
    pub(super) fn unknown_event(&mut self, layout: Layout) -> Event {
        self.unknown_where(layout, |_| true)
    }

    /// The same, of types that the test takes.
    pub(super) fn unknown_where(&mut self, layout: Layout, is_wanted: fn(u16) -> bool) -> Event {
        loop {
            let (kind, code) = self.beside_listed(layout);
            if is_wanted(kind) && !listed(layout).contains(&(kind, code)) {
                return self.unknown(kind, code);
            }
        }
    }

    /// The next in turn: every code that Linux has of the known types, and each of its types. Chance would take long to name them all.
    pub(super) fn next_unknown(&mut self, layout: Layout) -> Event {
        loop {
            let i = self.next_unknown[layout as usize];
            self.next_unknown[layout as usize] = (i + STRIDE) % (ABS_CODES + SYN_CODES + TYPES);
            let (kind, code) = match i {
                _ if i < ABS_CODES => (EV_ABS, i as u16),
                _ if i < ABS_CODES + SYN_CODES => (EV_SYN, (i - ABS_CODES) as u16),
                _ => ((i - ABS_CODES - SYN_CODES) as u16, self.random.pick(listed(layout)).1),
            };
            if !listed(layout).contains(&(kind, code)) {
                return self.unknown(kind, code);
            }
        }
    }

    fn unknown(&mut self, kind: u16, code: u16) -> Event {
        self.tag(match (kind, code) {
            MT_REPORT => "record: SYN_MT_REPORT",
            (EV_SYN, _) => "record: unknown code of type 0",
            // Unknown to a crane alone.
            (EV_ABS, ABS_MT_TOUCH_MAJOR | ABS_MT_TOUCH_MINOR) => "record: a touch size",
            (EV_ABS, _) => "record: unknown code of type 3",
            _ => "record: unknown type",
        });
        Event { kind, code, value: self.random.pick(&[0, 1, -1, 5, i32::MIN, i32::MAX]) }
    }

    /// An event that a following reader does not skip.
    pub(super) fn listed_event(&mut self, reader: &Reader) -> Event {
        loop {
            let event = self.event(reader, false);
            if listed(reader.layout).contains(&(event.kind, event.code)) {
                return event;
            }
        }
    }

    fn beside_listed(&mut self, layout: Layout) -> (u16, u16) {
        let (kind, code) = self.random.pick(listed(layout));
        let bit = 1u16 << self.random.below(16);
        match self.random.below(13) {
            0 => self.random.pick(UNLISTED),
            12 => self.random.pick(&[MT_REPORT, MT_REPORT, (EV_SYN, 1), (EV_SYN, 4)]),
            1..=3 => (kind ^ bit, code),
            4..=6 => (kind, code ^ bit),
            7 | 8 => (self.random.below(TYPES) as u16, code),
            9 | 10 => {
                let codes = if kind == EV_ABS { ABS_CODES } else { SYN_CODES };
                (kind, self.random.below(codes) as u16)
            }
            _ => (self.random.word() as u16, self.random.word() as u16),
        }
    }
}
