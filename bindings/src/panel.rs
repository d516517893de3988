//! What a panel is described by: its setup, slots, ids, the rows of a frame and of a table, and events.

use crate::ffi::{PER_SLOT, RECORDS, RECORD_BYTES, SETUP};

/// A slot, from 0 on. Its own type, so that it cannot be taken for a tracking id.
#[derive(Clone, Copy, PartialEq, Eq, PartialOrd, Ord, Hash, Debug)]
pub struct Slot(pub usize);

/// A contact's tracking id, 0 to 65,535; -1 for no contact.
#[derive(Clone, Copy, PartialEq, Eq, PartialOrd, Ord, Hash, Debug)]
pub struct TrackingId(pub i32);

impl TrackingId {
    /// No contact.
    pub const UNUSED: TrackingId = TrackingId(-1);
}

/// What a panel is set up with. On Linux `EVIOCGABS` tells it.
#[derive(Clone, Copy, PartialEq, Eq, Hash, Debug)]
pub struct Setup {
    /// How many slots it has, 1 to 32: the maximum of ABS_MT_SLOT, plus 1.
    pub slots: u32,
    /// The largest x, 1 to 32,767.
    pub x: u32,
    /// The largest y, 1 to 32,767.
    pub y: u32,
    /// The largest pressure, 1 to 255.
    pub pressure: u32,
    /// The largest ABS_MT_TOUCH_MAJOR, 1 to 255.
    pub major: u32,
    /// The largest ABS_MT_TOUCH_MINOR, 1 to 255.
    pub minor: u32,
}

impl Setup {
    pub(crate) fn numbers(&self) -> [u32; SETUP] {
        [self.slots, self.x, self.y, self.pressure, self.major, self.minor]
    }
}

/// What a frame says of a slot.
#[derive(Clone, Copy, PartialEq, Eq, Hash, Debug)]
pub enum Kind {
    /// No contact. The row's other numbers are not looked at.
    None,
    /// A contact: the same one as in the frame before, if there was one.
    Contact,
    /// A contact that is not the one of the frame before.
    New,
}

/// One slot's row of a frame. Numbers that are out of their ranges are refused by 4.
#[derive(Clone, Copy, PartialEq, Eq, Hash, Debug)]
pub struct Contact {
    /// Whether there is a contact.
    pub kind: Kind,
    /// 0 to the largest x.
    pub x: i32,
    /// 0 to the largest y.
    pub y: i32,
    /// 1 to the largest pressure: a finger presses.
    pub pressure: i32,
    /// 0 to the largest major.
    pub major: i32,
    /// 0 to the largest minor.
    pub minor: i32,
}

impl Contact {
    /// No contact in this slot.
    pub const NONE: Contact = Contact { kind: Kind::None, x: 0, y: 0, pressure: 0, major: 0, minor: 0 };

    pub(crate) fn numbers(&self) -> [i32; PER_SLOT] {
        let kind = match self.kind {
            Kind::None => 0,
            Kind::Contact => 1,
            Kind::New => 2,
        };
        [kind, self.x, self.y, self.pressure, self.major, self.minor]
    }
}

/// One slot's row of a table: what a reader answers of a contact, and what a load gives it.
#[derive(Clone, Copy, PartialEq, Eq, Hash, Debug)]
pub struct SlotRecord {
    /// Which contact it is; [`TrackingId::UNUSED`] for none.
    pub id: TrackingId,
    /// ABS_MT_POSITION_X.
    pub x: i32,
    /// ABS_MT_POSITION_Y.
    pub y: i32,
    /// ABS_MT_PRESSURE.
    pub pressure: i32,
    /// ABS_MT_TOUCH_MAJOR.
    pub major: i32,
    /// ABS_MT_TOUCH_MINOR.
    pub minor: i32,
}

impl SlotRecord {
    /// A slot that was never touched.
    pub const UNUSED: SlotRecord = SlotRecord { id: TrackingId::UNUSED, x: 0, y: 0, pressure: 0, major: 0, minor: 0 };

    pub(crate) fn numbers(&self) -> [i32; PER_SLOT] {
        [self.id.0, self.x, self.y, self.pressure, self.major, self.minor]
    }
}

/// The rows of a frame or an image as the library takes them, without the heap.
/// It has room for one row more than any panel has slots: too long a frame stays too long, and the library says so.
pub(crate) struct Rows {
    numbers: [i32; PER_SLOT * (RECORDS + 1)],
    len: usize,
}

impl Rows {
    pub(crate) fn of(rows: impl Iterator<Item = [i32; PER_SLOT]>) -> Rows {
        let mut all = Rows { numbers: [0; PER_SLOT * (RECORDS + 1)], len: 0 };
        for (place, row) in all.numbers.chunks_exact_mut(PER_SLOT).zip(rows) {
            place.copy_from_slice(&row);
            all.len += PER_SLOT;
        }
        all
    }

    pub(crate) fn numbers(&self) -> &[i32] {
        &self.numbers[..self.len]
    }
}

/// An event: what Linux's `struct input_event` has behind its time.
#[derive(Clone, Copy, PartialEq, Eq, Hash, Debug)]
pub struct Event {
    /// The event's type, which is no name in Rust.
    pub kind: u16,
    /// Its code.
    pub code: u16,
    /// Its value.
    pub value: i32,
}

impl Event {
    /// SYN_REPORT, which ends the events of a frame.
    pub const REPORT: Event = Event { kind: 0, code: 0, value: 0 };
    /// SYN_DROPPED: events were lost.
    pub const DROPPED: Event = Event { kind: 0, code: 3, value: 0 };

    /// Its record of 8 bytes, little-endian.
    pub const fn to_bytes(self) -> [u8; RECORD_BYTES] {
        let [k0, k1] = self.kind.to_le_bytes();
        let [c0, c1] = self.code.to_le_bytes();
        let [v0, v1, v2, v3] = self.value.to_le_bytes();
        [k0, k1, c0, c1, v0, v1, v2, v3]
    }

    /// The event of a record.
    pub const fn from_bytes(record: [u8; RECORD_BYTES]) -> Event {
        let [k0, k1, c0, c1, v0, v1, v2, v3] = record;
        Event {
            kind: u16::from_le_bytes([k0, k1]),
            code: u16::from_le_bytes([c0, c1]),
            value: i32::from_le_bytes([v0, v1, v2, v3]),
        }
    }
}
