//! The eight-byte event record and the numbers of the events.

use crate::table::{Layout, MAJOR, MINOR, NUMBERS, PRESSURE, X, Y};

/// The type of the two SYN events.
pub const EV_SYN: u16 = 0;
/// The type of the buttons that an old display is told of. No reader here knows it.
pub const EV_KEY: u16 = 1;
/// The type of the ABS_MT events.
pub const EV_ABS: u16 = 3;

/// Ends the events of a frame.
pub const SYN_REPORT: u16 = 0;
/// Closes a contact of a type A panel. No type B reader knows it.
pub const SYN_MT_REPORT: u16 = 2;
/// Events were lost.
pub const SYN_DROPPED: u16 = 3;

/// Which slot the next numbers are for.
pub const ABS_MT_SLOT: u16 = 0x2f;
/// The id of the current slot.
pub const ABS_MT_TRACKING_ID: u16 = 0x39;
/// A number of the current slot, as those after it.
pub const ABS_MT_POSITION_X: u16 = 0x35;
pub const ABS_MT_POSITION_Y: u16 = 0x36;
pub const ABS_MT_PRESSURE: u16 = 0x3a;
pub const ABS_MT_TOUCH_MAJOR: u16 = 0x30;
pub const ABS_MT_TOUCH_MINOR: u16 = 0x31;

/// 1 while any contact is live.
pub const BTN_TOUCH: u16 = 0x14a;
/// 1 while one contact is live, and so on to five or more.
pub const BTN_TOOL_FINGER: u16 = 0x145;
pub const BTN_TOOL_DOUBLETAP: u16 = 0x14d;
pub const BTN_TOOL_TRIPLETAP: u16 = 0x14e;
pub const BTN_TOOL_QUADTAP: u16 = 0x14f;
pub const BTN_TOOL_QUINTTAP: u16 = 0x148;
/// Where the display's one pointer is.
pub const ABS_X: u16 = 0;
pub const ABS_Y: u16 = 1;

/// The codes of a slot's numbers, in their order.
pub const CODES: [u16; NUMBERS] =
    [ABS_MT_POSITION_X, ABS_MT_POSITION_Y, ABS_MT_PRESSURE, ABS_MT_TOUCH_MAJOR, ABS_MT_TOUCH_MINOR];

/// Which of a slot's numbers a code of type EV_ABS sets.
pub fn number_of(code: u16) -> Option<usize> {
    Some(match code {
        ABS_MT_POSITION_X => X,
        ABS_MT_POSITION_Y => Y,
        ABS_MT_PRESSURE => PRESSURE,
        ABS_MT_TOUCH_MAJOR => MAJOR,
        ABS_MT_TOUCH_MINOR => MINOR,
        _ => return None,
    })
}

/// The types that have listed codes; of any other type no code is known.
pub const KNOWN_TYPES: [u16; 2] = [EV_SYN, EV_ABS];

/// Every listed type and code, those that a crane does not know last.
const LISTED: [(u16, u16); 4 + NUMBERS] = [
    (EV_SYN, SYN_REPORT),
    (EV_SYN, SYN_DROPPED),
    (EV_ABS, ABS_MT_SLOT),
    (EV_ABS, ABS_MT_TRACKING_ID),
    (EV_ABS, CODES[X]),
    (EV_ABS, CODES[Y]),
    (EV_ABS, CODES[PRESSURE]),
    (EV_ABS, CODES[MAJOR]),
    (EV_ABS, CODES[MINOR]),
];

/// The types and codes that are listed for such a reader; it skips all others.
pub fn listed(layout: Layout) -> &'static [(u16, u16)] {
    &LISTED[..4 + layout.numbers()]
}

/// The bytes of a record.
pub const RECORD: usize = 8;

/// One event.
#[derive(Clone, Copy, PartialEq, Eq, Debug)]
pub struct Event {
    /// The event's type, which is no name in Rust.
    pub kind: u16,
    pub code: u16,
    pub value: i32,
}

impl Event {
    /// SYN_REPORT as a writer sends it.
    pub const REPORT: Event = Event { kind: EV_SYN, code: SYN_REPORT, value: 0 };
    /// SYN_MT_REPORT as a type A panel sends it.
    pub const MT_REPORT: Event = Event { kind: EV_SYN, code: SYN_MT_REPORT, value: 0 };
    /// SYN_DROPPED as the programs send it.
    pub const DROPPED: Event = Event { kind: EV_SYN, code: SYN_DROPPED, value: 0 };

    /// An event of the type EV_ABS.
    pub fn abs(code: u16, value: i32) -> Event {
        Event { kind: EV_ABS, code, value }
    }

    /// A button that goes down or up.
    pub fn key(code: u16, is_down: bool) -> Event {
        Event { kind: EV_KEY, code, value: is_down.into() }
    }

    /// The event that a record is.
    pub fn from_bytes(bytes: [u8; RECORD]) -> Event {
        let [k0, k1, c0, c1, v0, v1, v2, v3] = bytes;
        Event {
            kind: u16::from_le_bytes([k0, k1]),
            code: u16::from_le_bytes([c0, c1]),
            value: i32::from_le_bytes([v0, v1, v2, v3]),
        }
    }

    /// Its record, little-endian.
    pub fn to_bytes(self) -> [u8; RECORD] {
        let [k0, k1] = self.kind.to_le_bytes();
        let [c0, c1] = self.code.to_le_bytes();
        let [v0, v1, v2, v3] = self.value.to_le_bytes();
        [k0, k1, c0, c1, v0, v1, v2, v3]
    }
}

/// The whole records of a run of bytes; a ragged end is left out.
pub fn events(records: &[u8]) -> impl Iterator<Item = Event> + '_ {
    records.chunks_exact(RECORD).map(|record| {
        let mut bytes = [0; RECORD];
        bytes.copy_from_slice(record);
        Event::from_bytes(bytes)
    })
}

#[cfg(test)]
mod tests {
    use super::*;

    #[test]
    fn each_code_has_its_number() {
        for (i, code) in CODES.into_iter().enumerate() {
            assert_eq!(number_of(code), Some(i));
        }
        assert_eq!((0..=u16::MAX).filter(|code| number_of(*code).is_some()).count(), NUMBERS);
        let sizes = [(3, 0x30), (3, 0x31)];
        assert_eq!(listed(Layout::Panel)[7..], sizes);
        assert!(sizes.iter().all(|size| !listed(Layout::Crane).contains(size)));
    }

    #[test]
    fn little_endian_and_signed() {
        let event = Event::abs(ABS_MT_TRACKING_ID, -1);
        assert_eq!(event.to_bytes(), [3, 0, 0x39, 0, 255, 255, 255, 255]);
        assert_eq!(Event::from_bytes(event.to_bytes()), event);
        assert_eq!(
            Event::from_bytes([1, 2, 3, 4, 5, 6, 7, 8]),
            Event { kind: 0x0201, code: 0x0403, value: 0x0807_0605 }
        );
    }
}
