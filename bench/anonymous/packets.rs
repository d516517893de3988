//! A type A frame read in plain Rust: its contacts, and whether it is finished.

use crate::pairing::MOST;
use crate::panel::Slot;

// A record's type and code as the number that its first four bytes are.
const X: u32 = 0x35_0003;
const Y: u32 = 0x36_0003;
const PRESSURE: u32 = 0x3a_0003;
const REPORT: u32 = 0;
const CLOSE: u32 = 0x02_0000;
const DROPPED: u32 = 0x03_0000;

/// What a frame tells: how many contacts were closed, the first five of them, and whether it is finished.
pub struct Packets {
    pub count: usize,
    pub contacts: [Slot; MOST],
    pub sound: bool,
}

/// The packet that is open: its numbers, and which of them were told, a bit each.
#[derive(Clone, Copy)]
struct Open {
    contact: Slot,
    told: u8,
}

/// A contact as a frame has it: its kind stands as the id.
const NONE: Slot = Slot { id: 1, x: 0, y: 0, pressure: 0, major: 0, minor: 0 };
const CLOSED: Open = Open { contact: NONE, told: 0 };

impl Packets {
    /// SYN_MT_REPORT closes the open packet: one with none of the three numbers is no contact.
    fn close(&mut self, open: &Open) {
        if open.told == 0 {
            return;
        }
        if let Some(contact) = self.contacts.get_mut(self.count) {
            *contact = open.contact;
        }
        self.count += 1;
        self.sound &= open.told == 7;
    }

    /// Whole records.
    pub fn read(bytes: &[u8]) -> Packets {
        let mut packets = Packets { count: 0, contacts: [NONE; MOST], sound: true };
        let (mut open, mut ended) = (CLOSED, false);
        for record in bytes.chunks_exact(8) {
            let head = u32::from_le_bytes([record[0], record[1], record[2], record[3]]);
            let value = u32::from_le_bytes([record[4], record[5], record[6], record[7]]);
            // What is said after the SYN_REPORT leaves the frame unfinished, whatever it is.
            let was_ended = ended;
            match head {
                X => (open.contact.x, open.told) = (value, open.told | 1),
                Y => (open.contact.y, open.told) = (value, open.told | 2),
                PRESSURE => (open.contact.pressure, open.told) = (value, open.told | 4),
                CLOSE => {
                    packets.close(&open);
                    open = CLOSED;
                }
                REPORT => ended = true,
                DROPPED => packets.sound = false,
                _ => continue,
            }
            packets.sound &= !was_ended;
        }
        packets.sound &= ended && open.told == 0;
        packets
    }
}
