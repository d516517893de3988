//! Calls of the force stick: bytes rich in 0x2B, packets good and damaged, and reports at the edges of their ranges.

use super::Maker;
use crate::force::{check, Force, HEAD, LEN, LONGEST, MOST_BUTTONS, MOST_HAT, OP, PACKET, START};
use crate::script::ForceCall;

impl Maker {
    pub(super) fn force_call(&mut self) -> ForceCall {
        match self.random.below(12) {
            0..=3 => self.force_write(),
            _ => self.force_read(),
        }
    }

    fn force_write(&mut self) -> ForceCall {
        let mut force = self.force();
        if self.random.once_in(5) {
            self.tag("force: buttons over 4,095");
            force.buttons = self.random.pick(&[4_096, 4_096, 4_097, 8_191, 1 << 13, 1 << 15, 65_535]);
        }
        if self.random.once_in(6) {
            self.tag("force: hat over 15");
            force.hat = self.random.pick(&[16, 16, 17, 31, 32, 128, 255]);
        }
        let (position, size) = self.room(PACKET);
        ForceCall::Write { force, position, size }
    }

    /// A good report; its numbers are often at an edge, or 0x2B.
    pub(crate) fn force(&mut self) -> Force {
        let any = self.random.word();
        let [x, y] = [any as i16, (any >> 16) as i16].map(|number| {
            self.random.pick(&[number, number, number, 0, 1, -1, i16::MIN, i16::MAX, 255, 256, -256, 0x2B, 0x2B00])
        });
        let (throttle, rudder) = ((any >> 32) as u8, (any >> 40) as i8);
        let buttons = (any >> 48) as u16 & MOST_BUTTONS;
        Force {
            x,
            y,
            throttle: self.random.pick(&[throttle, throttle, 0, 127, 128, 255, START]),
            buttons: self.random.pick(&[buttons, buttons, 0, 255, 256, 0x0F00, 0x0FF0, MOST_BUTTONS]),
            hat: self.random.below(u64::from(MOST_HAT) + 1) as u8,
            rudder: self.random.pick(&[rudder, rudder, 0, -1, -128, 127, START as i8]),
        }
    }

    fn force_read(&mut self) -> ForceCall {
        let mut bytes = Vec::new();
        for _ in 0..self.random.below(4) {
            bytes.extend(self.force_part());
        }
        if self.random.once_in(4) && !bytes.is_empty() {
            self.tag("force: bytes cut");
            bytes.truncate(self.random.below(bytes.len() as u64) as usize);
        }
        let length = bytes.len() as u64;
        let position = match self.random.below(12) {
            0..=6 => 0,
            7 | 8 => {
                self.tag("force: from the middle");
                self.random.below(length + 1)
            }
            9 => {
                self.tag("force: at the end");
                length
            }
            10 => {
                self.tag("force: past the end");
                length + 1 + self.random.below(20)
            }
            _ => {
                self.tag("force: position near 2^64");
                self.random.pick(&[u64::MAX, u64::MAX - 11, 1 << 32, (1 << 63) + length / 2])
            }
        };
        ForceCall::Read { position, bytes }
    }

    /// One thing that the line may hold: bytes to skip, or a packet that is good, not for us or damaged.
    pub(crate) fn force_part(&mut self) -> Vec<u8> {
        match self.random.below(16) {
            0 | 1 => {
                self.tag("force: bytes before a packet");
                (0..self.random.from_to(1, 6)).map(|_| self.random.word() as u8).filter(|byte| *byte != START).collect()
            }
            2 => {
                self.tag("force: many 2B");
                vec![START; self.random.from_to(1, 25) as usize]
            }
            3..=6 => {
                self.tag("force: a report");
                self.force().packet().expect("a good report").to_vec()
            }
            7..=9 => self.other_packet(),
            10 | 11 => {
                self.tag("force: length over 16");
                let length = self.random.pick(&[17, 17, 18, 32, START, 128, 255]);
                let behind = if self.random.once_in(2) { u64::from(length) + 1 } else { self.random.below(6) };
                let mut packet = vec![START, self.random.pick(&[OP, 2, START]), length];
                packet.extend((0..behind).map(|_| self.random.pick(&[START, 1, 8, 0])));
                self.nest(&mut packet);
                packet
            }
            _ => self.wrong_check(),
        }
    }

    /// A good check, and another OP, another LEN or both.
    fn other_packet(&mut self) -> Vec<u8> {
        self.tag("force: not for us");
        let (op, len) = match self.random.below(4) {
            0 => (self.random.pick(&[0, 2, 3, 0x81, START, 255]), LEN),
            1 | 2 => {
                self.tag("force: a report's OP with another LEN");
                (OP, self.random.pick(&[0, 1, 7, 9, 15, LONGEST, LONGEST]))
            }
            _ => (self.random.word() as u8, self.random.below(u64::from(LONGEST) + 1) as u8),
        };
        let mut packet = vec![START, op, len];
        packet.extend((0..len).map(|_| self.random.pick(&[START, 0, 1, 8, 255, (op ^ len).wrapping_mul(29)])));
        packet.push(check(&packet));
        packet
    }

    /// A packet with one bit of it changed behind its LEN, sometimes with a good one inside it.
    fn wrong_check(&mut self) -> Vec<u8> {
        self.tag("force: wrong check");
        let mut packet =
            if self.random.once_in(2) { self.other_packet() } else { self.force().packet().expect("good").to_vec() };
        let at = match self.random.below(3) {
            0 => packet.len() - 1,
            _ => self.random.from_to(HEAD as u64, packet.len() as u64 - 1) as usize,
        };
        packet[at] ^= 1 << self.random.below(8);
        self.nest(&mut packet);
        packet
    }

    /// Half of the time a good packet begins where the damaged one is read on.
    fn nest(&mut self, packet: &mut Vec<u8>) {
        if self.random.once_in(2) {
            self.tag("force: a packet inside a refused one");
            let inner = self.force().packet().expect("a good report");
            let from = self.random.from_to(HEAD as u64, packet.len() as u64) as usize;
            packet.truncate(from);
            packet.extend(inner);
        }
    }
}
