//! Calls of the pod: bytes in every place of a report, the self-test's often among them, and pod states that are not well formed.

use super::Maker;
use crate::pod::{length, Pod, PLACES, SELF_TEST};
use crate::script::Call;

/// The self-test's byte, mostly, and those that a hasty look takes for it: its neighbours, and the key that it is afterwards.
const ABOUT_SELF_TEST: [u8; 6] = [SELF_TEST, SELF_TEST, SELF_TEST, SELF_TEST - 1, SELF_TEST + 1, SELF_TEST & 0x7F];

impl Maker {
    pub(super) fn pod(&mut self) -> Call {
        if self.random.once_in(6) {
            return self.broken_pod();
        }
        // Calls alone would soon end every wait. Both values are well formed, whatever is held.
        if self.random.once_in(3) {
            self.pod.waits = !self.pod.waits;
        }
        let pod = self.pod;
        self.tag(if pod.waits { "pod: waits" } else { "pod: does not wait" });
        let mut bytes = Vec::new();
        for _ in 0..self.pod_bytes() {
            let byte = self.pod_byte(self.pod);
            self.pod.take(byte).expect("a kept pod is well formed");
            bytes.push(byte);
        }
        Call::Pod { pod, bytes }
    }

    /// How many bytes a call has: often one, so that many states are ones that an answer ended in.
    fn pod_bytes(&mut self) -> u64 {
        if self.random.once_in(2) {
            return 1;
        }
        self.tag("pod: several bytes");
        self.random.from_to(2, 12)
    }

    /// First bytes in turn, or one that opens a longer report; inside a report what fits its place, so that not every one is bad.
    pub(crate) fn pod_byte(&mut self, pod: Pod) -> u8 {
        if pod.held > 0 {
            self.tag("pod: byte inside a report");
            if self.random.once_in(6) {
                self.tag("pod: F0 inside a report");
                return SELF_TEST;
            }
            let any = self.random.word() as u8;
            let small = any & 0x0F;
            // One bit above the low four, which alone may make a report bad.
            let one_bit = 0x10 << self.random.below(4) | small;
            return match (pod.bytes[0], pod.held) {
                (0xF7, 1) => self.random.pick(&[small, small, one_bit]),
                (0xF7, _) => any,
                (0xFC, _) => self.clock_byte(),
                (0xF8..=0xFB, _) => self.random.pick(&[0x80, 0x7F, 0xFF, any]),
                _ => self.random.pick(&[small, small, small | 0x80, one_bit, any]),
            };
        }
        self.tag("pod: first byte");
        if self.random.once_in(5) {
            self.tag(if pod.waits {
                "pod: F0 or near it while it waits"
            } else {
                "pod: F0 or near it, not waited for"
            });
            return self.random.pick(&ABOUT_SELF_TEST);
        }
        if self.random.once_in(3) {
            // An odd step reaches all 256, and each range of them soon.
            self.next_first_byte = self.next_first_byte.wrapping_add(37);
            return self.next_first_byte;
        }
        self.random.pick(&[
            0xF7, 0xF7, 0xF7, 0xF8, 0xF9, 0xFA, 0xFB, 0xFC, 0xFC, 0xFC, 0xFD, 0xFD, 0xFD, 0xFE, 0xFE, 0xFF, 0xFF, 0x00,
            0x76, 0x80, 0xF6,
        ])
    }

    /// Mostly two decimal digits; a wrong one alone makes a time bad.
    fn clock_byte(&mut self) -> u8 {
        let good = (self.random.below(10) << 4 | self.random.below(10)) as u8;
        match self.random.below(16) {
            0 => self.random.pick(&[0x0A, 0xA0, 0x5A, 0xFF, 0x9A]),
            1 => self.random.pick(&[0x99, 0x90, 0x09]),
            _ => good,
        }
    }

    pub(super) fn broken_pod(&mut self) -> Call {
        let first = self.random.pick(&[0xF7, 0xF7, 0xFC, 0xFC, 0xF8, 0xF9, 0xFA, 0xFB, 0xFD, 0xFE, 0xFF]);
        let mut pod = Pod { waits: self.random.once_in(2), held: self.random.below(length(first)), bytes: [0; PLACES] };
        if pod.held > 0 {
            pod.bytes[0] = first;
            for place in 1..pod.held as usize {
                pod.bytes[place] = self.random.word() as u8;
            }
        }
        match self.random.below(4) {
            0 => {
                self.tag("pod: held too many");
                pod.held = self.random.pick(&[7, 7, 8, 255, (1 << 8) + pod.held, (1 << 32) + pod.held, u64::MAX]);
            }
            1 => {
                self.tag("pod: held as many as the report is long");
                let short = self.random.pick(&[0xF8, 0xFB, 0xFD, 0xFE, 0xFF, 0xF7]);
                pod.held = self.random.from_to(length(short), PLACES as u64);
                pod.bytes = [short, 1, 0, 0, 0, 0];
            }
            2 => {
                self.tag("pod: first byte opens nothing");
                pod.held = pod.held.max(1);
                if self.random.once_in(2) {
                    pod = Pod { held: 1, ..pod.without_bytes() };
                }
                pod.bytes[0] = self.random.pick(&[0, 1, 0x75, 0x80, 0x81, SELF_TEST, SELF_TEST, 0xF5, 0xF6]);
            }
            _ => {
                self.tag("pod: unused place not 0");
                let place = self.random.from_to(pod.held, PLACES as u64) as usize;
                if place < PLACES {
                    pod.bytes[place] = self.random.from_to(1, 255) as u8;
                } else {
                    pod = Pod { held: 0, bytes: [0xF8, 0, 0, 0, 0, 0], ..pod };
                }
            }
        }
        let count = self.pod_bytes();
        let bytes = (0..count).map(|_| if self.random.once_in(4) { SELF_TEST } else { self.random.word() as u8 });
        Call::Pod { pod, bytes: bytes.collect() }
    }
}
