//! Calls of the writer: frames and room for them, good and bad.

use super::loads::resized;
use super::Maker;
use crate::events::RECORD;
use crate::refusal::Refusal;
use crate::script::{Call, LARGEST_BUFFER};
use crate::table::{Layout, Setup, Slot, MAJOR, MINOR, NARROW, NUMBERS, PRESSURE, SLOTS, SLOT_NUMBERS, X, Y};
use crate::writer::{Writer, Written, LARGEST_FRAME};

/// What [`Maker::press_least`] tries, by kind and pressure.
const LEAST: [[&str; 2]; 3] = [
    ["frame: kind 0, pressure 0", "frame: kind 0, pressure 1"],
    ["frame: kind 1, pressure 0", "frame: kind 1, pressure 1"],
    ["frame: kind 2, pressure 0", "frame: kind 2, pressure 1"],
];

impl Maker {
    pub(super) fn write(&mut self) -> Call {
        let (which, mut writer) = self.writer();
        let kept = !self.random.once_in(5);
        if !kept {
            self.break_writer(&mut writer);
        }
        let mut frame = self.frame(&writer);
        if self.random.once_in(6) {
            self.press_least(&mut frame);
        }
        if self.random.once_in(6) {
            self.break_frame(&writer, &mut frame);
        }
        let need = need_of(&writer, &frame).unwrap_or_else(|| self.random.pick(&[0, 16, 40]));
        let (position, size) = self.room(need);
        if kept && self.writers[which] == writer {
            move_on(&mut self.writers[which], &frame, size, position);
        }
        Call::Write { writer, position, size, frame }
    }

    /// A frame with good numbers for this writer, whose state may be broken.
    pub(crate) fn frame(&mut self, writer: &Writer) -> Vec<i32> {
        let n = writer.setup.slots.min(SLOTS as u64) as usize;
        let mut frame = equal(&writer.table[..n]);
        if n == 0 {
            return frame;
        }
        match self.random.below(17) {
            0 => self.tag("frame: equal"),
            1..=7 => self.change_one(&writer.setup, &mut frame),
            8 | 9 => self.change_several(&writer.setup, &mut frame),
            10 | 11 => self.change_sizes(&writer.setup, &mut frame),
            _ => self.change_all(&writer.setup, &mut frame),
        }
        if n > NARROW && self.random.once_in(6) {
            self.tag("frame: the upper half alone");
            frame[..NARROW * SLOT_NUMBERS].copy_from_slice(&equal(&writer.table[..NARROW]));
        }
        self.press(&writer.setup, &mut frame);
        if self.random.once_in(2) {
            self.put_junk(&mut frame);
        }
        frame
    }

    /// Where the numbers of one of a frame's slots begin.
    fn any_row(&mut self, frame: &[i32]) -> usize {
        SLOT_NUMBERS * self.slot((frame.len() / SLOT_NUMBERS) as u64) as usize
    }

    fn change_one(&mut self, setup: &Setup, frame: &mut [i32]) {
        let s = self.any_row(frame);
        match self.random.below(7) {
            0..=3 => {
                self.tag("frame: one number changed");
                frame[s] = 1;
                self.change_number(setup, &mut frame[s + 1..]);
            }
            4 | 5 => {
                self.tag("frame: one slot's kind changed");
                frame[s] = self.random.pick(&[0, 1, 2, 2]);
            }
            _ => {
                self.tag("frame: landings with the sizes that were there");
                frame[s] = 2;
                for i in [X, Y, PRESSURE] {
                    frame[s + 1 + i] = self.other_number(frame[s + 1 + i] as u32, setup.largest[i]) as i32;
                }
            }
        }
    }

    fn change_several(&mut self, setup: &Setup, frame: &mut [i32]) {
        self.tag("frame: several slots changed");
        for _ in 0..self.random.from_to(2, 6) {
            let s = self.any_row(frame);
            if self.random.once_in(2) {
                frame[s] = self.random.pick(&[0, 1, 1, 2]);
            } else {
                self.change_number(setup, &mut frame[s + 1..]);
            }
        }
    }

    /// Gloves: of contacts that go on, one size changes or both.
    fn change_sizes(&mut self, setup: &Setup, frame: &mut [i32]) {
        self.tag("frame: touch sizes alone changed");
        for _ in 0..self.random.pick(&[1, 1, 1, 2, 4]) {
            let s = self.any_row(frame);
            for i in self.random.pick(&[&[MAJOR][..], &[MINOR], &[MAJOR, MINOR]]) {
                frame[s + 1 + i] = self.other_number(frame[s + 1 + i] as u32, setup.largest[*i]) as i32;
            }
        }
    }

    fn change_all(&mut self, setup: &Setup, frame: &mut [i32]) {
        let which = self.random.below(5);
        self.tag(match which {
            0 | 1 => "frame: every number changed",
            2 => "frame: all begin",
            3 => "frame: all lift",
            _ => "frame: any good one",
        });
        for wanted in frame.chunks_exact_mut(SLOT_NUMBERS) {
            wanted[0] = match which {
                0..=2 => 2,
                3 => 0,
                _ => self.random.pick(&[0, 1, 1, 2]),
            };
            for (i, (number, largest)) in wanted[1..].iter_mut().zip(setup.largest).enumerate() {
                *number = match which {
                    0 | 1 if *number < largest.min(i32::MAX as u32) as i32 => *number + 1,
                    // A contact presses: from 0 its pressure might be made the old one again.
                    0 | 1 => i32::from(i == PRESSURE),
                    4 => self.number(largest) as i32,
                    _ => *number,
                };
            }
        }
    }

    /// What a slot without a contact has in the frame does not matter.
    pub(super) fn put_junk(&mut self, frame: &mut [i32]) {
        for wanted in frame.chunks_exact_mut(SLOT_NUMBERS).filter(|wanted| wanted[0] == 0) {
            self.tag("frame: junk in slots of kind 0");
            for number in &mut wanted[1..] {
                *number = self.junk();
            }
        }
    }

    /// A contact that would press with 0 presses, or lifts.
    fn press(&mut self, setup: &Setup, frame: &mut [i32]) {
        for wanted in frame.chunks_exact_mut(SLOT_NUMBERS) {
            if wanted[0] != 0 && wanted[1 + PRESSURE] == 0 {
                if self.random.once_in(4) {
                    wanted[0] = 0;
                } else {
                    wanted[1 + PRESSURE] = self.pressing(setup.largest[PRESSURE]) as i32;
                }
            }
        }
    }

    /// The least that a contact may press with, and less: pressure 1 and 0, in rows of each kind.
    pub(crate) fn press_least(&mut self, frame: &mut [i32]) {
        let rows = frame.len() / SLOT_NUMBERS;
        for _ in 0..self.random.pick(&[1, 1, 1, 2, 3]).min(rows) {
            let s = SLOT_NUMBERS * self.slot(rows as u64) as usize;
            let (kind, pressure) = (self.random.below(3) as usize, self.random.below(2) as usize);
            self.tag(LEAST[kind][pressure]);
            (frame[s], frame[s + 1 + PRESSURE]) = (kind as i32, pressure as i32);
        }
    }

    fn change_number(&mut self, setup: &Setup, numbers: &mut [i32]) {
        let i = self.any_number();
        numbers[i] = self.other_number(numbers[i] as u32, setup.largest[i]) as i32;
    }

    pub(super) fn break_frame(&mut self, writer: &Writer, frame: &mut Vec<i32>) {
        if self.random.once_in(10) {
            self.tag("frame: four numbers a slot");
            *frame = resized(frame, SLOT_NUMBERS, Layout::Crane.slot_numbers());
            return;
        }
        if frame.is_empty() || self.random.once_in(3) {
            self.tag("frame: wrong length");
            let wrong = self.wrong_frame(frame.len());
            frame.resize(wrong, 0);
            if self.random.once_in(2) {
                return;
            }
        }
        if frame.len() < SLOT_NUMBERS {
            return;
        }
        let s = self.any_row(frame);
        if self.random.once_in(3) {
            self.tag("frame: bad kind");
            frame[s] = self.random.pick(&[-1, 3, 4, 256, 257, 65_537, i32::MIN, i32::MIN + 1, i32::MAX]);
        } else {
            self.tag("frame: bad number");
            let i = self.random.below(NUMBERS as u64) as usize;
            frame[s] = self.random.pick(&[1, 2]);
            frame[s + 1 + i] = self.bad_number(writer.setup.largest[i]);
        }
    }

    /// Another count of numbers than this: fewer, more, and those of the most slots.
    fn wrong_frame(&mut self, length: usize) -> usize {
        let (row, narrow, most) = (SLOT_NUMBERS, NARROW * SLOT_NUMBERS, SLOTS * SLOT_NUMBERS);
        let near = self.random.pick(&[length + 1, length + row - 1, length + row]);
        let wrong = self.random.pick(&[0, 1, row - 1, row, near, near, near, narrow, most, most + row]);
        if wrong == length {
            length + row
        } else {
            wrong
        }
    }

    /// Position and size for a frame of this need.
    pub(super) fn room(&mut self, need: usize) -> (u64, usize) {
        let position = self.position();
        let end = position as usize + need;
        match self.random.below(14) {
            5..=7 => {
                self.tag("room: to spare");
                let spare = match self.random.below(40) {
                    0 => LARGEST_BUFFER - end,
                    1 => LARGEST_FRAME.min(LARGEST_BUFFER - end),
                    _ => self.random.from_to(1, 40).min((LARGEST_BUFFER - end) as u64) as usize,
                };
                (position, end + spare)
            }
            8 if end > 0 => {
                self.tag("room: one byte less");
                (position, end - 1)
            }
            9 if need > 0 => {
                self.tag("room: less");
                let less = self.random.below(need as u64) as usize;
                (position, position as usize + less)
            }
            10 => {
                self.tag("room: at the end");
                (position, position as usize)
            }
            11 => {
                self.tag("room: past the end");
                let size = self.random.below(60);
                let near = size + 1 + self.random.below(20);
                // Cut to fewer bits it would lie inside.
                (self.random.pick(&[near, near, 256 + position % 256, (1 << 16) + position]), size as usize)
            }
            12 => {
                self.tag("room: position near 2^64");
                let near = self.random.pick(&[
                    u64::MAX,
                    u64::MAX - 7,
                    (need as u64).wrapping_neg(),
                    (1 << 63) + position,
                    (1 << 32) + position,
                ]);
                // Minus a need of 0 is 0, which is not near.
                (near.max(1 << 32), end)
            }
            _ => {
                self.tag("room: exact");
                (position, end)
            }
        }
    }

    /// Where a frame is to go: mostly near the buffer's start, since every byte of the buffer is printed.
    pub(super) fn position(&mut self) -> u64 {
        if self.random.once_in(100) {
            return self.random.below((LARGEST_BUFFER - LARGEST_FRAME) as u64);
        }
        match self.random.below(3) {
            0 => 0,
            1 => self.random.pick(&[1, 7, 8]),
            _ => self.random.below(60),
        }
    }
}

/// The bytes that a frame needs; `None` where it is refused.
pub(crate) fn need_of(writer: &Writer, frame: &[i32]) -> Option<usize> {
    let written = writer.clone().write(frame, &mut [0; LARGEST_FRAME], 0).ok()?;
    Some(written.events as usize * RECORD)
}

/// The writer behind the call; where that is refused it stays.
pub(super) fn move_on(writer: &mut Writer, frame: &[i32], size: usize, position: u64) {
    move_on_by(writer, size, |writer, buffer| writer.write(frame, buffer, position));
}

/// The same by any call with a buffer.
pub(super) fn move_on_by(
    writer: &mut Writer,
    size: usize,
    call: impl FnOnce(&mut Writer, &mut [u8]) -> Result<Written, Refusal>,
) {
    let _ = call(writer, &mut vec![0; size]);
}

/// The rows of a frame that changes none of these slots.
pub(super) fn equal(slots: &[Slot]) -> Vec<i32> {
    let row = |slot: &Slot| {
        let numbers = slot.numbers.map(|number| number as i32);
        [i32::from(slot.id.is_live())].into_iter().chain(numbers)
    };
    slots.iter().flat_map(row).collect()
}
