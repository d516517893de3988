//! Loads, good and with one thing wrong; questions for a slot, and for whether a state is well formed.

use super::Maker;
use crate::reader::{Mode, Reader};
use crate::script::Call;
use crate::table::{Layout, Setup, Slot, SlotNumber, TrackingId, LARGEST_ID, NARROW};

impl Maker {
    pub(super) fn load(&mut self, layout: Layout) -> Call {
        let (which, mut reader) = self.reader(layout);
        if self.random.once_in(4) {
            if reader.mode != Mode::Stale {
                self.tag("load: while not stale");
            }
        } else {
            reader.mode = Mode::Stale;
            reader.pending = reader.shown;
        }
        let setup = reader.setup;
        let table = if self.random.once_in(3) {
            reader.shown
        } else {
            let ids = self.ids();
            self.any_table(layout, &setup, ids)
        };
        let mut current = SlotNumber(self.slot(setup.slots));
        let mut image = image_of(layout, &table[..setup.slots as usize]);
        let is_good = self.random.once_in(3);
        if is_good {
            self.tag("load: good image");
        } else {
            for _ in 0..self.random.pick(&[1, 1, 1, 1, 1, 2]) {
                self.break_image(layout, &setup, &mut current, &mut image);
            }
        }
        // A broken state hides what is wrong with the image.
        let kept = !self.random.once_in(if is_good { 4 } else { 12 });
        if kept {
            let mut loaded = reader.clone();
            if loaded.load(&image, current).is_ok() {
                self.kept(layout)[which] = loaded;
            }
        } else {
            self.break_reader(&mut reader);
        }
        Call::Load { reader, current, image }
    }

    fn break_image(&mut self, layout: Layout, setup: &Setup, current: &mut SlotNumber, image: &mut Vec<i32>) {
        let (n, width) = (setup.slots, layout.slot_numbers());
        let s = width * self.slot(n) as usize;
        // A first break may have cut it.
        let whole = image.len() == width * n as usize;
        match self.random.below(10) {
            0 if whole => {
                self.tag("load: id");
                image[s] = self.bad_id();
            }
            1..=4 if whole => {
                let unused = self.random.once_in(2);
                self.tag(if unused { "load: number of an unused slot" } else { "load: number" });
                image[s] = if unused { -1 } else { image[s] };
                let i = self.random.below(layout.numbers() as u64) as usize;
                image[s + 1 + i] = self.bad_number(setup.largest[i]);
            }
            5 | 9 if whole && n > 1 => {
                self.tag("load: repeated id");
                let other = (s + width * self.random.from_to(1, n - 1) as usize) % image.len();
                image[s] = self.random.pick(&[0, 5, 65_535, image[s].max(0)]);
                image[other] = image[s];
                let edge = width * NARROW;
                if s.min(other) < edge && edge <= s.max(other) {
                    self.tag("ids: one in both halves");
                }
            }
            6 => {
                self.tag("load: current slot");
                current.0 = self.bad_slot(layout, n);
            }
            7 if whole => {
                self.tag("load: an image for the other reader");
                let other = if layout == Layout::Crane { Layout::Panel } else { Layout::Crane };
                *image = resized(image, width, other.slot_numbers());
            }
            _ => {
                self.tag("load: length");
                let wrong = self.wrong_length(layout, n, image.len());
                image.resize(wrong, self.random.pick(&[0, -1]));
            }
        }
    }

    /// Another count of numbers than an image of n slots has.
    fn wrong_length(&mut self, layout: Layout, n: u64, length: usize) -> usize {
        let width = layout.slot_numbers();
        let (right, whole) = (width * n as usize, width * layout.slots());
        let wrong = self.random.pick(&[0, 1, width, length + 1, length + width, whole, whole + 1, whole + width]);
        if wrong == right {
            length.max(wrong) + 1
        } else {
            wrong
        }
    }

    pub(super) fn good(&mut self, layout: Layout) -> Call {
        let (_, mut reader) = self.reader(layout);
        if self.random.once_in(2) {
            self.tag("good: a broken one");
            self.break_reader(&mut reader);
        } else {
            self.tag("good: a well-formed one");
        }
        Call::Good { reader }
    }

    pub(super) fn ask(&mut self, layout: Layout) -> Call {
        let (_, mut reader) = self.reader(layout);
        let n = reader.setup.slots;
        let slot = if self.random.once_in(4) {
            self.tag("ask: n or more");
            self.bad_slot(layout, n)
        } else {
            self.tag("ask: below n");
            self.slot(n)
        };
        if self.random.once_in(6) {
            self.end_id(&mut reader, slot);
        }
        if self.random.once_in(6) {
            self.break_reader(&mut reader);
        }
        Call::Ask { reader, slot: SlotNumber(slot) }
    }

    /// The slot's contact gets an id at an end of the range, which chance alone gives rarely.
    fn end_id(&mut self, reader: &mut Reader, slot: u64) {
        let id = TrackingId(self.random.pick(&[0, LARGEST_ID as i32]));
        if slot < reader.setup.slots && reader.shown.iter().all(|other| other.id != id) {
            self.tag("ask: id 0 or 65,535");
            reader.shown[slot as usize].id = id;
            reader.pending = reader.shown;
        }
    }
}

/// The numbers of these slots, as a load of such a reader takes them.
fn image_of(layout: Layout, slots: &[Slot]) -> Vec<i32> {
    let mut image = Vec::new();
    for slot in slots {
        image.push(slot.id.0);
        image.extend(slot.numbers[..layout.numbers()].iter().map(|number| *number as i32));
    }
    image
}

/// Rows of so many numbers made as wide as that, with zeros where they were narrower.
pub(super) fn resized(numbers: &[i32], width: usize, other: usize) -> Vec<i32> {
    let mut all = Vec::new();
    for row in numbers.chunks(width) {
        let mut row = row.to_vec();
        row.resize(other, 0);
        all.append(&mut row);
    }
    all
}
