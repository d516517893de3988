//! Calls of K6: writers with pointer emulation, frames that move what the display is told, and states whose numbers for it are broken.

use super::writing::{equal, move_on, need_of};
use super::{Maker, KEPT_STATES};
use crate::events::RECORD;
use crate::pointer::{Pointer, Told, TOOLS};
use crate::script::Call;
use crate::table::{Layout, Setup, Table, TrackingId, PRESSURE, SLOTS, SLOT_NUMBERS, X, Y};
use crate::writer::Writer;

/// Panels of one finger, of each number that has a tool of its own, and of more.
const WIDTHS: &[u64] = &[1, 2, 2, 3, 4, 5, 6, 6, 7, 8, 17, 32, 32];

impl Maker {
    pub(super) fn pointer_call(&mut self) -> Call {
        if self.random.once_in(12) {
            self.tag("pointer: a new writer");
            return Call::New { setup: self.any_setup(Layout::Panel), pointer: true };
        }
        let (which, mut writer) = self.pointing_writer();
        let kept = !self.random.once_in(4);
        if !kept {
            self.break_pointer(&mut writer);
        }
        let mut frame = self.pointer_frame(&writer);
        if self.random.once_in(12) {
            self.break_frame(&writer, &mut frame);
        }
        let (position, size) = self.pointer_room(&writer, &frame);
        if kept && self.pointing[which] == writer {
            move_on(&mut self.pointing[which], &frame, size, position);
        }
        Call::Write { writer, position, size, frame }
    }

    pub(super) fn fresh_pointing(&mut self) -> Writer {
        Writer::fresh(self.pointer_setup(), true).expect("a good setup")
    }

    fn pointer_setup(&mut self) -> Setup {
        Setup { slots: self.random.pick(WIDTHS), ..self.setup(Layout::Panel) }
    }

    /// A kept writer and its number, or any other with the option on.
    fn pointing_writer(&mut self) -> (usize, Writer) {
        let which = self.random.below(KEPT_STATES as u64) as usize;
        if self.random.once_in(20) {
            self.pointing[which] = self.fresh_pointing();
        }
        let mut writer = if self.random.once_in(3) {
            self.tag("state: any well-formed one");
            let setup = self.pointer_setup();
            let mut writer = self.any_writer(setup);
            writer.pointer = self.any_pointer(&setup, &writer.table);
            writer
        } else {
            self.tag("state: reached by calls");
            self.pointing[which].clone()
        };
        if self.random.once_in(8) {
            lift_all(&mut writer);
        }
        if writer.pointer.told != Told::NOTHING && writer.pointer.told.touch == 0 {
            self.tag("pointer: no contact, X and Y kept");
        }
        (which, writer)
    }

    /// What a writer with this table may hold for the display: contacts of one frame, of a few, or each of its own.
    pub(super) fn any_pointer(&mut self, setup: &Setup, table: &Table) -> Pointer {
        let mut ranks: [u8; SLOTS] = std::array::from_fn(|s| s as u8);
        for i in (1..SLOTS).rev() {
            ranks.swap(i, self.random.below(i as u64 + 1) as usize);
        }
        let frames = self.random.pick(&[1, 2, 3, 6, SLOTS as u8, SLOTS as u8]);
        let ranks = ranks.map(|rank| rank % frames);
        let told = Told { x: self.number(setup.largest[X]), y: self.number(setup.largest[Y]), ..Told::NOTHING };
        mended(&Pointer { on: true, told, ranks }, setup, table)
    }

    /// Room as for any frame, and room for what it would need without the emulated events.
    fn pointer_room(&mut self, writer: &Writer, frame: &[i32]) -> (u64, usize) {
        let need = need_of(writer, frame);
        let contacts = need_of(&Writer { pointer: Pointer::OFF, ..writer.clone() }, frame);
        match (need, contacts) {
            (Some(need), Some(contacts)) if contacts < need && self.random.once_in(6) => {
                self.tag("pointer: room for the contact events alone");
                let emulated = (need - contacts) / RECORD;
                let less = self.random.from_to(1, emulated as u64) as usize;
                let position = self.position();
                (position, position as usize + need - less * RECORD)
            }
            _ => {
                let guess = self.random.pick(&[0, 16, 40]);
                self.room(need.unwrap_or(guess))
            }
        }
    }

    /// A frame with good numbers, mostly one that moves what the display follows.
    pub(crate) fn pointer_frame(&mut self, writer: &Writer) -> Vec<i32> {
        let mut frame = equal(&writer.table[..writer.setup.slots as usize]);
        let live = live_slots(&writer.table);
        let oldest = live.iter().copied().min_by_key(|s| writer.pointer.ranks[*s]);
        match (self.random.below(17), oldest) {
            (0 | 1, Some(s)) => {
                self.tag("pointer: the oldest lifts");
                frame[row(s)] = 0;
            }
            (2 | 3, Some(s)) => {
                self.tag("pointer: the oldest is replaced");
                frame[row(s)] = 2;
                if self.random.once_in(2) {
                    self.move_contact(&writer.setup, &mut frame, s);
                }
            }
            (4 | 5, Some(s)) => {
                self.tag("pointer: the oldest moves");
                self.move_contact(&writer.setup, &mut frame, s);
            }
            (6, Some(s)) if live.len() > 1 => {
                self.tag("pointer: another moves");
                let others: Vec<usize> = live.into_iter().filter(|other| *other != s).collect();
                let other = self.random.pick(&others);
                self.move_contact(&writer.setup, &mut frame, other);
            }
            (7, Some(_)) => {
                self.tag("pointer: all lift");
                live.iter().for_each(|s| frame[row(*s)] = 0);
            }
            (8, Some(_)) => {
                self.tag("pointer: all are replaced");
                live.iter().for_each(|s| frame[row(*s)] = 2);
            }
            (9 | 10, Some(_)) => {
                self.land(writer, &mut frame);
                self.tag("pointer: a lift and a landing");
                frame[row(self.random.pick(&live))] = 0;
            }
            (0..=3, None) => self.land_where_told(writer, &mut frame),
            (4..=9, None) => {
                self.tag("pointer: all land, every number changed");
                frame.chunks_exact_mut(SLOT_NUMBERS).for_each(|wanted| change_row(&writer.setup, wanted));
            }
            (11..=14, _) => self.land(writer, &mut frame),
            _ => return self.frame(writer),
        }
        for wanted in frame.chunks_exact_mut(SLOT_NUMBERS).filter(|wanted| wanted[0] != 0) {
            wanted[1 + PRESSURE] = wanted[1 + PRESSURE].max(1);
        }
        if self.random.once_in(2) {
            self.put_junk(&mut frame);
        }
        frame
    }

    /// X changes, or Y, or both.
    fn move_contact(&mut self, setup: &Setup, frame: &mut [i32], s: usize) {
        for i in self.random.pick(&[&[X][..], &[Y], &[X, Y]]) {
            let number = &mut frame[row(s) + 1 + i];
            *number = self.other_number(*number as u32, setup.largest[*i]) as i32;
        }
    }

    /// Contacts begin in unused slots, as many as there are places for.
    fn land(&mut self, writer: &Writer, frame: &mut [i32]) {
        let mut unused: Vec<usize> =
            (0..writer.setup.slots as usize).filter(|s| !writer.table[*s].id.is_live()).collect();
        let wanted = self.random.pick(&[1, 1, 1, 2, 3, 4, 5, 6, 7]);
        while unused.len() > wanted {
            unused.remove(self.random.below(unused.len() as u64) as usize);
        }
        match unused.len() {
            0 => {}
            1 => self.tag("pointer: one lands"),
            2..=5 => self.tag("pointer: two to five land"),
            _ => self.tag("pointer: six or more land"),
        }
        for s in unused {
            frame[row(s)] = self.random.pick(&[1, 1, 2]);
            for (i, largest) in writer.setup.largest.into_iter().enumerate() {
                frame[row(s) + 1 + i] = self.number(largest) as i32;
            }
        }
    }

    /// The first contact begins just where the pointer stands; others may begin in higher slots.
    fn land_where_told(&mut self, writer: &Writer, frame: &mut [i32]) {
        self.land(writer, frame);
        let Some(first) = frame.chunks_exact_mut(SLOT_NUMBERS).find(|wanted| wanted[0] != 0) else {
            return;
        };
        // A state may be broken by a number that no contact can have.
        let told = [(X, writer.pointer.told.x), (Y, writer.pointer.told.y)];
        if told.iter().all(|(i, number)| *number <= writer.setup.largest[*i]) {
            self.tag("pointer: lands where X and Y stand");
            told.iter().for_each(|(i, number)| first[1 + i] = *number as i32);
        }
    }

    /// One part of what K6 asks of a state is broken.
    pub(super) fn break_pointer(&mut self, writer: &mut Writer) {
        let whole = writer.clone();
        loop {
            *writer = whole.clone();
            let tag = self.break_part(writer);
            // Not every part of every state can be broken.
            if !writer.is_well_formed() {
                return self.tag(tag);
            }
        }
    }

    fn break_part(&mut self, writer: &mut Writer) -> &'static str {
        match self.random.below(18) {
            0..=3 => self.break_ranks(writer),
            4 | 5 => self.rank_unused(writer),
            6 => {
                writer.pointer.told.touch = self.random.pick(&[0, 1, 2, 3, 128, 255]);
                "broken: pointer, touch"
            }
            7 | 8 => {
                let other = writer.pointer.told.tool ^ 1 << self.random.below(16);
                let tool = self.random.pick(&TOOLS);
                writer.pointer.told.tool = self.random.pick(&[tool, tool, tool, 0, other]);
                "broken: pointer, tool"
            }
            9..=11 => self.follow_other(writer),
            12 | 13 => self.stand_outside(writer),
            _ => self.turn_off(writer),
        }
    }

    /// Ranks of contacts with a gap before one of them, without a 0, or too large.
    fn break_ranks(&mut self, writer: &mut Writer) -> &'static str {
        let live = live_slots(&writer.table);
        let ranks = &mut writer.pointer.ranks;
        if live.is_empty() {
            return "";
        }
        let s = self.random.pick(&live);
        match self.random.below(4) {
            // Cut to fewer bits they may be good.
            0 => {
                let rank = ranks[s] % SLOTS as u8;
                ranks[s] = self.random.pick(&[32, 32 + rank, 64 + rank, 128 + rank, 255]);
                "broken: pointer, a rank of 32 or more"
            }
            1 => {
                live.iter().for_each(|s| ranks[*s] += 1);
                "broken: pointer, no rank 0"
            }
            _ => {
                let from = ranks[s].max(1);
                live.iter().for_each(|s| ranks[*s] += u8::from(ranks[*s] >= from));
                "broken: pointer, a gap in the ranks"
            }
        }
    }

    /// A rank where there is no contact.
    fn rank_unused(&mut self, writer: &mut Writer) -> &'static str {
        let records = self.random.pick(&[writer.setup.slots, SLOTS as u64]);
        let s = self.random.below(records) as usize;
        if writer.table[s].id.is_live() {
            return "";
        }
        writer.pointer.ranks[s] = self.random.pick(&[1, 1, 2, 31, 32, 128, 255]);
        if (s as u64) < writer.setup.slots {
            "broken: pointer, the rank of an unused slot"
        } else {
            "broken: pointer, a rank past n"
        }
    }

    /// X or Y of another contact than the oldest, or of none.
    fn follow_other(&mut self, writer: &mut Writer) -> &'static str {
        let live = live_slots(&writer.table);
        if live.is_empty() {
            return "";
        }
        let i = self.random.pick(&[X, Y]);
        let others = writer.table[self.random.pick(&live)].numbers[i];
        let told = [&mut writer.pointer.told.x, &mut writer.pointer.told.y].into_iter().nth(i).expect("X or Y");
        *told = self.random.pick(&[others, others, others, *told + 1, told.wrapping_sub(1), 0, *told + (1 << 16)]);
        ["broken: pointer, X is not the oldest's", "broken: pointer, Y is not the oldest's"][i]
    }

    /// With no contact, X or Y where none can have been.
    fn stand_outside(&mut self, writer: &mut Writer) -> &'static str {
        lift_all(writer);
        let i = self.random.pick(&[X, Y]);
        let outside = self.bad_held_number(writer.setup.largest[i]);
        let told = &mut writer.pointer.told;
        match i {
            X => told.x = outside,
            _ => told.y = outside,
        }
        ["broken: pointer, X out of range", "broken: pointer, Y out of range"][i]
    }

    /// The option off, and one number or all of them not 0.
    fn turn_off(&mut self, writer: &mut Writer) -> &'static str {
        let Pointer { told, .. } = writer.pointer;
        let pointer = &mut writer.pointer;
        pointer.on = false;
        if self.random.once_in(3) {
            return "broken: pointer off, all as with it on";
        }
        *pointer = Pointer::OFF;
        match self.random.below(5) {
            0 => {
                pointer.told.touch = self.random.pick(&[1, 1, 255]);
                "broken: pointer off, touch"
            }
            1 => {
                pointer.told.tool = self.random.pick(&[told.tool, TOOLS[0], 1, 1 << 15]);
                "broken: pointer off, tool"
            }
            2 => {
                pointer.told.x = self.random.pick(&[told.x, 1, 1 << 31]);
                "broken: pointer off, X"
            }
            3 => {
                pointer.told.y = self.random.pick(&[told.y, 1, 1 << 31]);
                "broken: pointer off, Y"
            }
            _ => {
                pointer.ranks[self.random.below(SLOTS as u64) as usize] = self.random.pick(&[1, 1, 255]);
                "broken: pointer off, a rank"
            }
        }
    }
}

/// Where a slot's numbers begin in a frame.
fn row(s: usize) -> usize {
    SLOT_NUMBERS * s
}

/// A contact begins whose numbers are all others.
fn change_row(setup: &Setup, wanted: &mut [i32]) {
    wanted[0] = 1;
    for (number, largest) in wanted[1..].iter_mut().zip(setup.largest) {
        *number = if *number < largest as i32 { *number + 1 } else { 0 };
    }
}

fn live_slots(table: &Table) -> Vec<usize> {
    (0..SLOTS).filter(|s| table[*s].id.is_live()).collect()
}

/// As a frame would leave it in which every contact lifts.
fn lift_all(writer: &mut Writer) {
    writer.table.iter_mut().for_each(|slot| slot.id = TrackingId::UNUSED);
    writer.pointer = mended(&writer.pointer, &writer.setup, &writer.table);
}

/// The nearest that goes with the table: unused records have rank 0, gaps are closed, and the display is told what the table gives.
pub fn mended(pointer: &Pointer, setup: &Setup, table: &Table) -> Pointer {
    if !pointer.on {
        return Pointer::OFF;
    }
    let live = live_slots(table);
    let mut taken: Vec<u8> = live.iter().map(|s| pointer.ranks[*s]).collect();
    taken.sort_unstable();
    taken.dedup();
    let mut ranks = [0; SLOTS];
    for s in live {
        ranks[s] = taken.partition_point(|rank| *rank < pointer.ranks[s]) as u8;
    }
    let Told { x, y, .. } = pointer.told;
    let still = Told { x: x.min(setup.largest[X]), y: y.min(setup.largest[Y]), ..Told::NOTHING };
    Pointer { on: true, told: still.after(table, &ranks), ranks }
}
