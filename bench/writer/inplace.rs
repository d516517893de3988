//! The writer in plain Rust that changes its state in place: each row is looked at once, only changed numbers are stored, no table is copied. It judges what the proved one judges.

use crate::panel::{Setup, Slot, PER_SLOT, RECORDS};
use crate::state::{Display, Ranks, State};
use crate::version::{Refused, Sent, Writer};
use std::slice::ChunksExactMut;

// Which numbers of a slot change, a bit each; an event's type and code as the number that its first four bytes are.
const ID: u8 = 1;
const X: u8 = 2;
const Y: u8 = 4;
const PRESSURE: u8 = 8;
const MAJOR: u8 = 16;
const MINOR: u8 = 32;
const REPORT: u32 = 0;
const SEND_SLOT: u32 = 0x2f_0003;
const SEND_MAJOR: u32 = 0x30_0003;
const SEND_MINOR: u32 = 0x31_0003;
const SEND_X: u32 = 0x35_0003;
const SEND_Y: u32 = 0x36_0003;
const SEND_ID: u32 = 0x39_0003;
const SEND_PRESSURE: u32 = 0x3a_0003;
const TELL_X: u32 = 0x00_0003;
const TELL_Y: u32 = 0x01_0003;
const TELL_TOUCH: u32 = 0x14a_0001;

/// What a frame changes: which numbers of each slot, which slots and ids, a bit each, and how many numbers.
struct Changes {
    of: [u8; RECORDS],
    slots: u32,
    ids: u32,
    numbers: u32,
}

impl Changes {
    fn note(&mut self, s: usize, d: u8) {
        self.of[s] = d;
        self.slots |= u32::from(d != 0) << s;
        self.ids |= u32::from(d & ID) << s;
        self.numbers += d.count_ones();
    }

    /// The changed slots but the current one: those that an event opens.
    fn others(&self, current: usize) -> u32 {
        self.slots & !(1 << current)
    }

    /// The contact events and the report, where a number changes.
    fn events(&self, current: usize) -> usize {
        (1 + self.numbers + self.others(current).count_ones()) as usize
    }
}

/// What a frame makes of K6's ranks and display.
struct Pointing {
    ranks: Ranks,
    display: Display,
}

/// The records of a frame, which have room.
struct Records<'a>(ChunksExactMut<'a, u8>);

impl Records<'_> {
    fn put(&mut self, event: u32, value: i32) {
        if let Some(record) = self.0.next() {
            record.copy_from_slice(&(event as u64 | (value as u32 as u64) << 32).to_le_bytes());
        }
    }
}

/// What a row changes in its slot; None for a kind or a number out of its range.
fn judge(setup: &Setup, row: &[i32], slot: &Slot) -> Option<u8> {
    let new = Slot::of(row);
    match row[0] {
        0 => Some((slot.id != -1) as u8 * ID),
        kind @ (1 | 2) if setup.contact_ok(&new) => Some(
            (kind == 2 || slot.id == -1) as u8 * ID
                + (new.x != slot.x) as u8 * X
                + (new.y != slot.y) as u8 * Y
                + (new.pressure != slot.pressure) as u8 * PRESSURE
                + (new.major != slot.major) as u8 * MAJOR
                + (new.minor != slot.minor) as u8 * MINOR,
        ),
        _ => None,
    }
}

impl State {
    fn changes(&self, frame: &[i32]) -> Option<Changes> {
        let mut changes = Changes { of: [0; RECORDS], slots: 0, ids: 0, numbers: 0 };
        for (s, (row, slot)) in frame.chunks_exact(PER_SLOT).zip(&self.table).enumerate() {
            changes.note(s, judge(&self.setup, row, slot)?);
        }
        Some(changes)
    }

    /// The next free id. Those given in this frame lie behind the counter, so only the table is searched.
    fn next_id(&mut self) -> i32 {
        while self.table[..self.setup.n as usize].iter().any(|slot| slot.id == self.counter as i32) {
            self.counter = (self.counter + 1) % 65536;
        }
        let id = self.counter as i32;
        self.counter = (self.counter + 1) % 65536;
        id
    }

    /// The ids after the frame, where they change. The table still has the old ones, which stay taken through the frame.
    fn new_ids(&mut self, frame: &[i32], changes: &Changes) -> [i32; RECORDS] {
        let mut ids = [-1; RECORDS];
        let mut left = changes.ids;
        while left != 0 {
            let s = left.trailing_zeros() as usize;
            left &= left - 1;
            if frame[PER_SLOT * s] != 0 {
                ids[s] = self.next_id();
            }
        }
        ids
    }

    /// The ranks after a frame that changes ids, and how many contacts are live then. Those that go on close their gaps, and all that begin come after them.
    fn new_ranks(&self, frame: &[i32], changes: &Changes) -> (Ranks, usize) {
        let goes_on = |s: usize| self.table[s].id != -1 && changes.ids >> s & 1 == 0;
        let n = self.setup.n as usize;
        let mut held = 0u32;
        for s in 0..n {
            held |= u32::from(goes_on(s)) << self.ranks[s];
        }
        let mut below = [0; RECORDS];
        let mut all = 0;
        for (r, below) in below[..n].iter_mut().enumerate() {
            *below = all;
            all += (held >> r & 1) as u8;
        }
        let mut ranks = [0; RECORDS];
        let mut live = 0;
        for s in 0..n {
            if frame[PER_SLOT * s] != 0 {
                ranks[s] = if goes_on(s) { below[self.ranks[s] as usize] } else { all };
                live += 1;
            }
        }
        (ranks, live)
    }

    /// Ranks and display after a frame that changes something. Where no id changes only X and Y can.
    fn pointing(&self, frame: &[i32], changes: &Changes) -> Pointing {
        let place = |ranks: &Ranks| {
            let mut rows = frame.chunks_exact(PER_SLOT).zip(ranks);
            rows.find(|(row, rank)| row[0] != 0 && **rank == 0).map(|(row, _)| (row[1] as u32, row[2] as u32))
        };
        if changes.ids == 0 {
            let (x, y) = place(&self.ranks).unwrap_or((self.x, self.y));
            return Pointing { ranks: self.ranks, display: Display { x, y, ..self.display() } };
        }
        let (ranks, live) = self.new_ranks(frame, changes);
        Pointing { ranks, display: self.display().told(live, place(&ranks)) }
    }

    /// Sends what the display is told behind the contact events, and stores what it is told.
    fn send_display(&mut self, next: &Pointing, out: &mut Records) {
        let (was, is) = (self.display(), next.display);
        if was.tool != is.tool {
            if was.tool != 0 {
                out.put((was.tool as u32) << 16 | 1, 0);
            }
            if is.tool != 0 {
                out.put((is.tool as u32) << 16 | 1, 1);
            }
        }
        if was.x != is.x {
            out.put(TELL_X, is.x as i32);
        }
        if was.y != is.y {
            out.put(TELL_Y, is.y as i32);
        }
        self.show(is);
        self.ranks = next.ranks;
    }

    /// Stores and sends what changes, the current slot first.
    fn send(&mut self, frame: &[i32], changes: &Changes, next: Option<Pointing>, out: &mut Records) {
        if let Some(Pointing { display, .. }) = &next {
            if display.touch != self.touch {
                out.put(TELL_TOUCH, display.touch as i32);
            }
        }
        let ids = self.new_ids(frame, changes);
        let mut s = self.current as usize;
        let mut others = changes.others(s);
        loop {
            self.send_slot(s, changes.of[s], ids[s], &frame[PER_SLOT * s..PER_SLOT * (s + 1)], out);
            if others == 0 {
                break;
            }
            s = others.trailing_zeros() as usize;
            others &= others - 1;
            out.put(SEND_SLOT, s as i32);
        }
        self.current = s as u32;
        if let Some(next) = &next {
            self.send_display(next, out);
        }
        out.put(REPORT, 0);
    }

    fn send_slot(&mut self, s: usize, d: u8, id: i32, row: &[i32], out: &mut Records) {
        let slot = &mut self.table[s];
        if d & ID != 0 {
            slot.id = id;
            out.put(SEND_ID, id);
        }
        if d & X != 0 {
            slot.x = row[1] as u32;
            out.put(SEND_X, row[1]);
        }
        if d & Y != 0 {
            slot.y = row[2] as u32;
            out.put(SEND_Y, row[2]);
        }
        if d & PRESSURE != 0 {
            slot.pressure = row[3] as u32;
            out.put(SEND_PRESSURE, row[3]);
        }
        if d & MAJOR != 0 {
            slot.major = row[4] as u32;
            out.put(SEND_MAJOR, row[4]);
        }
        if d & MINOR != 0 {
            slot.minor = row[5] as u32;
            out.put(SEND_MINOR, row[5]);
        }
    }

    /// The state is judged, unless its caller has done so.
    pub fn write<const JUDGED: bool>(&mut self, frame: &[i32], buf: &mut [u8], at: usize) -> Result<Sent, Refused> {
        let refused = |number, need| Err(Refused { number, need });
        if !JUDGED && !self.well_formed() {
            return refused(2, 0);
        }
        if frame.len() != PER_SLOT * self.setup.n as usize {
            return refused(3, 0);
        }
        let Some(changes) = self.changes(frame) else {
            return refused(4, 0);
        };
        if changes.slots == 0 {
            return if at > buf.len() { refused(5, 0) } else { Ok(Sent { count: 0, changed: 0 }) };
        }
        let next = (self.on != 0).then(|| self.pointing(frame, &changes));
        let told = next.as_ref().map_or(0, |next| self.display().events(&next.display));
        let count = changes.events(self.current as usize) + told;
        if at > buf.len() || buf.len() - at < 8 * count {
            return refused(5, 8 * count);
        }
        self.send(frame, &changes, next, &mut Records(buf[at..at + 8 * count].chunks_exact_mut(8)));
        Ok(Sent { count, changed: changes.slots })
    }
}

#[allow(dead_code)] // the other versions' program has no use for it
pub struct InPlace;

impl Writer for InPlace {
    fn write(state: &mut State, frame: &[i32], buf: &mut [u8], at: usize) -> Result<Sent, Refused> {
        state.write::<false>(frame, buf, at)
    }
}

/// The same for a state that nobody else can touch, as Rust's types would have it: it is never judged.
#[allow(dead_code)] // measured by others.rs
pub struct Typed;

impl Writer for Typed {
    fn write(state: &mut State, frame: &[i32], buf: &mut [u8], at: usize) -> Result<Sent, Refused> {
        state.write::<true>(frame, buf, at)
    }
}
