//! The type B writer: a frame judged, planned and sent as records into the caller's buffer.

use crate::events::*;
use crate::pointer::{Pointer, MOST_EMULATED};
use crate::refusal::Refusal;
use crate::table::*;

/// The most events of a frame with the option off: every number of every slot, a SLOT for each but the current one, and the report.
pub const MOST_CONTACT_EVENTS: usize = SLOTS * SLOT_NUMBERS + (SLOTS - 1) + 1;
/// The most events of any frame.
pub const MOST_EVENTS: usize = MOST_CONTACT_EVENTS + MOST_EMULATED;
/// The most bytes that a frame needs.
pub const LARGEST_FRAME: usize = MOST_EVENTS * RECORD;

/// A writer's state, well formed or not.
#[derive(Clone, PartialEq, Eq, Debug)]
pub struct Writer {
    pub setup: Setup,
    pub current: SlotNumber,
    pub counter: u32,
    pub table: Table,
    pub pointer: Pointer,
}

/// What was sent of a frame.
#[derive(Clone, Copy, PartialEq, Eq, Debug)]
pub struct Written {
    pub events: u32,
    /// Bit s for slot s.
    pub changed: u32,
}

impl Written {
    /// Of a frame that is refused.
    pub const ZEROS: Written = Written { events: 0, changed: 0 };
}

/// What a good frame asks for; nothing of the state moves before there is room for it.
struct Plan {
    table: Table,
    counter: u32,
    pointer: Pointer,
    written: Written,
}

impl Writer {
    /// The state's place in an answer with refusal 1; it is not well formed.
    pub const ZEROS: Writer =
        Writer { setup: Setup::ZEROS, current: SlotNumber(0), counter: 0, table: ZERO_TABLE, pointer: Pointer::OFF };

    /// The state at the start, with pointer emulation or without; refusal 1.
    pub fn fresh(setup: Setup, pointer: bool) -> Result<Writer, Refusal> {
        if !setup.is_good(Layout::Panel) {
            return Err(Refusal::Setup);
        }
        Ok(Writer { setup, current: SlotNumber(0), counter: 0, table: EMPTY, pointer: Pointer::fresh(pointer) })
    }

    /// Whether [`Writer::write`] takes this state; refusal 2 where it is not.
    pub fn is_well_formed(&self) -> bool {
        self.setup.is_good(Layout::Panel)
            && self.current.0 < self.setup.slots
            && self.counter <= LARGEST_ID
            && is_good_table(&self.setup, &self.table)
            && live_ids_differ(&self.table)
            && self.pointer.is_well_formed(&self.setup, &self.table)
    }

    /// Sends what a frame changes as records into the buffer, from the position on; refusals 2 to 5.
    pub fn write(&mut self, frame: &[i32], buffer: &mut [u8], position: u64) -> Result<Written, Refusal> {
        if !self.is_well_formed() {
            return Err(Refusal::State);
        }
        if frame.len() as u64 != SLOT_NUMBERS as u64 * self.setup.slots {
            return Err(Refusal::Frame);
        }
        let plan = self.plan(frame).ok_or(Refusal::Value)?;
        let need = plan.written.events as usize * RECORD;
        // Two steps, not `position..position + need`: the sum overflows near 2^64.
        let room = usize::try_from(position)
            .ok()
            .and_then(|position| buffer.get_mut(position..))
            .and_then(|rest| rest.get_mut(..need))
            .ok_or(Refusal::NoRoom { need: need as u64 })?;
        self.send(&plan, room);
        self.table = plan.table;
        self.counter = plan.counter;
        self.pointer = plan.pointer;
        Ok(plan.written)
    }

    fn plan(&self, frame: &[i32]) -> Option<Plan> {
        let mut table = self.table;
        let mut counter = self.counter;
        let mut changed = 0u32;
        let mut numbers = 0;
        for (s, wanted) in frame.chunks_exact(SLOT_NUMBERS).enumerate() {
            let old = self.table[s];
            let new = match wanted[0] {
                0 => Slot { id: TrackingId::UNUSED, ..old },
                kind @ (1 | 2) => {
                    let mut new = Slot { numbers: self.wanted_numbers(&wanted[1..])?, ..old };
                    if kind == 2 || !old.id.is_live() {
                        let id = self.first_free(counter, &table[..s]);
                        counter = after(id);
                        new.id = TrackingId(id as i32);
                    }
                    new
                }
                _ => return None,
            };
            let differing = changes(&old, &new);
            numbers += differing;
            changed |= u32::from(differing != 0) << s;
            table[s] = new;
        }
        let mut plan = Plan { table, counter, pointer: self.pointer, written: Written { events: 0, changed } };
        // Where no contact's number changed, the display's are the old ones too.
        if changed != 0 {
            plan.pointer = self.pointer.after(&self.table, &table);
            // One SLOT for each changed slot but the current one, and the report.
            let without_slot = changed >> self.current.0 & 1;
            let emulated = self.pointer.told.changes_to(&plan.pointer.told).count();
            plan.written.events = numbers + changed.count_ones() - without_slot + 1 + emulated;
        }
        Some(plan)
    }

    /// The numbers of a contact in a frame; `None` where one is out of its range.
    fn wanted_numbers(&self, wanted: &[i32]) -> Option<[u32; NUMBERS]> {
        let mut numbers = [0; NUMBERS];
        for (i, number) in numbers.iter_mut().enumerate() {
            *number = in_range(wanted[i], self.setup.largest[i])?;
        }
        // K8: a live finger presses.
        (numbers[PRESSURE] > 0).then_some(numbers)
    }

    /// `so_far` holds the new slots below the one that asks. Besides the ids given in this frame it holds kept ones, which are live in the old table anyway.
    fn first_free(&self, from: u32, so_far: &[Slot]) -> u32 {
        let mut id = from;
        // Ends: at most 32 ids are live and 32 given, of 65,536.
        loop {
            let wanted = TrackingId(id as i32);
            let taken = |slots: &[Slot]| slots.iter().any(|slot| slot.id == wanted);
            if !taken(&self.table) && !taken(so_far) {
                return id;
            }
            id = after(id);
        }
    }

    fn send(&mut self, plan: &Plan, room: &mut [u8]) {
        if plan.written.changed == 0 {
            return;
        }
        let mut places = room.chunks_exact_mut(RECORD);
        let mut put = |event: Event| {
            let place = places.next().expect("the plan counted every event");
            place.copy_from_slice(&event.to_bytes());
        };
        let display = self.pointer.told.changes_to(&plan.pointer.told);
        display.touch.into_iter().for_each(&mut put);
        let mut put_slot = |s: usize, named: bool| {
            let (old, new) = (&self.table[s], &plan.table[s]);
            if named {
                put(Event::abs(ABS_MT_SLOT, s as i32));
            }
            if new.id != old.id {
                put(Event::abs(ABS_MT_TRACKING_ID, new.id.0));
            }
            for (i, code) in CODES.into_iter().enumerate() {
                if new.numbers[i] != old.numbers[i] {
                    put(Event::abs(code, new.numbers[i] as i32));
                }
            }
        };
        let current = self.current.0 as usize;
        let mut others = plan.written.changed & !(1 << current);
        if others != plan.written.changed {
            put_slot(current, false);
        }
        let mut last = current;
        while others != 0 {
            last = others.trailing_zeros() as usize;
            put_slot(last, true);
            others &= others - 1;
        }
        display.others.into_iter().flatten().for_each(&mut put);
        put(Event::REPORT);
        debug_assert!(places.next().is_none());
        self.current = SlotNumber(last as u64);
    }
}

/// How many numbers of a slot differ, its id among them.
fn changes(old: &Slot, new: &Slot) -> u32 {
    let numbers = old.numbers.iter().zip(&new.numbers).filter(|(old, new)| old != new).count();
    u32::from(old.id != new.id) + numbers as u32
}

fn after(id: u32) -> u32 {
    if id == LARGEST_ID {
        0
    } else {
        id + 1
    }
}
