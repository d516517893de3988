//! The writer's state as each version is handed it, the 848 bytes of docs/LAYOUT.md that the host keeps, and what refusals 1 and 2 judge.

use crate::panel::{ids_differ, Setup, Slot, Table, RECORDS, UNUSED, ZERO};

#[repr(C)]
#[derive(Clone, Copy, PartialEq, Debug)]
pub struct State {
    pub version: u8,
    pub kind: u8,
    pub on: u8,
    pub touch: u8,
    pub tool: u16,
    pub zero: u16,
    pub setup: Setup,
    pub current: u32,
    pub counter: u32,
    pub x: u32,
    pub y: u32,
    pub table: Table,
    pub ranks: Ranks,
}

/// The version of the layout, and the kind of state that a writer's is.
const VERSION: u8 = 1;
const KIND: u8 = 1;

/// By beginning, from 0; 0 for an unused record, and always with the option off.
pub type Ranks = [u8; RECORDS];

/// What K6's old display was told last, with the option itself, 0 or 1: all zeros with the option off.
#[derive(Clone, Copy, PartialEq, Debug)]
pub struct Display {
    pub x: u32,
    pub y: u32,
    /// The code of the tool that is 1; 0 for none.
    pub tool: u16,
    pub touch: u8,
    pub on: u8,
}

impl Display {
    pub const OFF: Display = Display { x: 0, y: 0, tool: 0, touch: 0, on: 0 };

    /// What it is told of slots with good ranks. While no contact is live X and Y keep still.
    pub fn of(&self, slots: &[Slot], ranks: &[u8]) -> Display {
        let live = slots.iter().filter(|slot| slot.id != -1).count();
        let oldest = slots.iter().zip(ranks).find(|(slot, rank)| slot.id != -1 && **rank == 0);
        self.told(live, oldest.map(|(slot, _)| (slot.x, slot.y)))
    }

    /// What it is told of so many live contacts, and of the place of the one that began first.
    pub fn told(&self, live: usize, oldest: Option<(u32, u32)>) -> Display {
        const TOOLS: [u16; 6] = [0, 0x145, 0x14d, 0x14e, 0x14f, 0x148];
        let (x, y) = oldest.unwrap_or((self.x, self.y));
        Display { x, y, tool: TOOLS[live.min(5)], touch: (live != 0) as u8, on: self.on }
    }

    /// The events that tell it that it is another one now.
    pub fn events(&self, next: &Display) -> usize {
        let tools = if self.tool == next.tool { 0 } else { (self.tool != 0) as usize + (next.tool != 0) as usize };
        (self.touch != next.touch) as usize + tools + (self.x != next.x) as usize + (self.y != next.y) as usize
    }
}

const UNRANKED: Ranks = [0; RECORDS];

/// Whether live contacts are ranked from 0 without gaps, and unused slots 0.
fn ranks_ok(slots: &[Slot], ranks: &[u8]) -> bool {
    let mut held = 0u32;
    for (slot, &rank) in slots.iter().zip(ranks) {
        match slot.id {
            -1 if rank == 0 => (),
            -1 => return false,
            _ if rank < RECORDS as u8 => held |= 1 << rank,
            _ => return false,
        }
    }
    held & held.wrapping_add(1) == 0
}

/// Zeros, which are no state.
pub const BLANK: State = State {
    version: 0,
    kind: 0,
    on: 0,
    touch: 0,
    tool: 0,
    zero: 0,
    setup: Setup::ZERO,
    current: 0,
    counter: 0,
    x: 0,
    y: 0,
    table: [ZERO; RECORDS],
    ranks: UNRANKED,
};

impl State {
    /// None with refusal 1.
    pub fn fresh(setup: Setup, pointer: bool) -> Option<State> {
        if !setup.ok() {
            return None;
        }
        Some(State { setup, table: [UNUSED; RECORDS], on: pointer as u8, version: VERSION, kind: KIND, ..BLANK })
    }

    pub fn display(&self) -> Display {
        Display { x: self.x, y: self.y, tool: self.tool, touch: self.touch, on: self.on }
    }

    /// The option stays.
    pub fn show(&mut self, display: Display) {
        (self.x, self.y, self.tool, self.touch) = (display.x, display.y, display.tool, display.touch);
    }

    /// What refusal 2 judges, at every call.
    pub fn well_formed(&self) -> bool {
        self.version == VERSION
            && self.kind == KIND
            && self.zero == 0
            && self.setup.ok()
            && self.setup.table_ok(&self.table)
            && ids_differ(self.setup.n, &self.table)
            && self.current < self.setup.n
            && self.counter < 65536
            && self.pointing_ok()
    }

    /// With the option off all is 0. With it on ranks are well formed, and the display was told what they and the table give.
    fn pointing_ok(&self) -> bool {
        match self.on {
            0 => self.display() == Display::OFF && self.ranks == UNRANKED,
            1 => self.ranked_and_told(),
            _ => false,
        }
    }

    fn ranked_and_told(&self) -> bool {
        let slots = &self.table[..self.setup.n as usize];
        let (ranks, rest) = self.ranks.split_at(slots.len());
        ranks_ok(slots, ranks)
            && *rest == UNRANKED[..rest.len()]
            && self.display() == self.display().of(slots, ranks)
            && self.x <= self.setup.x
            && self.y <= self.setup.y
    }
}
