//! The reader's state as each version is handed it, the 1,568 bytes of docs/LAYOUT.md that the host keeps, and the calls that all versions in Rust share: fresh, load and ask.

use crate::panel::{ids_differ, Setup, Slot, Table, PER_SLOT, RECORDS, UNUSED, ZERO};

pub const FOLLOWING: u8 = 0;
pub const DROPPED: u8 = 1;
pub const STALE: u8 = 2;

/// The version of the layout, and the kind of state that a reader's is.
const VERSION: u8 = 1;
const KIND: u8 = 2;

#[repr(C)]
#[derive(Clone, Copy, PartialEq, Debug)]
pub struct State {
    pub version: u8,
    pub kind: u8,
    pub mode: u8,
    pub zero: u8,
    pub current: u32,
    pub setup: Setup,
    pub shown: Table,
    pub pending: Table,
}

/// A run's counts, and the first record skipped: whether there was one, its type and its code.
#[repr(C)]
#[derive(Clone, Copy, PartialEq, Debug, Default)]
pub struct Counts {
    pub shown: u64,
    pub types: u64,
    pub codes: u64,
    pub bad: u64,
    pub ignored: u64,
    pub skipped: u64,
    pub kind: u64,
    pub code: u64,
}

impl Counts {
    pub const fn all(n: u64) -> Counts {
        Counts { shown: n, types: n, codes: n, bad: n, ignored: n, skipped: n, kind: n, code: n }
    }

    /// A record of this type and code is skipped.
    pub fn skip(&mut self, kind: u16, code: u16) {
        match kind {
            0 | 3 => self.codes += 1,
            _ => self.types += 1,
        }
        if self.skipped == 0 {
            (self.skipped, self.kind, self.code) = (1, kind.into(), code.into());
        }
    }
}

pub const UNKNOWN: i32 = 0;
pub const EMPTY: i32 = 1;
pub const CONTACT: i32 = 2;
pub const NO_SUCH_SLOT: i32 = 3;

/// What is told of a slot: unknown, empty, a contact with its numbers or no such slot. Zeros where it is no contact, and where the call is refused.
#[repr(C)]
#[derive(Clone, Copy, PartialEq, Debug)]
pub struct Told {
    pub kind: i32,
    pub slot: Slot,
}

impl State {
    pub fn with(setup: Setup, table: Table) -> State {
        State {
            version: VERSION,
            kind: KIND,
            mode: FOLLOWING,
            zero: 0,
            current: 0,
            setup,
            shown: table,
            pending: table,
        }
    }

    /// None with refusal 1.
    pub fn fresh(setup: Setup) -> Option<State> {
        setup.ok().then(|| State::with(setup, [UNUSED; RECORDS]))
    }

    /// What refusal 2 judges, at every call.
    pub fn well_formed(&self) -> bool {
        self.version == VERSION
            && self.kind == KIND
            && self.zero == 0
            && self.setup.ok()
            && self.setup.table_ok(&self.shown)
            && self.setup.table_ok(&self.pending)
            && ids_differ(self.setup.n, &self.shown)
            && self.current < self.setup.n
            && (self.mode == FOLLOWING || self.mode <= STALE && self.shown == self.pending)
    }

    /// The verdict of a load; the state is another only where it is 0.
    pub fn load(&mut self, image: &[i32], current: usize) -> u64 {
        if !self.well_formed() {
            return 2;
        }
        if self.mode != STALE {
            return 7;
        }
        let mut table = [UNUSED; RECORDS];
        for (slot, row) in table.iter_mut().zip(image.chunks_exact(PER_SLOT)) {
            *slot = Slot::of(row);
        }
        let n = self.setup.n as usize;
        if image.len() != PER_SLOT * n
            || current >= n
            || !self.setup.table_ok(&table)
            || !ids_differ(self.setup.n, &table)
        {
            return 8;
        }
        *self = State { current: current as u32, ..State::with(self.setup, table) };
        0
    }

    pub fn ask(&self, slot: usize) -> Result<Told, u64> {
        if !self.well_formed() {
            return Err(2);
        }
        if slot >= self.setup.n as usize {
            return Ok(Told { kind: NO_SUCH_SLOT, slot: ZERO });
        }
        if self.mode != FOLLOWING {
            return Ok(Told { kind: UNKNOWN, slot: ZERO });
        }
        match self.shown[slot] {
            Slot { id: -1, .. } => Ok(Told { kind: EMPTY, slot: ZERO }),
            contact => Ok(Told { kind: CONTACT, slot: contact }),
        }
    }
}
