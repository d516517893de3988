//! A panel's setup, its slots and the tests of both in plain Rust, for every version in Rust: document 01's ranges.

pub const RECORDS: usize = 32;

/// How many numbers a slot has.
pub const PER_SLOT: usize = 6;

/// The most events of a frame, which the reader does not ask.
#[allow(dead_code)]
pub const MOST_EVENTS: usize = PER_SLOT * RECORDS + RECORDS;

/// Six numbers, laid out as a host's C code has them. The id is -1 where the slot is unused.
#[repr(C)]
#[derive(Clone, Copy, PartialEq, Debug)]
pub struct Slot {
    pub id: i32,
    pub x: u32,
    pub y: u32,
    pub pressure: u32,
    pub major: u32,
    pub minor: u32,
}

pub type Table = [Slot; RECORDS];

pub const UNUSED: Slot = Slot { id: -1, x: 0, y: 0, pressure: 0, major: 0, minor: 0 };
pub const ZERO: Slot = Slot { id: 0, x: 0, y: 0, pressure: 0, major: 0, minor: 0 };

#[repr(C)]
#[derive(Clone, Copy, PartialEq, Debug)]
pub struct Setup {
    pub n: u32,
    pub x: u32,
    pub y: u32,
    pub pressure: u32,
    pub major: u32,
    pub minor: u32,
}

impl Slot {
    /// A row's numbers; its first one, an id or a kind, stands as the id.
    pub fn of(row: &[i32]) -> Slot {
        Slot {
            id: row[0],
            x: row[1] as u32,
            y: row[2] as u32,
            pressure: row[3] as u32,
            major: row[4] as u32,
            minor: row[5] as u32,
        }
    }
}

impl Setup {
    #[allow(dead_code)] // the reader's state has none
    pub const ZERO: Setup = Setup { n: 0, x: 0, y: 0, pressure: 0, major: 0, minor: 0 };

    pub fn ok(&self) -> bool {
        (1..=RECORDS as u32).contains(&self.n)
            && (1..=32767).contains(&self.x)
            && (1..=32767).contains(&self.y)
            && (1..=255).contains(&self.pressure)
            && (1..=255).contains(&self.major)
            && (1..=255).contains(&self.minor)
    }

    /// Whether a frame may give a contact these numbers.
    #[allow(dead_code)] // the reader judges no frames
    pub fn contact_ok(&self, s: &Slot) -> bool {
        s.pressure >= 1 && self.numbers_ok(s)
    }

    fn numbers_ok(&self, s: &Slot) -> bool {
        s.x <= self.x && s.y <= self.y && s.pressure <= self.pressure && s.major <= self.major && s.minor <= self.minor
    }

    fn slot_ok(&self, s: &Slot) -> bool {
        (-1..=65535).contains(&s.id) && self.numbers_ok(s)
    }

    /// Whether the first n slots are in their ranges and the others unused. The setup itself is good.
    pub fn table_ok(&self, table: &Table) -> bool {
        let (slots, rest) = table.split_at(self.n as usize);
        slots.iter().all(|s| self.slot_ok(s)) && rest.iter().all(|s| *s == UNUSED)
    }
}

/// Whether all live ids differ, of which the first n slots alone may have one.
pub fn ids_differ(n: u32, table: &Table) -> bool {
    let table = &table[..n as usize];
    table.iter().enumerate().all(|(i, a)| a.id == -1 || table[i + 1..].iter().all(|b| b.id != a.id))
}
