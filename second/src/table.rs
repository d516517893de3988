//! A panel's setup, the slot records, and what makes them well formed.

/// How many records a table holds, whatever the panel's n: K7's number.
pub const SLOTS: usize = 32;
/// How many records a crane's table holds. A slot from this one on is of wide panels alone.
pub const NARROW: usize = 16;
/// How many numbers a slot has besides its id.
pub const NUMBERS: usize = 5;
/// How many numbers tell of one slot: its id and those; in a frame the kind stands for the id.
pub const SLOT_NUMBERS: usize = 1 + NUMBERS;

/// Where each of a slot's numbers stands, in the order in which they are sent.
pub const X: usize = 0;
pub const Y: usize = 1;
pub const PRESSURE: usize = 2;
/// The two touch sizes.
pub const MAJOR: usize = 3;
pub const MINOR: usize = 4;

/// The largest values may be these at most.
pub const LIMITS: [u32; NUMBERS] = [32_767, 32_767, 255, 255, 255];
/// Behind this id comes 0 again.
pub const LARGEST_ID: u32 = 65_535;

/// Whose a reader is: the panel's, or that of a crane in the field, which keeps document 01's four numbers and sixteen slots.
/// What a crane does not know is 0 in its setup and its tables, and a record that it has not is unused, so that one type holds both.
#[derive(Clone, Copy, PartialEq, Eq, Debug)]
pub enum Layout {
    Panel,
    Crane,
}

impl Layout {
    /// Both of them.
    pub const ALL: [Layout; 2] = [Layout::Panel, Layout::Crane];

    /// How many records a table has.
    pub const fn slots(self) -> usize {
        match self {
            Layout::Panel => SLOTS,
            Layout::Crane => NARROW,
        }
    }

    /// How many numbers a slot has besides its id.
    pub const fn numbers(self) -> usize {
        match self {
            Layout::Panel => NUMBERS,
            Layout::Crane => 3,
        }
    }

    /// How many numbers tell of one slot.
    pub const fn slot_numbers(self) -> usize {
        1 + self.numbers()
    }
}

/// A slot number; its own type so that it cannot be taken for a tracking id.
#[derive(Clone, Copy, PartialEq, Eq, Debug)]
pub struct SlotNumber(pub u64);

/// A tracking id, -1 for unused.
#[derive(Clone, Copy, PartialEq, Eq, Debug)]
pub struct TrackingId(pub i32);

impl TrackingId {
    /// No contact.
    pub const UNUSED: TrackingId = TrackingId(-1);

    /// Any id but -1, good or not.
    pub fn is_live(self) -> bool {
        self != TrackingId::UNUSED
    }

    fn is_good(self) -> bool {
        self == TrackingId::UNUSED || (self.0 as u32) <= LARGEST_ID
    }
}

/// What a panel is set up with: n, and the largest of each of a slot's numbers.
/// The numbers are wider than their ranges, here and in every state: a state that is not well formed must be possible, or refusal 2 could not be judged.
#[derive(Clone, Copy, PartialEq, Eq, Debug)]
pub struct Setup {
    pub slots: u64,
    pub largest: [u32; NUMBERS],
}

impl Setup {
    /// The setup's place in an answer with refusal 1.
    pub const ZEROS: Setup = Setup { slots: 0, largest: [0; NUMBERS] };

    /// Whether each number is in its range; refusal 1 where one is not.
    pub fn is_good(&self, layout: Layout) -> bool {
        let (known, others) = self.largest.split_at(layout.numbers());
        (1..=layout.slots() as u64).contains(&self.slots)
            && known.iter().zip(LIMITS).all(|(largest, limit)| (1..=limit).contains(largest))
            && others.iter().all(|largest| *largest == 0)
    }

    /// The same panel's setup as far as such a reader knows it.
    pub fn known_to(mut self, layout: Layout) -> Setup {
        self.largest[layout.numbers()..].fill(0);
        self
    }
}

/// One of a table's records.
#[derive(Clone, Copy, PartialEq, Eq, Debug)]
pub struct Slot {
    pub id: TrackingId,
    pub numbers: [u32; NUMBERS],
}

impl Slot {
    /// As every record is at the start, and those from n upward always.
    pub const UNUSED: Slot = Slot { id: TrackingId::UNUSED, numbers: [0; NUMBERS] };

    /// The same slot as far as such a reader knows it.
    pub fn known_to(mut self, layout: Layout) -> Slot {
        self.numbers[layout.numbers()..].fill(0);
        self
    }
}

/// The records.
pub type Table = [Slot; SLOTS];

/// The table of a fresh state.
pub const EMPTY: Table = [Slot::UNUSED; SLOTS];

/// A table's place in an answer with refusal 1: no table of a state, since id 0 would be live in every slot.
pub const ZERO_TABLE: Table = [Slot { id: TrackingId(0), numbers: [0; NUMBERS] }; SLOTS];

/// Every number in its range, and the records from n upward unused. The setup must be good.
pub fn is_good_table(setup: &Setup, table: &Table) -> bool {
    let (used, rest) = table.split_at(setup.slots as usize);
    let is_good = |slot: &Slot| {
        slot.id.is_good() && slot.numbers.iter().zip(&setup.largest).all(|(number, largest)| number <= largest)
    };
    used.iter().all(is_good) && rest.iter().all(|slot| *slot == Slot::UNUSED)
}

/// Whether no live id stands twice.
/// Ids that count up rarely share their last six bits, so one word sieves out nearly every comparison of pairs.
pub fn live_ids_differ(slots: &[Slot]) -> bool {
    let mut seen = 0u64;
    for (s, slot) in slots.iter().enumerate() {
        if !slot.id.is_live() {
            continue;
        }
        let bit = 1u64 << (slot.id.0 & 63);
        if seen & bit != 0 && slots[..s].iter().any(|earlier| earlier.id == slot.id) {
            return false;
        }
        seen |= bit;
    }
    true
}

/// A number of a frame, an image or an event as a number of a slot, if it is 0 to `largest`.
pub fn in_range(value: i32, largest: u32) -> Option<u32> {
    // A negative value becomes 2^31 or more, which no largest of a good setup reaches.
    let number = value as u32;
    (number <= largest).then_some(number)
}

/// The same for an id: -1 to 65,535.
pub fn id_in_range(value: i32) -> Option<TrackingId> {
    let id = TrackingId(value);
    id.is_good().then_some(id)
}

#[cfg(test)]
mod tests {
    use super::*;

    const PANEL: Setup = Setup { slots: 2, largest: [4000, 4000, 255, 255, 255] };

    #[test]
    fn setup_ranges() {
        for layout in Layout::ALL {
            let panel = PANEL.known_to(layout);
            let most = layout.slots() as u64;
            for (slots, good) in [(0, false), (1, true), (most, true), (most + 1, false), (200, false)] {
                assert_eq!(Setup { slots, ..panel }.is_good(layout), good, "n {slots}");
            }
            // 2^32 + 2 would pass where n is cut to 32 bits.
            assert!(!Setup { slots: (1 << 32) + 2, ..panel }.is_good(layout));
            for (i, limit) in LIMITS.into_iter().enumerate().take(layout.numbers()) {
                for (largest, good) in [(0, false), (1, true), (limit, true), (limit + 1, false)] {
                    let mut setup = panel;
                    setup.largest[i] = largest;
                    assert_eq!(setup.is_good(layout), good, "number {i}, {largest}");
                }
            }
        }
    }

    /// A setup of the panel's is none of a crane's as it stands.
    #[test]
    fn what_a_crane_knows() {
        assert!(!PANEL.is_good(Layout::Crane) && !PANEL.known_to(Layout::Crane).is_good(Layout::Panel));
        assert_eq!(PANEL.known_to(Layout::Crane).largest, [4000, 4000, 255, 0, 0]);
        assert_eq!(PANEL.known_to(Layout::Panel), PANEL);
        let slot = Slot { id: TrackingId(3), numbers: [1, 2, 3, 4, 5] };
        assert_eq!(slot.known_to(Layout::Crane), Slot { id: TrackingId(3), numbers: [1, 2, 3, 0, 0] });
    }

    #[test]
    fn ranges_of_numbers() {
        assert_eq!(in_range(0, 4000), Some(0));
        assert_eq!(in_range(4000, 4000), Some(4000));
        for bad in [4001, -1, -5, i32::MIN, i32::MAX] {
            assert_eq!(in_range(bad, 4000), None);
        }
        for good in [-1, 0, 65_535] {
            assert_eq!(id_in_range(good), Some(TrackingId(good)));
        }
        for bad in [-2, -9, 65_536, 70_000, i32::MIN, i32::MAX] {
            assert_eq!(id_in_range(bad), None);
        }
    }

    #[test]
    fn ids_with_the_same_last_bits_differ() {
        let mut table = EMPTY;
        assert!(live_ids_differ(&table));
        table[3].id = TrackingId(1);
        table[9].id = TrackingId(65);
        assert!(live_ids_differ(&table));
        for twin in [15, 16, SLOTS - 1] {
            let mut table = table;
            table[twin].id = TrackingId(1);
            assert!(!live_ids_differ(&table), "slot {twin}");
        }
    }
}
