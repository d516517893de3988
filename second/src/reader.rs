//! The type B reader: a run over records, one record, a load, and what a slot is answered.

use crate::events::*;
use crate::refusal::Refusal;
use crate::table::*;

/// Whether the shown table can be trusted, and if not, what is waited for: a report, or a load.
#[derive(Clone, Copy, PartialEq, Eq, Debug)]
pub enum Mode {
    Following,
    Dropped,
    Stale,
}

/// What one run tells: five counts, and what it skipped first.
#[derive(Clone, Copy, PartialEq, Eq, Debug)]
pub struct Ran {
    pub shown: u64,
    /// Skipped, since the type is unknown.
    pub unknown_type: u64,
    /// Skipped, since the type is known and the code is not.
    pub unknown_code: u64,
    pub bad: u64,
    pub ignored: u64,
    /// Type and code.
    pub first_skipped: Option<(u16, u16)>,
}

impl Ran {
    /// Of a run that has not begun, and of one that is refused.
    pub const NOTHING: Ran =
        Ran { shown: 0, unknown_type: 0, unknown_code: 0, bad: 0, ignored: 0, first_skipped: None };

    /// Document 01's one count of both.
    pub fn skipped(&self) -> u64 {
        self.unknown_type + self.unknown_code
    }

    /// What two runs tell together, this one before the other.
    pub fn add(&mut self, later: Ran) {
        self.shown += later.shown;
        self.unknown_type += later.unknown_type;
        self.unknown_code += later.unknown_code;
        self.bad += later.bad;
        self.ignored += later.ignored;
        self.first_skipped = self.first_skipped.or(later.first_skipped);
    }

    fn skip(&mut self, event: Event) {
        if KNOWN_TYPES.contains(&event.kind) {
            self.unknown_code += 1;
        } else {
            self.unknown_type += 1;
        }
        self.first_skipped.get_or_insert((event.kind, event.code));
    }
}

/// What a question for a slot is answered.
#[derive(Clone, Copy, PartialEq, Eq, Debug)]
pub enum Asked {
    Contact(Slot),
    Empty,
    Unknown,
    NoSuchSlot,
}

/// A reader's state, well formed or not.
#[derive(Clone, PartialEq, Eq, Debug)]
pub struct Reader {
    pub layout: Layout,
    pub setup: Setup,
    pub current: SlotNumber,
    pub mode: Mode,
    pub shown: Table,
    pub pending: Table,
}

impl Reader {
    /// The state's place in an answer with refusal 1; it is not well formed.
    pub fn zeros(layout: Layout) -> Reader {
        Reader { shown: ZERO_TABLE, pending: ZERO_TABLE, ..Reader::at_start(layout, Setup::ZEROS) }
    }

    /// The state at the start; refusal 1.
    pub fn fresh(layout: Layout, setup: Setup) -> Result<Reader, Refusal> {
        if !setup.is_good(layout) {
            return Err(Refusal::Setup);
        }
        Ok(Reader::at_start(layout, setup))
    }

    fn at_start(layout: Layout, setup: Setup) -> Reader {
        Reader { layout, setup, current: SlotNumber(0), mode: Mode::Following, shown: EMPTY, pending: EMPTY }
    }

    /// Whether any call takes this state; refusal 2 where it is not.
    pub fn is_well_formed(&self) -> bool {
        self.setup.is_good(self.layout)
            && self.current.0 < self.setup.slots
            && is_good_table(&self.setup, &self.shown)
            && live_ids_differ(&self.shown)
            && match self.mode {
                Mode::Following => is_good_table(&self.setup, &self.pending),
                Mode::Dropped | Mode::Stale => self.pending == self.shown,
            }
    }

    /// Reads the records one after the other; refusals 2 and 6.
    pub fn run(&mut self, records: &[u8]) -> Result<Ran, Refusal> {
        if !self.is_well_formed() {
            return Err(Refusal::State);
        }
        if records.len() % RECORD != 0 {
            return Err(Refusal::Ragged);
        }
        let mut ran = Ran::NOTHING;
        for event in events(records) {
            self.step(event, &mut ran);
        }
        Ok(ran)
    }

    /// Reads one record by itself; refusal 2.
    pub fn one(&mut self, event: Event) -> Result<Ran, Refusal> {
        if !self.is_well_formed() {
            return Err(Refusal::State);
        }
        let mut ran = Ran::NOTHING;
        self.step(event, &mut ran);
        Ok(ran)
    }

    /// Takes the panel's whole table and current slot, after a loss; refusals 2, 7 and 8.
    pub fn load(&mut self, image: &[i32], current: SlotNumber) -> Result<(), Refusal> {
        if !self.is_well_formed() {
            return Err(Refusal::State);
        }
        if self.mode != Mode::Stale {
            return Err(Refusal::NotStale);
        }
        let table = self.image_table(image).ok_or(Refusal::Image)?;
        if current.0 >= self.setup.slots {
            return Err(Refusal::Image);
        }
        self.shown = table;
        self.pending = table;
        self.current = current;
        self.mode = Mode::Following;
        Ok(())
    }

    /// What is known of a slot; refusal 2.
    pub fn ask(&self, slot: SlotNumber) -> Result<Asked, Refusal> {
        if !self.is_well_formed() {
            return Err(Refusal::State);
        }
        if slot.0 >= self.setup.slots {
            return Ok(Asked::NoSuchSlot);
        }
        if self.mode != Mode::Following {
            return Ok(Asked::Unknown);
        }
        let shown = self.shown[slot.0 as usize];
        Ok(if shown.id.is_live() { Asked::Contact(shown) } else { Asked::Empty })
    }

    #[inline]
    fn step(&mut self, event: Event, ran: &mut Ran) {
        match self.mode {
            Mode::Following => self.follow(event, ran),
            Mode::Dropped => {
                ran.ignored += 1;
                if (event.kind, event.code) == (EV_SYN, SYN_REPORT) {
                    self.mode = Mode::Stale;
                }
            }
            Mode::Stale => {
                ran.ignored += 1;
                if (event.kind, event.code) == (EV_SYN, SYN_DROPPED) {
                    self.mode = Mode::Dropped;
                }
            }
        }
    }

    #[inline]
    fn follow(&mut self, event: Event, ran: &mut Ran) {
        let slot = &mut self.pending[self.current.0 as usize];
        let taken = match (event.kind, event.code) {
            (EV_SYN, SYN_REPORT) => return self.report(ran),
            (EV_SYN, SYN_DROPPED) => return self.lose(Mode::Dropped),
            (EV_ABS, ABS_MT_SLOT) => in_range(event.value, self.setup.slots as u32 - 1)
                .map(|number| self.current = SlotNumber(u64::from(number))),
            (EV_ABS, ABS_MT_TRACKING_ID) => id_in_range(event.value).map(|id| slot.id = id),
            (EV_ABS, code) => match number_of(code).filter(|i| *i < self.layout.numbers()) {
                Some(i) => in_range(event.value, self.setup.largest[i]).map(|number| slot.numbers[i] = number),
                None => return ran.skip(event),
            },
            _ => return ran.skip(event),
        };
        if taken.is_none() {
            ran.bad += 1;
            self.lose(Mode::Dropped);
        }
    }

    fn report(&mut self, ran: &mut Ran) {
        if live_ids_differ(&self.pending) {
            self.shown = self.pending;
            ran.shown += 1;
        } else {
            ran.bad += 1;
            self.lose(Mode::Stale);
        }
    }

    fn lose(&mut self, mode: Mode) {
        self.pending = self.shown;
        self.mode = mode;
    }

    fn image_table(&self, image: &[i32]) -> Option<Table> {
        let width = self.layout.slot_numbers();
        if image.len() as u64 != width as u64 * self.setup.slots {
            return None;
        }
        let mut table = EMPTY;
        for (slot, row) in table.iter_mut().zip(image.chunks_exact(width)) {
            slot.id = id_in_range(row[0])?;
            // An unused slot's numbers are judged too: they become the table's.
            for (i, value) in row[1..].iter().enumerate() {
                slot.numbers[i] = in_range(*value, self.setup.largest[i])?;
            }
        }
        live_ids_differ(&table).then_some(table)
    }
}
