//! The reader in plain Rust that changes its state in place: one match on type and code together, a loop that follows and one that has lost track. It judges what the proved one judges.

use crate::panel::{ids_differ, RECORDS};
use crate::state::{Counts, State, DROPPED, FOLLOWING, STALE};
use crate::version::Reader;

// An event's type and code, as the number that its first four bytes are.
const REPORT: u32 = 0;
const LOSS: u32 = 0x03_0000;
const SLOT: u32 = 0x2f_0003;
const X: u32 = 0x35_0003;
const Y: u32 = 0x36_0003;
const ID: u32 = 0x39_0003;
const PRESSURE: u32 = 0x3a_0003;
const MAJOR: u32 = 0x30_0003;
const MINOR: u32 = 0x31_0003;

/// What ends following.
enum Lost {
    Dropped,
    BadValue,
    RepeatedId,
}

impl State {
    /// Follows to the end of the records, or to one that makes it lose track: what it was, and the records after it.
    /// With LATE the ids are tested at a report only if one came since the last good test: nothing else can make two alike.
    fn follow<const LATE: bool>(&mut self, bytes: &[u8], counts: &mut Counts) -> Option<(Lost, usize)> {
        let mut current = self.current as usize % RECORDS;
        let mut ids_tested = false;
        let mut lost = None;
        for (k, record) in bytes.chunks_exact(8).enumerate() {
            let word = u64::from_le_bytes(record.try_into().expect("eight bytes"));
            let value = (word >> 32) as u32;
            let slot = &mut self.pending[current];
            match word as u32 {
                SLOT if value < self.setup.n => current = value as usize % RECORDS,
                X if value <= self.setup.x => slot.x = value,
                Y if value <= self.setup.y => slot.y = value,
                PRESSURE if value <= self.setup.pressure => slot.pressure = value,
                MAJOR if value <= self.setup.major => slot.major = value,
                MINOR if value <= self.setup.minor => slot.minor = value,
                ID if value <= 65535 || value == u32::MAX => {
                    slot.id = value as i32;
                    ids_tested = false;
                }
                REPORT => {
                    if !(LATE && ids_tested) && !ids_differ(self.setup.n, &self.pending) {
                        lost = Some((Lost::RepeatedId, k));
                        break;
                    }
                    ids_tested = true;
                    self.shown = self.pending;
                    counts.shown += 1;
                }
                LOSS => {
                    lost = Some((Lost::Dropped, k));
                    break;
                }
                SLOT | X | Y | PRESSURE | MAJOR | MINOR | ID => {
                    lost = Some((Lost::BadValue, k));
                    break;
                }
                other => counts.skip(other as u16, (other >> 16) as u16),
            }
        }
        self.current = current as u32;
        lost
    }

    fn lose(&mut self, lost: Lost, counts: &mut Counts) {
        (self.mode, counts.bad) = match lost {
            Lost::Dropped => (DROPPED, 0),
            Lost::BadValue => (DROPPED, 1),
            Lost::RepeatedId => (STALE, 1),
        };
        self.pending = self.shown;
    }

    fn ignore(&mut self, bytes: &[u8], counts: &mut Counts) {
        for record in bytes.chunks_exact(8) {
            counts.ignored += 1;
            match (self.mode, u32::from_le_bytes([record[0], record[1], record[2], record[3]])) {
                (DROPPED, REPORT) => self.mode = STALE,
                (STALE, LOSS) => self.mode = DROPPED,
                _ => {}
            }
        }
    }

    /// The state is judged, unless nobody else can touch it.
    fn run<const LATE: bool, const JUDGED: bool>(&mut self, bytes: &[u8]) -> Result<Counts, u64> {
        if !JUDGED && !self.well_formed() {
            return Err(2);
        }
        if bytes.len() % 8 != 0 {
            return Err(6);
        }
        let mut counts = Counts::default();
        if self.mode != FOLLOWING {
            self.ignore(bytes, &mut counts);
        } else if let Some((lost, k)) = self.follow::<LATE>(bytes, &mut counts) {
            self.lose(lost, &mut counts);
            self.ignore(&bytes[8 * (k + 1)..], &mut counts);
        }
        Ok(counts)
    }
}

#[allow(dead_code)] // the other versions' program has no use for it
pub struct InPlace<const LATE: bool>;

impl<const LATE: bool> Reader for InPlace<LATE> {
    fn run(state: &mut State, bytes: &[u8]) -> Result<Counts, u64> {
        state.run::<LATE, false>(bytes)
    }
}

/// For a state that nobody else can touch, as Rust's types would have it: it is never judged. Ids are tested late.
#[allow(dead_code)] // measured by others.rs
pub struct Typed;

impl Reader for Typed {
    fn run(state: &mut State, bytes: &[u8]) -> Result<Counts, u64> {
        state.run::<true, true>(bytes)
    }
}
