//! The numbers of a line, and the calls that they make.

use super::{Call, Cut, LARGEST_BUFFER, MOST_NUMBERS};
use crate::events::Event;
use crate::pieces::{PieceReader, LEFT_OVER};
use crate::pod::{Pod, PLACES};
use crate::pointer::{Pointer, Told};
use crate::reader::{Mode, Reader};
use crate::table::{Layout, Setup, SlotNumber, Table, TrackingId, EMPTY};
use crate::writer::Writer;

fn number(word: &[u8]) -> Option<i128> {
    let digits = word.strip_prefix(b"-").unwrap_or(word);
    if digits.is_empty() || !digits.iter().all(u8::is_ascii_digit) {
        return None;
    }
    let value = std::str::from_utf8(word).ok()?.parse::<i128>().ok()?;
    (i128::from(i64::MIN)..=i128::from(u64::MAX)).contains(&value).then_some(value)
}

/// The numbers of a line, taken from the front; `None` where one is missing or its type cannot hold it.
pub(super) struct Numbers(std::vec::IntoIter<i128>);

impl Numbers {
    /// The words behind a call's name, if each is a number and they are not too many.
    pub(super) fn of<'a>(words: impl Iterator<Item = &'a [u8]>) -> Option<Numbers> {
        let numbers = words.map(number).collect::<Option<Vec<_>>>()?;
        (numbers.len() <= MOST_NUMBERS).then_some(Numbers(numbers.into_iter()))
    }

    pub(super) fn is_done(&mut self) -> bool {
        self.0.next().is_none()
    }

    /// A call of a reader's, by its name without what says whose.
    pub(super) fn reader_call(&mut self, layout: Layout, name: &str) -> Option<Call> {
        Some(match name {
            "fresh" => Call::Fresh(layout, self.setup(layout)?),
            "run" => Call::Run { reader: self.reader(layout)?, bytes: self.rest()? },
            "one" => {
                let reader = self.reader(layout)?;
                Call::One { reader, event: Event { kind: self.one()?, code: self.one()?, value: self.one()? } }
            }
            "load" => {
                let reader = self.reader(layout)?;
                Call::Load { reader, current: SlotNumber(self.one()?), image: self.rest()? }
            }
            "ask" => Call::Ask { reader: self.reader(layout)?, slot: SlotNumber(self.one()?) },
            "good" => Call::Good { reader: self.reader(layout)? },
            _ => return None,
        })
    }

    /// A call of the writer or of a pod.
    pub(super) fn other_call(&mut self, name: &str) -> Option<Call> {
        Some(match name {
            "new" => Call::New { setup: self.setup(Layout::Panel)?, pointer: self.flag()? },
            "write" => {
                Call::Write { writer: self.writer()?, position: self.one()?, size: self.size()?, frame: self.rest()? }
            }
            "anonymous" => Call::Anonymous {
                writer: self.writer()?,
                position: self.one()?,
                size: self.size()?,
                records: self.rest()?,
            },
            "start" => Call::Start,
            "pod" => Call::Pod { pod: self.pod()?, bytes: self.rest().filter(|bytes: &Vec<u8>| !bytes.is_empty())? },
            _ => return None,
        })
    }

    /// A call of the reader that takes pieces.
    pub(super) fn pieces_call(&mut self, name: &str) -> Option<Call> {
        Some(match name {
            "pieces_fresh" => Call::PiecesFresh(self.setup(Layout::Panel)?),
            "pieces_take" => Call::PiecesTake { pieces: self.pieces()?, cut: self.cut()? },
            "pieces_load" => {
                let pieces = self.pieces()?;
                Call::PiecesLoad { pieces, current: SlotNumber(self.one()?), image: self.rest()? }
            }
            "pieces_ask" => Call::PiecesAsk { pieces: self.pieces()?, slot: SlotNumber(self.one()?) },
            _ => return None,
        })
    }

    /// How many pieces there are, the length of each, and the bytes of all of them.
    fn cut(&mut self) -> Option<Cut> {
        let count: usize = self.one()?;
        // Not as many as the count says: that may be any number.
        let mut lengths = Vec::new();
        for _ in 0..count {
            lengths.push(self.one()?);
        }
        Some(Cut { lengths, bytes: self.rest()? }).filter(Cut::is_whole)
    }

    pub(super) fn one<T: TryFrom<i128>>(&mut self) -> Option<T> {
        T::try_from(self.0.next()?).ok()
    }

    pub(super) fn rest<T: TryFrom<i128>>(&mut self) -> Option<Vec<T>> {
        self.0.by_ref().map(|n| T::try_from(n).ok()).collect()
    }

    /// How many bytes a buffer has.
    pub(super) fn size(&mut self) -> Option<usize> {
        self.one().filter(|size| *size <= LARGEST_BUFFER)
    }

    fn setup(&mut self, layout: Layout) -> Option<Setup> {
        let mut setup = Setup { slots: self.one()?, ..Setup::ZEROS };
        for largest in &mut setup.largest[..layout.numbers()] {
            *largest = self.one()?;
        }
        Some(setup)
    }

    fn table(&mut self, layout: Layout) -> Option<Table> {
        let mut table = EMPTY;
        for slot in &mut table[..layout.slots()] {
            slot.id = TrackingId(self.one()?);
            for number in &mut slot.numbers[..layout.numbers()] {
                *number = self.one()?;
            }
        }
        Some(table)
    }

    fn reader(&mut self, layout: Layout) -> Option<Reader> {
        Some(Reader {
            layout,
            setup: self.setup(layout)?,
            current: SlotNumber(self.one()?),
            mode: match self.0.next()? {
                0 => Mode::Following,
                1 => Mode::Dropped,
                2 => Mode::Stale,
                _ => return None,
            },
            shown: self.table(layout)?,
            pending: self.table(layout)?,
        })
    }

    fn pieces(&mut self) -> Option<PieceReader> {
        let mut pieces = PieceReader { reader: self.reader(Layout::Panel)?, held: self.one()?, bytes: [0; LEFT_OVER] };
        for byte in &mut pieces.bytes {
            *byte = self.one()?;
        }
        Some(pieces)
    }

    fn writer(&mut self) -> Option<Writer> {
        Some(Writer {
            setup: self.setup(Layout::Panel)?,
            current: SlotNumber(self.one()?),
            counter: self.one()?,
            table: self.table(Layout::Panel)?,
            pointer: self.pointer()?,
        })
    }

    fn pointer(&mut self) -> Option<Pointer> {
        let on = self.flag()?;
        let told = Told { touch: self.one()?, tool: self.one()?, x: self.one()?, y: self.one()? };
        let mut pointer = Pointer { on, told, ..Pointer::OFF };
        for rank in &mut pointer.ranks {
            *rank = self.one()?;
        }
        Some(pointer)
    }

    /// Whether something is so: 0 or 1.
    fn flag(&mut self) -> Option<bool> {
        match self.0.next()? {
            0 => Some(false),
            1 => Some(true),
            _ => None,
        }
    }

    pub(super) fn pod(&mut self) -> Option<Pod> {
        let mut pod = Pod { waits: self.flag()?, held: self.one()?, bytes: [0; PLACES] };
        for byte in &mut pod.bytes {
            *byte = self.one()?;
        }
        Some(pod)
    }
}
