//! A writer said the slow way, each of its parts a function that can be another one: what a wrong writer is made of.

use second::events::*;
use second::pointer::{Pointer, Ranks, Told};
use second::script::{marks, Call};
use second::table::{Slot, SlotNumber, Table, TrackingId, NUMBERS, SLOTS, SLOT_NUMBERS, X, Y};
use second::writer::Writer;

use crate::wrong::{answers, bytes_text, refusal, writer_text, Wrong};

/// The parts of a writer. It is handed calls that are refused by none of 2, 3 and 4.
#[derive(Clone, Copy)]
pub struct Parts {
    /// The bits of an id that are compared with one that is taken.
    pub compared: u32,
    /// How many taken ids are passed at most.
    pub passes: u32,
    /// The id behind another.
    pub behind: fn(u32) -> u32,
    /// Where a search begins, from the counter and the ids given so far.
    pub start: fn(u32, &[u32]) -> u32,
    /// Whether an old id counts as taken, by its slot and the kind that the frame has there.
    pub is_old_taken: fn(usize, i32) -> bool,
    /// Whether an id that was given in this frame counts as taken.
    pub is_given_taken: bool,
    /// The order in which ids are given, from how many slots and the current one.
    pub giving: fn(usize, usize) -> Vec<usize>,
    /// The counter afterwards, from the one before and the ids given.
    pub counter: fn(u32, &[u32]) -> u32,
    /// Whether a contact begins, from the kind and whether the slot was live.
    pub begins: fn(i32, bool) -> bool,
    /// The slot after a lift, from the old one and the frame's row.
    pub lifted: fn(Slot, &[i32]) -> Slot,
    /// The order of the changed slots, from them and the current one.
    pub order: fn(&[usize], usize) -> Vec<usize>,
    /// Whether ABS_MT_SLOT opens a slot, from the slot, the current one and the one sent before it.
    pub is_named: fn(usize, usize, Option<usize>) -> bool,
    /// The value that names a slot.
    pub name: fn(usize) -> i32,
    /// The numbers sent of a slot, old and new.
    pub numbers: fn(&Slot, &Slot) -> Vec<Event>,
    /// The ranks afterwards, from the writer before and the new table.
    pub ranks: fn(&Writer, &Table) -> Ranks,
    /// The slot that the display follows.
    pub followed: fn(&Table, &Ranks) -> Option<usize>,
    /// The tool code of so many contacts.
    pub tool: fn(usize) -> u16,
    /// Where the display's pointer is with no contact, from what was told before.
    pub still: fn(&Told) -> (u32, u32),
    /// The emulated events told otherwise, from what was told before and is now.
    pub retold: fn(&Told, &Told, &mut Five),
    /// Those of them before the slots' events and those behind.
    pub laid: fn(&Five) -> (Vec<Event>, Vec<Event>),
    /// What is held for the display afterwards with the option off, from the writer before and the new table.
    pub off: fn(&Writer, &Table) -> Pointer,
    /// How the events end, from those of the slots.
    pub end: fn(Vec<Event>) -> Vec<Event>,
    /// The current slot afterwards, from those sent and the old one.
    pub current: fn(&[usize], usize) -> usize,
    /// The number of the changed slots.
    pub changed: fn(&[usize]) -> u32,
    /// Whether there is room, from position, size and need.
    pub has_room: fn(u64, usize, usize) -> bool,
    /// The need that is told, from the events, the position and the size.
    pub need: fn(&[Event], u64, usize) -> u64,
    /// The buffer afterwards, from its marks, the position and the records.
    pub put: fn(&mut [u8], usize, &[u8]),
}

/// The rules.
pub const RIGHT: Parts = Parts {
    compared: u32::MAX,
    passes: u32::MAX,
    behind: |id| (id + 1) % 65_536,
    start: |counter, given| given.last().map_or(counter, |id| (id + 1) % 65_536),
    is_old_taken: |_, _| true,
    is_given_taken: true,
    giving: |slots, _| (0..slots).collect(),
    counter: |counter, given| given.last().map_or(counter, |id| (id + 1) % 65_536),
    begins: |kind, is_live| kind == 2 || kind == 1 && !is_live,
    lifted: |old, _| Slot { id: TrackingId::UNUSED, ..old },
    order: |changed, current| {
        let is_current = |s: &&usize| **s == current;
        changed.iter().filter(is_current).chain(changed.iter().filter(|s| !is_current(s))).copied().collect()
    },
    is_named: |slot, current, _| slot != current,
    name: |slot| slot as i32,
    numbers: |old, new| {
        let pairs = six(old).into_iter().zip(six(new));
        pairs.filter(|(old, new)| old != new).map(|(_, new)| new).collect()
    },
    ranks: |before, table| {
        let taken = kept_ranks(before, table);
        ranks_by(before, table, |s| taken.binary_search(&before.pointer.ranks[s]).unwrap_or(0), |_| taken.len())
    },
    followed: |table, ranks| (0..SLOTS).filter(|s| table[*s].id.is_live()).min_by_key(|s| (ranks[*s], *s)),
    tool: |live| match live {
        0 => 0,
        1 => 0x145,
        2 => 0x14d,
        3 => 0x14e,
        4 => 0x14f,
        _ => 0x148,
    },
    still: |told| (told.x, told.y),
    retold: |_, _, _| {},
    laid: |told| (some(&told[..1]), some(&told[1..])),
    off: |_, _| Pointer::OFF,
    end: |mut events| {
        if !events.is_empty() {
            events.push(Event::REPORT);
        }
        events
    },
    current: |sent, current| sent.last().copied().unwrap_or(current),
    changed: |slots| slots.iter().fold(0, |bits, s| bits | 1 << s),
    has_room: |position, size, need| (size as u64).checked_sub(position).is_some_and(|left| left >= need as u64),
    need: |events, _, _| (events.len() * RECORD) as u64,
    put: |buffer, position, records| buffer[position..position + records.len()].copy_from_slice(records),
};

/// A slot's six numbers as events.
pub fn six(slot: &Slot) -> Vec<Event> {
    let numbers = CODES.into_iter().zip(slot.numbers).map(|(code, number)| Event::abs(code, number as i32));
    [Event::abs(ABS_MT_TRACKING_ID, slot.id.0)].into_iter().chain(numbers).collect()
}

/// Whether a slot's contact goes on in the new table.
pub fn goes_on(before: &Writer, table: &Table, s: usize) -> bool {
    table[s].id.is_live() && table[s].id == before.table[s].id
}

/// The ranks of the contacts that go on, each once, rising.
pub fn kept_ranks(before: &Writer, table: &Table) -> Vec<u8> {
    let mut taken: Vec<u8> =
        (0..SLOTS).filter(|s| goes_on(before, table, *s)).map(|s| before.pointer.ranks[s]).collect();
    taken.sort_unstable();
    taken.dedup();
    taken
}

/// Ranks of contacts that go on and of those that begin; an unused slot has 0.
pub fn ranks_by(before: &Writer, table: &Table, old: impl Fn(usize) -> usize, new: impl Fn(usize) -> usize) -> Ranks {
    std::array::from_fn(|s| match (table[s].id.is_live(), goes_on(before, table, s)) {
        (false, _) => 0,
        (true, true) => old(s) as u8,
        (true, false) => new(s) as u8,
    })
}

/// What a display may be told: BTN_TOUCH, the old tool, the new one, X, Y.
pub type Five = [Option<Event>; 5];

/// Those that are.
pub fn some(told: &[Option<Event>]) -> Vec<Event> {
    told.iter().flatten().copied().collect()
}

fn five(old: &Told, new: &Told) -> Five {
    let key = |code: u16, value: i32| Event { kind: 1, code, value };
    [
        (old.touch != new.touch).then(|| key(0x14a, new.touch.into())),
        (old.tool != new.tool && old.tool != 0).then(|| key(old.tool, 0)),
        (old.tool != new.tool && new.tool != 0).then(|| key(new.tool, 1)),
        (old.x != new.x).then(|| Event::abs(0, new.x as i32)),
        (old.y != new.y).then(|| Event::abs(1, new.y as i32)),
    ]
}

/// A writer one part of which is changed.
pub fn writes(name: impl Into<String>, change: impl Fn(&mut Parts)) -> Wrong {
    let mut parts = RIGHT;
    change(&mut parts);
    answers(name, move |asked| {
        let Call::Write { writer, position, size, frame } = asked.call? else {
            return None;
        };
        match refusal(asked.right, asked.call?) {
            0 | 5 => Some(parts.answer(writer, *position, *size, frame)),
            _ => None,
        }
    })
}

/// The numbers of a frame's row, without its kind.
pub fn numbers_of(row: &[i32]) -> [u32; NUMBERS] {
    std::array::from_fn(|i| row[1 + i] as u32)
}

/// A writer that takes frames that are to be refused with 4.
pub fn accepts(name: impl Into<String>, when: impl Fn(&Writer, &[i32]) -> bool + 'static) -> Wrong {
    answers(name, move |asked| {
        let Call::Write { writer, position, size, frame } = asked.call? else {
            return None;
        };
        let is_taken = refusal(asked.right, asked.call?) == 4 && when(writer, frame);
        is_taken.then(|| RIGHT.answer(writer, *position, *size, frame))
    })
}

impl Parts {
    /// Its answer to a frame that is refused by none of 2, 3 and 4.
    pub fn answer(&self, writer: &Writer, position: u64, size: usize, frame: &[i32]) -> String {
        let mut after = self.table(writer, frame);
        after.pointer = self.pointer(writer, &after.table);
        let is_changed = |s: &usize| after.table[*s] != writer.table[*s];
        let changed: Vec<usize> = (0..writer.setup.slots as usize).filter(is_changed).collect();
        let current = writer.current.0 as usize;
        let sent = (self.order)(&changed, current);
        let events = self.events(writer, &after, &sent);
        let mut buffer = marks(size);
        if !(self.has_room)(position, size, events.len() * RECORD) {
            let need = (self.need)(&events, position, size);
            return format!("5 {} 0 0 {need} :{}", writer_text(writer), bytes_text(&buffer));
        }
        let records: Vec<u8> = events.iter().flat_map(|event| event.to_bytes()).collect();
        // Where a wrong look at the room let it through, there is none.
        if (RIGHT.has_room)(position, size, records.len()) {
            (self.put)(&mut buffer, position as usize, &records);
        }
        let after = Writer { current: SlotNumber((self.current)(&sent, current) as u64), ..after };
        let (count, bits) = (events.len(), (self.changed)(&changed));
        format!("0 {} {count} {bits} 0 :{}", writer_text(&after), bytes_text(&buffer))
    }

    /// What is held for the display afterwards.
    fn pointer(&self, before: &Writer, table: &Table) -> Pointer {
        if !before.pointer.on {
            return (self.off)(before, table);
        }
        let ranks = (self.ranks)(before, table);
        let live = table.iter().filter(|slot| slot.id.is_live()).count();
        let (x, y) = match (self.followed)(table, &ranks) {
            Some(s) => (table[s].numbers[X], table[s].numbers[Y]),
            None => (self.still)(&before.pointer.told),
        };
        Pointer { on: true, told: Told { touch: u8::from(live > 0), tool: (self.tool)(live), x, y }, ranks }
    }

    /// The new table and counter.
    fn table(&self, writer: &Writer, frame: &[i32]) -> Writer {
        let rows: Vec<&[i32]> = frame.chunks_exact(SLOT_NUMBERS).collect();
        let old = writer.table.iter().zip(&rows).enumerate();
        let mut taken: Vec<u32> = old
            .filter(|(s, (slot, row))| slot.id.is_live() && (self.is_old_taken)(*s, row[0]))
            .map(|(_, (slot, _))| slot.id.0 as u32)
            .collect();
        let mut given = Vec::new();
        let mut after = writer.clone();
        for s in (self.giving)(rows.len(), writer.current.0 as usize) {
            let (old, row) = (writer.table[s], rows[s]);
            if row[0] == 0 {
                after.table[s] = (self.lifted)(old, row);
                continue;
            }
            let mut id = old.id;
            if (self.begins)(row[0], old.id.is_live()) {
                let free = self.first_free((self.start)(writer.counter, &given), &taken);
                id = TrackingId(free as i32);
                given.push(free);
                if self.is_given_taken {
                    taken.push(free);
                }
            }
            after.table[s] = Slot { id, numbers: numbers_of(row) };
        }
        Writer { counter: (self.counter)(writer.counter, &given), ..after }
    }

    fn first_free(&self, from: u32, taken: &[u32]) -> u32 {
        let mut id = from;
        // A search that finds no id by its own rule ends after all of them.
        for _ in 0..self.passes.min(65_536) {
            if !taken.iter().any(|other| (other ^ id) & self.compared == 0) {
                break;
            }
            id = (self.behind)(id);
        }
        id
    }

    fn events(&self, writer: &Writer, after: &Writer, sent: &[usize]) -> Vec<Event> {
        let mut events = Vec::new();
        let mut before = None;
        for s in sent {
            if (self.is_named)(*s, writer.current.0 as usize, before) {
                events.push(Event::abs(ABS_MT_SLOT, (self.name)(*s)));
            }
            events.extend((self.numbers)(&writer.table[*s], &after.table[*s]));
            before = Some(*s);
        }
        if !events.is_empty() {
            let (old, new) = (&writer.pointer.told, &after.pointer.told);
            let mut told = five(old, new);
            (self.retold)(old, new, &mut told);
            let (first, last) = (self.laid)(&told);
            events = [first, events, last].concat();
        }
        (self.end)(events)
    }
}
