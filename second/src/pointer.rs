//! K6, pointer emulation: what an old display was told last, and which contact it follows.

use crate::events::*;
use crate::table::{Setup, Slot, Table, SLOTS, X, Y};

/// The tool codes of one contact, of two, and so on; the last is of more too.
pub const TOOLS: [u16; 5] =
    [BTN_TOOL_FINGER, BTN_TOOL_DOUBLETAP, BTN_TOOL_TRIPLETAP, BTN_TOOL_QUADTAP, BTN_TOOL_QUINTTAP];

/// The most emulated events of a frame: BTN_TOUCH and a swap of tools do not come together.
pub const MOST_EMULATED: usize = 4;

/// A rank by beginning for each record: contacts of rank 0 began in the earliest frame, those that began in one frame share theirs, and an unused record has 0.
pub type Ranks = [u8; SLOTS];

/// What a writer holds for the display, well formed or not.
#[derive(Clone, Copy, PartialEq, Eq, Debug)]
pub struct Pointer {
    /// The option. Where it is off, all else is 0.
    pub on: bool,
    pub told: Told,
    pub ranks: Ranks,
}

/// The display's numbers as they were last sent.
#[derive(Clone, Copy, PartialEq, Eq, Debug)]
pub struct Told {
    pub touch: u8,
    /// The code of the one tool that is 1; 0 for none.
    pub tool: u16,
    pub x: u32,
    pub y: u32,
}

/// The emulated events of a frame, an event for each number that changed.
pub struct Emulated {
    /// Before every other event of the frame.
    pub touch: Option<Event>,
    /// Just before the report: the old tool, the new one, X, Y.
    pub others: [Option<Event>; 4],
}

impl Pointer {
    /// Of every writer with the option off.
    pub const OFF: Pointer = Pointer { on: false, told: Told::NOTHING, ranks: [0; SLOTS] };

    /// As it is at the start.
    pub const fn fresh(on: bool) -> Pointer {
        Pointer { on, ..Pointer::OFF }
    }

    /// Whether it goes with a good table of a good setup.
    pub fn is_well_formed(&self, setup: &Setup, table: &Table) -> bool {
        if !self.on {
            return *self == Pointer::OFF;
        }
        // What keeps still was once a contact's, so it is in range; what is followed is so by its table.
        are_good_ranks(table, &self.ranks)
            && self.told == self.told.after(table, &self.ranks)
            && self.told.x <= setup.largest[X]
            && self.told.y <= setup.largest[Y]
    }

    /// What is held once a frame made the new table of the old one.
    pub fn after(&self, old: &Table, new: &Table) -> Pointer {
        if !self.on {
            return Pointer::OFF;
        }
        let ranks = ranks_after(&self.ranks, old, new);
        Pointer { on: true, told: self.told.after(new, &ranks), ranks }
    }
}

impl Told {
    /// At the start.
    pub const NOTHING: Told = Told { touch: 0, tool: 0, x: 0, y: 0 };

    /// What the display is to be told of these contacts; X and Y keep still where none is live.
    pub fn after(&self, table: &Table, ranks: &Ranks) -> Told {
        let live = table.iter().filter(|slot| slot.id.is_live()).count();
        match oldest(table, ranks) {
            Some(slot) => Told { touch: 1, tool: tool(live), x: slot.numbers[X], y: slot.numbers[Y] },
            None => Told { touch: 0, tool: 0, ..*self },
        }
    }

    /// The events that tell the display these numbers where it has the old ones.
    pub fn changes_to(&self, new: &Told) -> Emulated {
        let is_swapped = new.tool != self.tool;
        Emulated {
            touch: (new.touch != self.touch).then(|| Event::key(BTN_TOUCH, new.touch != 0)),
            others: [
                (is_swapped && self.tool != 0).then(|| Event::key(self.tool, false)),
                (is_swapped && new.tool != 0).then(|| Event::key(new.tool, true)),
                (new.x != self.x).then(|| Event::abs(ABS_X, new.x as i32)),
                (new.y != self.y).then(|| Event::abs(ABS_Y, new.y as i32)),
            ],
        }
    }
}

impl Emulated {
    /// How many there are.
    pub fn count(&self) -> u32 {
        [self.touch].iter().chain(&self.others).flatten().count() as u32
    }
}

/// The code of so many live contacts; 0 for none.
pub fn tool(live: usize) -> u16 {
    match live {
        0 => 0,
        _ => TOOLS[live.min(TOOLS.len()) - 1],
    }
}

/// The contact that began in the earliest frame, in the lower slot on a tie.
fn oldest<'a>(table: &'a Table, ranks: &Ranks) -> Option<&'a Slot> {
    table.iter().zip(ranks).find(|(slot, rank)| slot.id.is_live() && **rank == 0).map(|(slot, _)| slot)
}

fn are_good_ranks(table: &Table, ranks: &Ranks) -> bool {
    let mut taken = 0u32;
    for (slot, rank) in table.iter().zip(ranks) {
        match (slot.id.is_live(), *rank) {
            (false, 0) => {}
            (true, rank) if usize::from(rank) < SLOTS => taken |= 1 << rank,
            _ => return false,
        }
    }
    // No gap: the ones stand together from bit 0 on.
    taken.wrapping_add(1) & taken == 0
}

/// Contacts that go on keep their order and close their gaps, and all that begin share the next rank.
fn ranks_after(ranks: &Ranks, old: &Table, new: &Table) -> Ranks {
    // A contact that begins takes no id of the old table, so the same id is the same contact.
    let goes_on = |s: usize| new[s].id.is_live() && new[s].id == old[s].id;
    let kept = (0..SLOTS).filter(|s| goes_on(*s)).fold(0u32, |kept, s| kept | 1 << ranks[s]);
    std::array::from_fn(|s| {
        let before = match (goes_on(s), new[s].id.is_live()) {
            (true, _) => kept & ((1 << ranks[s]) - 1),
            (false, true) => kept,
            (false, false) => 0,
        };
        before.count_ones() as u8
    })
}
