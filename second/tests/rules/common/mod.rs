//! What several tests use: the sheet's panel, tables from plain numbers, and a frame written with room to spare.

pub mod pairings;

use second::events::{events, Event, RECORD};
use second::pointer::Pointer;
use second::reader::{Mode, Reader};
use second::records::{event, event_text};
use second::refusal::Refusal;
use second::table::{Layout, Setup, Slot, SlotNumber, Table, TrackingId, EMPTY};
use second::writer::{Writer, Written, LARGEST_FRAME};

pub fn panel(slots: u64) -> Setup {
    Setup { slots, largest: [4000, 4000, 255, 255, 255] }
}

/// A slot with touch sizes 0.
pub fn slot(id: i32, x: u32, y: u32, pressure: u32) -> Slot {
    sized(id, x, y, pressure, 0, 0)
}

pub fn sized(id: i32, x: u32, y: u32, pressure: u32, major: u32, minor: u32) -> Slot {
    Slot { id: TrackingId(id), numbers: [x, y, pressure, major, minor] }
}

pub fn table(slots: &[Slot]) -> Table {
    let mut table = EMPTY;
    table[..slots.len()].copy_from_slice(slots);
    table
}

pub fn writer(current: u64, counter: u32, slots: &[Slot]) -> Writer {
    Writer {
        setup: panel(slots.len() as u64),
        current: SlotNumber(current),
        counter,
        table: table(slots),
        pointer: Pointer::OFF,
    }
}

pub fn following(current: u64, slots: &[Slot]) -> Reader {
    reader(Layout::Panel, current, slots)
}

/// The cranes' reader, of slots with touch sizes 0.
pub fn crane(current: u64, slots: &[Slot]) -> Reader {
    reader(Layout::Crane, current, slots)
}

fn reader(layout: Layout, current: u64, slots: &[Slot]) -> Reader {
    Reader {
        layout,
        setup: panel(slots.len() as u64).known_to(layout),
        current: SlotNumber(current),
        mode: Mode::Following,
        shown: table(slots),
        pending: table(slots),
    }
}

/// The events that a frame is sent as, in words, and the rest of the answer.
pub fn write(writer: &mut Writer, frame: &[i32]) -> Result<(Vec<String>, Written), Refusal> {
    let mut buffer = [0; LARGEST_FRAME];
    let written = writer.write(frame, &mut buffer, 0)?;
    let sent = &buffer[..written.events as usize * RECORD];
    Ok((events(sent).map(event_text).collect(), written))
}

pub fn bytes(events: &[Event]) -> Vec<u8> {
    events.iter().flat_map(|event| event.to_bytes()).collect()
}

/// Events that stand between commas.
pub fn in_bytes(events: &str) -> Vec<u8> {
    let all = events.split(", ").filter(|words| !words.is_empty());
    bytes(&all.map(|words| event(&words.split(' ').collect::<Vec<_>>()).unwrap()).collect::<Vec<_>>())
}
