//! Type A frames written in plain Rust that changes its state in place: the frame that the contacts make goes to the writer's benchmark's version, which does not judge the state again.

use crate::packets::Packets;
use crate::pairing::{pair_up, Places, ALONE, MOST};
use crate::panel::{PER_SLOT, RECORDS};
use crate::state::State;
use crate::version::{Refused, Sent};

/// The places of the live contacts, by rising slot, and how many they are.
fn olds(state: &State) -> (Places<RECORDS>, usize) {
    let mut places = [[0; RECORDS]; 2];
    let mut count = 0;
    for slot in state.table[..state.setup.n as usize].iter().filter(|slot| slot.id != -1) {
        (places[0][count], places[1][count]) = (slot.x, slot.y);
        count += 1;
    }
    (places, count)
}

/// The new contacts that no old one has, rising.
fn left_over(pairing: &[u8], news: usize) -> impl Iterator<Item = u8> {
    let paired = pairing.iter().fold(0u8, |paired, c| paired | 1 << c);
    (0..news as u8).filter(move |c| paired >> c & 1 == 0)
}

/// A row for each slot: its contact, or zeros.
fn frame_of(state: &State, packets: &Packets) -> [i32; PER_SLOT * RECORDS] {
    let (old, count) = olds(state);
    let new = [packets.contacts.map(|contact| contact.x), packets.contacts.map(|contact| contact.y)];
    let pairing = pair_up(&old, count, &new, packets.count);
    let mut paired = pairing[..count].iter().copied();
    let mut left = left_over(&pairing[..count], packets.count);
    let mut frame = [0; PER_SLOT * RECORDS];
    for (row, slot) in frame.chunks_exact_mut(PER_SLOT).zip(&state.table[..state.setup.n as usize]) {
        let number = if slot.id != -1 { paired.next() } else { left.next() };
        if let Some(contact) = packets.contacts.get(usize::from(number.unwrap_or(ALONE))) {
            row[..4].copy_from_slice(&[1, contact.x as i32, contact.y as i32, contact.pressure as i32]);
        }
    }
    frame
}

/// Refusals 2, 6, 9, 10, 4 and 5, in this order.
pub fn write(state: &mut State, bytes: &[u8], buf: &mut [u8], at: usize) -> Result<Sent, Refused> {
    let refused = |number| Err(Refused { number, need: 0 });
    if !state.well_formed() {
        return refused(2);
    }
    if bytes.len() % 8 != 0 {
        return refused(6);
    }
    let packets = Packets::read(bytes);
    let n = state.setup.n as usize;
    if packets.count > n.min(MOST) {
        return refused(9);
    }
    if !packets.sound {
        return refused(10);
    }
    if !packets.contacts[..packets.count].iter().all(|contact| state.setup.contact_ok(contact)) {
        return refused(4);
    }
    let frame = frame_of(state, &packets);
    state.write::<true>(&frame[..PER_SLOT * n], buf, at)
}
