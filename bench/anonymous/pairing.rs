//! Document 02's pairing in plain Rust, by the method of the proved one: the old contacts are gone through from the last, with the least cost of each set of free new ones.

use crate::panel::RECORDS;

/// The most new contacts.
pub const MOST: usize = 5;

/// The number of an old contact that has no new one.
pub const ALONE: u8 = MOST as u8;

/// The sets of new contacts, whose bits tell which are in them.
const SETS: usize = 1 << MOST;

/// An offer is 8 times a cost, and the number of a choice: of two the smaller is cheaper, or as dear and comes first. This one is for being alone, which costs more than 32 squared distances.
const ALONE_OFFER: u64 = 1 << 40 | ALONE as u64;

/// Where contacts are. Those past their number are of no account.
pub type Places<const N: usize> = [[u32; N]; 2];

fn offer(x: u32, y: u32, [nx, ny]: &Places<MOST>, c: usize) -> u64 {
    let (across, down) = (x.abs_diff(nx[c]), y.abs_diff(ny[c]));
    8 * u64::from(across * across + down * down) + c as u64
}

/// The least cost of each set goes from one old contact to the one before it, in place, and the choice that has it is kept. A set asks only for itself and for smaller ones, so the largest is first.
fn turn(row: &mut [u64; SETS], made: &mut [u8; SETS], offers: &[u64; MOST], sets: usize) {
    for free in (0..sets.min(SETS)).rev() {
        let mut best = ALONE_OFFER + row[free];
        for (c, offer) in offers.iter().enumerate() {
            if free & 1 << c != 0 {
                best = best.min(offer + row[free & !(1 << c)]);
            }
        }
        row[free] = best & !7;
        made[free] = (best & 7) as u8;
    }
}

/// For each old contact, by rising slot, the number of its new contact, or ALONE, which stands in the rest too.
pub fn pair_up(old: &Places<RECORDS>, olds: usize, new: &Places<MOST>, news: usize) -> [u8; RECORDS] {
    let sets = 1 << news;
    let mut row = [0; SETS];
    let mut made = [[0; SETS]; RECORDS];
    for i in (0..olds).rev() {
        let offers = std::array::from_fn(|c| offer(old[0][i], old[1][i], new, c));
        turn(&mut row, &mut made[i], &offers, sets);
    }
    let mut pairing = [ALONE; RECORDS];
    let mut free = sets - 1;
    for (choice, made) in pairing[..olds].iter_mut().zip(&made) {
        *choice = made[free];
        if *choice != ALONE {
            free -= 1 << *choice;
        }
    }
    pairing
}
