//! K12, which old contact each new one is: as many pairs as there can be, of these the least total of squared distances, and of equals the pairing that comes first in dictionary order.

use crate::table::SLOTS;

/// The most contacts of a type A frame, and the number that an old contact has which is none of them.
pub const MOST_CONTACTS: usize = 5;
/// What a pairing has for an old contact without a pair.
pub const NONE: usize = MOST_CONTACTS;

/// Where a contact is; its pressure does not matter.
#[derive(Clone, Copy, PartialEq, Eq, Debug)]
pub struct Place {
    pub x: u32,
    pub y: u32,
}

/// For each old contact, by rising slot, the number of its new one or [`NONE`].
pub type Pairing = [usize; SLOTS];

/// How good a pairing is, the less the better: new contacts without a pair, then the total of squared distances.
type Price = (u32, u64);

/// One bit for each new contact.
const SETS: usize = 1 << MOST_CONTACTS;

/// The square of a distance.
pub fn squared(old: Place, new: Place) -> u64 {
    u64::from(old.x.abs_diff(new.x)).pow(2) + u64::from(old.y.abs_diff(new.y)).pow(2)
}

/// The pairing of up to 32 old contacts with up to five new ones; behind the old contacts it is [`NONE`].
///
/// From the last old contact to the first, and for each set of new contacts that may be taken by then, the least price of what is to come is found; then each old contact, from the first on, takes the first number that keeps to it.
pub fn pairing(old: &[Place], new: &[Place]) -> Pairing {
    let prices = prices(old, new);
    let mut pairing = [NONE; SLOTS];
    let mut taken = 0;
    for (i, place) in old.iter().enumerate() {
        let is_least = |number: &usize| price(&prices[i + 1], *place, new, taken, *number) == Some(prices[i][taken]);
        pairing[i] = (0..=NONE).find(is_least).expect("one of them is the least");
        taken |= bit(pairing[i]);
    }
    pairing
}

/// The least price from each old contact on, by the new ones that are taken before it.
fn prices(old: &[Place], new: &[Place]) -> [[Price; SETS]; SLOTS + 1] {
    let mut prices = [[(0, 0); SETS]; SLOTS + 1];
    for (taken, end) in prices[old.len()].iter_mut().enumerate() {
        let left_over = (0..new.len()).filter(|number| taken & bit(*number) == 0).count();
        *end = (left_over as u32, 0);
    }
    for (i, place) in old.iter().enumerate().rev() {
        for taken in 0..SETS {
            let all = (0..=NONE).filter_map(|number| price(&prices[i + 1], *place, new, taken, number));
            prices[i][taken] = all.min().expect("an old contact may have no pair");
        }
    }
    prices
}

/// The price where an old contact takes that number and all behind it do their best; `None` where there is no such contact, or it is taken.
fn price(behind: &[Price; SETS], old: Place, new: &[Place], taken: usize, number: usize) -> Option<Price> {
    if number == NONE {
        return Some(behind[taken]);
    }
    let distance = squared(old, *new.get(number)?);
    let (left_over, total) = behind[taken | bit(number)];
    (taken & bit(number) == 0).then_some((left_over, total + distance))
}

/// The bit of a new contact, none for [`NONE`].
fn bit(number: usize) -> usize {
    (1 << number) & (SETS - 1)
}
