//! Mistakes in who is who, and in what is made of it: pairs found in haste, other distances, other choices among equals, other slots and rows.

use std::collections::HashMap;

use second::pointer::Pointer;
use second::script::Call;
use second::table::{Slot, SLOTS, X, Y};

use crate::slow_panel::{best_from, first_of_best, reads, square, ways, Contact, Found, List, RIGHT};
use crate::wrong::{answers, takes, Wrong};

/// It pairs otherwise.
fn pairs(name: &str, pair: fn(&[Slot], &[Contact]) -> List) -> Wrong {
    let mut parts = RIGHT;
    parts.pair = pair;
    answers(name, move |asked| parts.answer(asked.call?))
}

fn of_haste() -> Vec<Wrong> {
    vec![
        pairs("each old contact takes the nearest that is left", |old, new| {
            let mut list = Vec::new();
            for slot in old {
                let free = (0..new.len()).filter(|number| !list.contains(number));
                list.push(free.min_by_key(|number| square(slot, &new[*number])).unwrap_or(5));
            }
            list
        }),
        pairs("each new contact takes the nearest that is left", |old, new| {
            let mut list = vec![5; old.len()];
            for (number, contact) in new.iter().enumerate() {
                let free = (0..old.len()).filter(|s| list[*s] == 5);
                if let Some(s) = free.min_by_key(|s| square(&old[*s], contact)) {
                    list[s] = number;
                }
            }
            list
        }),
        pairs("the nearest two are a pair, and so on", |old, new| {
            let mut list = vec![5; old.len()];
            for _ in 0..old.len().min(new.len()) {
                let free = (0..old.len()).filter(|s| list[*s] == 5).flat_map(|s| (0..new.len()).map(move |i| (s, i)));
                let nearest = free.filter(|(_, i)| !list.contains(i)).min_by_key(|(s, i)| square(&old[*s], &new[*i]));
                let (s, i) = nearest.expect("a pair is left");
                list[s] = i;
            }
            list
        }),
        pairs("contacts are paired in their order", |old, new| {
            (0..old.len()).map(|i| if i < new.len() { i } else { 5 }).collect()
        }),
    ]
}

fn of_distances() -> Vec<Wrong> {
    vec![
        pairs("distances are not squared", |old, new| {
            first_of_best(old, new, |old, new| ((square(old, new) as f64).sqrt() * 1e6) as u64)
        }),
        pairs("the ways in x and y are added", |old, new| {
            first_of_best(old, new, |old, new| ways(old, new)[..2].iter().sum())
        }),
        pairs("the longer of the ways counts", |old, new| {
            first_of_best(old, new, |old, new| ways(old, new)[0].max(ways(old, new)[1]).pow(2))
        }),
        pairs("y does not count", |old, new| first_of_best(old, new, |old, new| ways(old, new)[0].pow(2))),
        pairs("x does not count", |old, new| first_of_best(old, new, |old, new| ways(old, new)[1].pow(2))),
        pairs("pressure counts", |old, new| {
            first_of_best(old, new, |old, new| ways(old, new).iter().map(|way| way * way).sum())
        }),
        pairs("a square has 16 bits", |old, new| first_of_best(old, new, |old, new| square(old, new) & 0xffff)),
        pairs("a total has 32 bits", |old, new| {
            let cut = |found: &Found| (found.0, found.1 as u32, found.2.clone());
            best_from(0, 0, old, new, square, &|a, b| cut(a) < cut(b), &mut HashMap::new()).2
        }),
    ]
}

fn of_ties() -> Vec<Wrong> {
    vec![
        pairs("of equals the last list counts", |old, new| {
            let is_before = |a: &Found, b: &Found| (a.0, a.1) < (b.0, b.1) || (a.0, a.1) == (b.0, b.1) && a.2 > b.2;
            best_from(0, 0, old, new, square, &is_before, &mut HashMap::new()).2
        }),
        pairs("none comes before every number", |old, new| {
            let key = |list: &List| list.iter().map(|number| (number + 1) % 6).collect::<List>();
            let is_before = |a: &Found, b: &Found| (a.0, a.1, key(&a.2)) < (b.0, b.1, key(&b.2));
            best_from(0, 0, old, new, square, &is_before, &mut HashMap::new()).2
        }),
        pairs("lists are compared from the last slot on", |old, new| {
            let reversed: Vec<Slot> = old.iter().rev().copied().collect();
            first_of_best(&reversed, new, square).into_iter().rev().collect()
        }),
        pairs("of equals the list of the new contacts' slots counts", by_new),
    ]
}

fn of_who_is_left_over() -> Vec<Wrong> {
    vec![
        pairs("contacts that are far are no pair", |old, new| {
            let list = first_of_best(old, new, square);
            let is_near = |(s, number): (usize, &usize)| *number == 5 || square(&old[s], &new[*number]) < 1_000_000;
            list.iter().enumerate().map(|pair| if is_near(pair) { *pair.1 } else { 5 }).collect()
        }),
        pairs("old contacts from the seventeenth on are not paired", |old, new| {
            let mut list = first_of_best(&old[..old.len().min(16)], new, square);
            list.resize(old.len(), 5);
            list
        }),
        pairs("the last old contact of 32 is not paired", |old, new| {
            let mut list = first_of_best(&old[..old.len().min(SLOTS - 1)], new, square);
            list.resize(old.len(), 5);
            list
        }),
        pairs("the fifth new contact is not paired", |old, new| first_of_best(old, &new[..new.len().min(4)], square)),
    ]
}

/// The least total, and of equals the least list of slots by rising new contact.
fn by_new(old: &[Slot], new: &[Contact]) -> List {
    // Each old contact turned into a contact and each new one into a slot, so that the same search lists by the new ones; it takes five of them.
    if old.len() > 5 {
        return first_of_best(old, new, square);
    }
    let contacts: Vec<Contact> = old.iter().map(|slot| [slot.numbers[X] as i32, slot.numbers[Y] as i32, 0]).collect();
    let slots: Vec<Slot> = new
        .iter()
        .map(|[x, y, _]| {
            let mut slot = Slot::UNUSED;
            (slot.numbers[X], slot.numbers[Y]) = (*x as u32, *y as u32);
            slot
        })
        .collect();
    let by_number = first_of_best(&slots, &contacts, square);
    (0..old.len()).map(|s| by_number.iter().position(|other| *other == s).unwrap_or(5)).collect()
}

fn of_what_is_made() -> Vec<Wrong> {
    vec![
        reads("those left over take the highest unused slots", |parts| {
            parts.unused = |unused| unused.iter().rev().copied().collect();
        }),
        reads("slot 0 is passed over", |parts| {
            parts.unused = |unused| unused.iter().copied().filter(|s| *s > 0).chain([0]).collect();
        }),
        reads("touch sizes stay", |parts| {
            parts.row =
                |old, [x, y, pressure]| vec![1, *x, *y, *pressure, old.numbers[3] as i32, old.numbers[4] as i32];
        }),
        reads("touch sizes stay while a contact goes on", |parts| {
            parts.row = |old, [x, y, pressure]| {
                let sizes = if old.id.is_live() { [old.numbers[3], old.numbers[4]] } else { [0, 0] };
                vec![1, *x, *y, *pressure, sizes[0] as i32, sizes[1] as i32]
            };
        }),
        reads("every contact is another one", |parts| {
            parts.row = |_, [x, y, pressure]| vec![2, *x, *y, *pressure, 0, 0]
        }),
        reads("a contact that jumps is another one", |parts| {
            parts.row = |old, contact| {
                let [x, y, pressure] = *contact;
                let kind = if square(old, contact) > 10_000 { 2 } else { 1 };
                vec![kind, x, y, pressure, 0, 0]
            };
        }),
        takes("the display is told nothing", |call| {
            if let Call::Anonymous { writer, .. } = call {
                writer.pointer = Pointer::OFF;
            }
        }),
    ]
}

/// Each mistake of this file.
pub fn all() -> Vec<Wrong> {
    let all = [of_haste(), of_distances(), of_ties(), of_who_is_left_over(), of_what_is_made()];
    all.into_iter().flatten().collect()
}
