//! K12, who is who: the fast way held against every pairing, on grids where ties are many, with more old contacts than new ones and the other way round.

use crate::common::pairings::{place, Best};
use second::pairing::{pairing, squared, Pairing, Place, MOST_CONTACTS, NONE};
use second::random::Random;
use second::table::SLOTS;

/// So many places on a grid of this width, some of them far away where the grid is wide.
fn places(random: &mut Random, count: usize, width: u64) -> Vec<Place> {
    (0..count).map(|_| place(random.below(width) as u32, random.below(width) as u32)).collect()
}

/// Whether both ways find the same pairing, and how many others are as good.
fn agree(old: &[Place], new: &[Place]) -> u64 {
    let best = Best::of(old, new);
    let fast: Pairing = pairing(old, new);
    let (_, list) = best.found.expect("there is one, if only of nobody");
    assert_eq!(fast[..old.len()], list, "{old:?} {new:?}");
    assert!(fast[old.len()..].iter().all(|number| *number == NONE));
    best.tied
}

/// Every number of old contacts up to seven with every number of new ones, on grids where ties are many and where they are few.
#[test]
fn no_pairing_is_better() {
    let mut random = Random::new(12);
    let mut tied = [0; 3];
    for round in 0..40 {
        for (old, new) in (0..=7).flat_map(|old| (0..=MOST_CONTACTS).map(move |new| (old, new))) {
            let width = [2, 3, 32_768][round % 3];
            let others = agree(&places(&mut random, old, width), &places(&mut random, new, width));
            tied[round % 3] += u32::from(others > 0);
        }
    }
    assert!(tied[0] > 300 && tied[1] > 150 && tied[2] < 50, "{tied:?}");
}

/// As many old contacts as there can be; with five new ones there are 24,165,120 pairings, so few such are tried.
#[test]
fn no_pairing_is_better_with_32_old_contacts() {
    let mut random = Random::new(13);
    for new in 0..=3 {
        for width in [2, 4, 9, 32_768] {
            agree(&places(&mut random, SLOTS, width), &places(&mut random, new, width));
        }
    }
    for (old, width) in [(16, 3), (16, 40)] {
        agree(&places(&mut random, old, width), &places(&mut random, MOST_CONTACTS, width));
    }
    agree(&places(&mut random, SLOTS, 5), &places(&mut random, MOST_CONTACTS, 5));
}

/// Two old contacts and two new ones at each place of a grid of three by two: all 1,296 of them.
#[test]
fn every_two_and_two() {
    let at = |i: usize| place((i % 3) as u32, (i / 3) as u32);
    for i in 0..6usize.pow(4) {
        let [a, b, c, d] = [i % 6, i / 6 % 6, i / 36 % 6, i / 216].map(at);
        agree(&[a, b], &[c, d]);
        agree(&[a, b, c], &[d]);
        agree(&[a], &[b, c, d]);
    }
}

#[test]
fn squares_of_the_widest_panel() {
    assert_eq!(squared(place(0, 32_767), place(32_767, 0)), 2 * 32_767 * 32_767);
    assert_eq!(squared(place(7, 5), place(4, 9)), 25);
}

/// Old contacts in one corner of the widest panel and new ones in the opposite: totals on both sides of 2^32, so that one that is cut to 32 bits seems cheap.
#[test]
fn totals_around_2_to_the_32() {
    let mut random = Random::new(15);
    for round in 0..300 {
        let old = places(&mut random, 4, 9_000);
        let new: Vec<Place> =
            places(&mut random, 3 + round % 2, 9_000).iter().map(|at| place(32_767 - at.x, 32_767 - at.y)).collect();
        agree(&old, &new);
    }
}
