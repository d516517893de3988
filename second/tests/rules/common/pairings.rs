//! Every pairing of old contacts and new ones, tried one by one.

use second::pairing::{Place, NONE};

pub fn place(x: u32, y: u32) -> Place {
    Place { x, y }
}

/// Said anew here: what is tried must not share the mistakes of what it is held against.
fn square(a: Place, b: Place) -> u64 {
    let (x, y) = (i64::from(a.x) - i64::from(b.x), i64::from(a.y) - i64::from(b.y));
    (x * x + y * y) as u64
}

/// The best of all pairings, each tried: as many pairs as possible, the least total, the first list.
#[derive(Default)]
pub struct Best {
    pub found: Option<(u64, Vec<usize>)>,
    /// How many others are as good.
    pub tied: u64,
}

impl Best {
    /// Of these contacts.
    pub fn of(old: &[Place], new: &[Place]) -> Best {
        let mut best = Best::default();
        best.try_all(old, new, &mut vec![NONE; old.len()], 0, 0);
        best
    }

    /// Each new contact takes each old one that is free; where the old ones are fewer, it may also be left over.
    fn try_all(&mut self, old: &[Place], new: &[Place], list: &mut Vec<usize>, number: usize, total: u64) {
        if number == new.len() {
            let pairs = list.iter().filter(|number| **number != NONE).count();
            if pairs == old.len().min(new.len()) {
                self.judge(total, list);
            }
            return;
        }
        for s in (0..old.len()).filter(|s| list[*s] == NONE).collect::<Vec<_>>() {
            list[s] = number;
            self.try_all(old, new, list, number + 1, total + square(old[s], new[number]));
            list[s] = NONE;
        }
        if old.len() < new.len() {
            self.try_all(old, new, list, number + 1, total);
        }
    }

    fn judge(&mut self, total: u64, list: &[usize]) {
        match &self.found {
            Some((least, _)) if *least < total => {}
            Some((least, first)) if *least == total => {
                self.tied += 1;
                if list < &first[..] {
                    self.found = Some((total, list.to_vec()));
                }
            }
            _ => *self = Best { found: Some((total, list.to_vec())), tied: 0 },
        }
    }
}
