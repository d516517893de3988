//! The writer in plain Rust that copies, in the steps of the proved one: a state comes in by value and goes out by value, and a whole new table is planned beside the old one.

use crate::panel::{Setup, Slot, Table, PER_SLOT, RECORDS};
use crate::state::{Display, Ranks, State};
use crate::version::{Refused, Sent, Writer};

struct Written {
    state: State,
    outcome: Result<Sent, Refused>,
}

fn values_ok(setup: &Setup, frame: &[i32]) -> bool {
    frame.chunks_exact(PER_SLOT).all(|row| match row[0] {
        0 => true,
        1 | 2 => setup.contact_ok(&Slot::of(row)),
        _ => false,
    })
}

/// The first id from `from` on that is neither live nor given in this frame.
fn choose(old: &Table, given: &[i32], from: u32) -> u32 {
    let mut k = from;
    loop {
        let id = k as i32;
        if !old.iter().any(|s| s.id == id) && !given.contains(&id) {
            return k;
        }
        k = (k + 1) % 65536;
    }
}

/// The table and the counter after a good frame.
fn plan(state: &State, frame: &[i32]) -> (Table, u32) {
    let mut new = state.table;
    let mut counter = state.counter;
    let mut given = [0; RECORDS];
    let mut m = 0;
    for (s, row) in frame.chunks_exact(PER_SLOT).enumerate() {
        let was = &state.table[s];
        if row[0] == 0 {
            new[s].id = -1;
            continue;
        }
        let mut id = was.id;
        if row[0] == 2 || id == -1 {
            let k = choose(&state.table, &given[..m], counter);
            id = k as i32;
            given[m] = id;
            m += 1;
            counter = (k + 1) % 65536;
        }
        new[s] = Slot { id, ..Slot::of(row) };
    }
    (new, counter)
}

fn numbers_changed(a: &Slot, b: &Slot) -> usize {
    (a.id != b.id) as usize
        + (a.x != b.x) as usize
        + (a.y != b.y) as usize
        + (a.pressure != b.pressure) as usize
        + (a.major != b.major) as usize
        + (a.minor != b.minor) as usize
}

fn goes_on(was: &Slot, is: &Slot) -> bool {
    is.id != -1 && is.id == was.id
}

/// The ranks after a frame: contacts that go on close their gaps, and all that begin come after them.
fn ranks_after(old: &Table, new: &Table, ranks: &Ranks) -> Ranks {
    let mut held = [false; RECORDS];
    for s in 0..RECORDS {
        held[ranks[s] as usize] |= goes_on(&old[s], &new[s]);
    }
    // Below each old rank, how many go on; at the end, all of them.
    let mut below = [0; RECORDS + 1];
    for r in 0..RECORDS {
        below[r + 1] = below[r] + held[r] as u8;
    }
    let mut after = [0; RECORDS];
    for s in 0..RECORDS {
        if goes_on(&old[s], &new[s]) {
            after[s] = below[ranks[s] as usize];
        } else if new[s].id != -1 {
            after[s] = below[RECORDS];
        }
    }
    after
}

/// Ranks and display after a frame; as they were with the option off.
fn move_on(state: &State, new: &Table) -> (Ranks, Display) {
    if state.on == 0 {
        return (state.ranks, state.display());
    }
    let ranks = ranks_after(&state.table, new, &state.ranks);
    (ranks, state.display().of(new, &ranks))
}

/// The changed slots, bit s for slot s, and how many numbers changed.
fn tally(old: &Table, new: &Table) -> (u32, usize) {
    let mut changed = 0;
    let mut numbers = 0;
    for s in 0..RECORDS {
        let d = numbers_changed(&old[s], &new[s]);
        numbers += d;
        if d != 0 {
            changed |= 1 << s;
        }
    }
    (changed, numbers)
}

fn put(buf: &mut [u8], at: &mut usize, kind: u16, code: u16, value: i32) {
    let b = &mut buf[*at..*at + 8];
    b[0..2].copy_from_slice(&kind.to_le_bytes());
    b[2..4].copy_from_slice(&code.to_le_bytes());
    b[4..8].copy_from_slice(&value.to_le_bytes());
    *at += 8;
}

fn put_changes(buf: &mut [u8], at: &mut usize, old: &Slot, new: &Slot) {
    if old.id != new.id {
        put(buf, at, 3, 0x39, new.id);
    }
    if old.x != new.x {
        put(buf, at, 3, 0x35, new.x as i32);
    }
    if old.y != new.y {
        put(buf, at, 3, 0x36, new.y as i32);
    }
    if old.pressure != new.pressure {
        put(buf, at, 3, 0x3a, new.pressure as i32);
    }
    if old.major != new.major {
        put(buf, at, 3, 0x30, new.major as i32);
    }
    if old.minor != new.minor {
        put(buf, at, 3, 0x31, new.minor as i32);
    }
}

/// What the display is told before all contact events.
fn put_touch(buf: &mut [u8], at: &mut usize, was: &Display, is: &Display) {
    if was.touch != is.touch {
        put(buf, at, 1, 0x14a, is.touch as i32);
    }
}

/// What it is told behind them.
fn put_display(buf: &mut [u8], at: &mut usize, was: &Display, is: &Display) {
    if was.tool != is.tool && was.tool != 0 {
        put(buf, at, 1, was.tool, 0);
    }
    if was.tool != is.tool && is.tool != 0 {
        put(buf, at, 1, is.tool, 1);
    }
    if was.x != is.x {
        put(buf, at, 3, 0, is.x as i32);
    }
    if was.y != is.y {
        put(buf, at, 3, 1, is.y as i32);
    }
}

/// The contact events; the last slot written.
fn put_slots(buf: &mut [u8], at: &mut usize, old: &Table, new: &Table, current: usize, others: u32) -> usize {
    let mut last = current;
    put_changes(buf, at, &old[current], &new[current]);
    let mut left = others;
    while left != 0 {
        let s = left.trailing_zeros() as usize;
        left &= left - 1;
        put(buf, at, 3, 0x2f, s as i32);
        put_changes(buf, at, &old[s], &new[s]);
        last = s;
    }
    last
}

fn refused(state: State, number: u64, need: usize) -> Written {
    Written { state, outcome: Err(Refused { number, need }) }
}

#[inline(never)]
fn write(state: State, frame: &[i32], buf: &mut [u8], at: usize) -> Written {
    if !state.well_formed() {
        return refused(state, 2, 0);
    }
    if frame.len() != PER_SLOT * state.setup.n as usize {
        return refused(state, 3, 0);
    }
    if !values_ok(&state.setup, frame) {
        return refused(state, 4, 0);
    }
    let old = state.table;
    let (new, counter) = plan(&state, frame);
    let (changed, numbers) = tally(&old, &new);
    let current = state.current as usize;
    let others = changed & !(1 << current);
    let (ranks, display) = move_on(&state, &new);
    let told = state.display().events(&display);
    let count = if numbers == 0 { 0 } else { 1 + numbers + others.count_ones() as usize + told };
    let need = 8 * count;
    if at > buf.len() || buf.len() - at < need {
        return refused(state, 5, need);
    }
    let mut last = current;
    if count != 0 {
        let mut to = at;
        put_touch(buf, &mut to, &state.display(), &display);
        last = put_slots(buf, &mut to, &old, &new, current, others);
        put_display(buf, &mut to, &state.display(), &display);
        put(buf, &mut to, 0, 0, 0);
    }
    let mut state = State { current: last as u32, counter, table: new, ranks, ..state };
    state.show(display);
    Written { state, outcome: Ok(Sent { count, changed }) }
}

pub struct Copies;

impl Writer for Copies {
    fn write(state: &mut State, frame: &[i32], buf: &mut [u8], at: usize) -> Result<Sent, Refused> {
        let written = write(*state, frame, buf, at);
        *state = written.state;
        written.outcome
    }
}
