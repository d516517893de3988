//! Wrong programs that a comparison must notice: each answers some call of a short random script otherwise than the rules do.
//!
//! `cargo test --test mistakes -- --nocapture` prints after how many calls each is noticed.

mod anonymous;
mod commands;
mod force;
mod frames;
mod gloves;
mod headers;
mod lines;
mod loads;
mod losses;
mod pairing;
mod pieces;
mod pods;
mod pointer;
mod pressures;
mod recorder;
mod records;
mod sent;
mod skips;
mod slow_panel;
mod slow_writer;
mod states;
mod wide;
mod wrong;

use second::maker::Maker;
use second::requests::Request;
use second::script::{answer_line, Call};
use second::table::Layout;
use wrong::{Asked, Wrong};

/// A quarter of the calls that the gate compares, so that chance alone hides none of them there.
const ROUNDS: usize = 75_000;
/// In each of these scripts every mistake must be noticed.
const SEEDS: [u64; 3] = [1, 2, 3];

/// The calls that a group of wrong programs is tried on.
#[derive(Clone, Copy)]
enum On {
    All,
    Readers(Layout),
}

impl On {
    fn has(self, call: Option<&Call>) -> bool {
        match self {
            On::All => true,
            On::Readers(layout) => call.is_some_and(|call| call.layout() == Some(layout)),
        }
    }
}

/// Wrong programs of one kind. For each: after how many calls it is noticed, once it is.
struct Group {
    name: String,
    on: On,
    wrongs: Vec<Wrong>,
    after: Vec<Option<usize>>,
}

impl Group {
    fn new(name: impl Into<String>, on: On, wrongs: Vec<Wrong>) -> Group {
        let after = vec![None; wrongs.len()];
        Group { name: name.into(), on, wrongs, after }
    }

    /// Mistakes of readers, tried on the calls of the panel's reader or on those of the cranes'.
    fn of_readers(name: &str, layout: Layout, wrongs: Vec<Wrong>) -> Group {
        Group::new(format!("{name} ({layout:?})"), On::Readers(layout), wrongs)
    }

    fn is_noticed(&self) -> bool {
        self.after.iter().all(Option::is_some)
    }

    fn look(&mut self, round: usize, asked: &Asked) {
        if !self.on.has(asked.call) {
            return;
        }
        for (wrong, after) in self.wrongs.iter().zip(&mut self.after) {
            if after.is_none() && wrong.shows(asked) {
                *after = Some(round);
            }
        }
    }
}

fn groups() -> Vec<Group> {
    let mut groups = vec![
        Group::new("lines", On::All, lines::all()),
        Group::new("writer's states", On::All, states::of_writers()),
        Group::new("frames", On::All, frames::all()),
        Group::new("pressures", On::All, pressures::of_writers()),
        Group::new("gloves", On::All, gloves::of_writers()),
        Group::of_readers("gloves", Layout::Crane, gloves::of_cranes()),
        Group::new("wide", On::All, wide::of_writers()),
        Group::of_readers("wide", Layout::Panel, wide::of_readers()),
        Group::of_readers("wide", Layout::Crane, wide::of_cranes()),
        Group::new("pieces", On::All, pieces::all()),
        Group::new("sent", On::All, sent::all()),
        Group::new("pods", On::All, pods::all()),
        Group::new("recorder", On::All, recorder::all()),
        Group::new("force", On::All, force::all()),
        Group::new("commands", On::All, commands::all()),
        Group::new("pointer", On::All, pointer::of_writers()),
        Group::new("anonymous", On::All, anonymous::all()),
    ];
    for layout in Layout::ALL {
        groups.extend([
            Group::of_readers("reader's states", layout, states::of_readers(layout)),
            Group::of_readers("records", layout, records::all(layout)),
            Group::of_readers("losses", layout, losses::all()),
            Group::of_readers("skips", layout, skips::all(layout)),
            Group::of_readers("loads", layout, loads::all(layout)),
            Group::of_readers("pressures", layout, pressures::of_readers()),
            Group::of_readers("pointer", layout, pointer::of_readers()),
        ]);
    }
    groups
}

/// Tries them on a seed's script, which is made once for all of them, until each mistake is noticed.
fn try_all(groups: &mut [Group], seed: u64) {
    let mut maker = Maker::with(seed, Request::ALL);
    for round in 1..=ROUNDS {
        if groups.iter().all(Group::is_noticed) {
            break;
        }
        let line = maker.next_line();
        let call = Call::parse(line.as_bytes());
        let right = answer_line(line.as_bytes());
        let asked = Asked { line: &line, call: call.as_ref(), right: &right };
        groups.iter_mut().for_each(|group| group.look(round, &asked));
    }
}

/// The groups, each with the most calls that a mistake took in any script; `None` where some script does not show it.
fn slowest_of_all() -> Vec<Group> {
    let tried = std::thread::scope(|scope| {
        let seeds = SEEDS.map(|seed| {
            scope.spawn(move || {
                let mut groups = groups();
                try_all(&mut groups, seed);
                groups.into_iter().map(|group| group.after).collect::<Vec<_>>()
            })
        });
        seeds.map(|seed| seed.join().expect("a seed's script"))
    });
    let mut groups = groups();
    for (i, group) in groups.iter_mut().enumerate() {
        for (j, after) in group.after.iter_mut().enumerate() {
            let rounds: Option<Vec<usize>> = tried.iter().map(|by_seed| by_seed[i][j]).collect();
            *after = rounds.and_then(|rounds| rounds.into_iter().max());
        }
    }
    groups
}

/// Prints each group, the slowest to be noticed first.
#[test]
fn each_is_noticed() {
    let mut missed = Vec::new();
    for Group { name, wrongs, after, .. } in slowest_of_all() {
        let mut noticed: Vec<(usize, &str)> = Vec::new();
        for (wrong, after) in wrongs.iter().zip(after) {
            match after {
                Some(rounds) => noticed.push((rounds, &wrong.name)),
                None => missed.push(format!("{name}: {}", wrong.name)),
            }
        }
        noticed.sort_by(|a, b| b.cmp(a));
        for (rounds, wrong) in &noticed {
            println!("{name}: noticed after {rounds:>6} calls: {wrong}");
        }
        println!("{name}: {} of {} wrong programs are noticed", noticed.len(), wrongs.len());
    }
    assert!(missed.is_empty(), "in {ROUNDS} calls not noticed: {missed:#?}");
}

#[test]
fn of_headers() {
    for wrong in headers::all() {
        let noticed = SEEDS.iter().map(|seed| wrong.noticed(*seed)).collect::<Option<Vec<u64>>>();
        println!("headers: noticed in inputs {noticed:?}: {}", wrong.name);
        assert!(noticed.is_some(), "in {} inputs not noticed: {}", headers::INPUTS, wrong.name);
    }
}

/// Without a mistake the ways to answer wrongly answer right; else what is noticed might be theirs.
#[test]
fn without_a_mistake_nothing_is_noticed() {
    let mut right = vec![
        wrong::takes("calls", |_| {}),
        wrong::says("words", |_, _| {}),
        wrong::steps("records", wrong::right_step),
        wrong::pods("pods", |pod, byte| pod.take(byte)),
        wrong::cuts("pieces", |pieces, piece| pieces.take(piece)),
        slow_writer::writes("frames", |_| {}),
    ];
    right.extend(recorder::right());
    right.extend(force::right());
    right.extend(commands::right());
    right.extend(pointer::right());
    right.extend(anonymous::right());
    let mut groups = [Group::new("right", On::All, right)];
    try_all(&mut groups, 4);
    let [Group { after, .. }] = groups;
    assert_eq!(after, vec![None; after.len()]);
}
