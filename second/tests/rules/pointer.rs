//! K6, pointer emulation: the kept examples worked out by hand, each rule, and a display that hears nothing but the events.

use std::collections::BTreeMap;
use std::fs;
use std::path::PathBuf;

use crate::common::{panel, slot, write, writer};
use second::events::*;
use second::pointer::{Pointer, Told};
use second::programs::{run, WITH_POINTER};
use second::random::Random;
use second::records;
use second::refusal::Refusal;
use second::streams::Status;
use second::table::{Setup, Slot, SLOTS, SLOT_NUMBERS, X, Y};
use second::writer::{Writer, Written, LARGEST_FRAME};

/// The display's names for what a text of records has by its numbers.
const NAMES: [(&str, &str); 8] = [
    ("TOUCH", "EVENT 1 330"),
    ("ONE", "EVENT 1 325"),
    ("TWO", "EVENT 1 333"),
    ("THREE", "EVENT 1 334"),
    ("FOUR", "EVENT 1 335"),
    ("FIVE", "EVENT 1 328"),
    ("ABS_X", "EVENT 3 0"),
    ("ABS_Y", "EVENT 3 1"),
];

/// Events that stand between commas, as the text of records has them.
fn in_numbers(events: &str) -> Vec<String> {
    let long = |event: &str| match event.split_once(' ') {
        Some((name, value)) => NAMES
            .iter()
            .find(|(short, _)| *short == name)
            .map_or(event.to_string(), |(_, numbers)| format!("{numbers} {value}")),
        None => event.to_string(),
    };
    events.split(", ").filter(|event| !event.is_empty()).map(long).collect()
}

/// A writer with the option on: the slots, what was told and the ranks.
fn pointing(current: u64, counter: u32, slots: &[Slot], told: (u16, u32, u32), ranks: &[u8]) -> Writer {
    let mut writer = writer(current, counter, slots);
    let (tool, x, y) = told;
    writer.pointer = Pointer { on: true, told: Told { touch: u8::from(tool != 0), tool, x, y }, ..Pointer::OFF };
    writer.pointer.ranks[..ranks.len()].copy_from_slice(ranks);
    assert!(writer.is_well_formed());
    writer
}

/// What a frame is sent as, and the ranks of the first slots afterwards.
fn check(writer: &mut Writer, frame: &[i32], events: &str, ranks: &[u8]) {
    let (sent, written) = write(writer, frame).unwrap();
    assert_eq!(sent, in_numbers(events));
    assert_eq!(written.events as usize, sent.len());
    assert_eq!(writer.pointer.ranks[..ranks.len()], *ranks);
    assert!(writer.pointer.ranks[ranks.len()..].iter().all(|rank| *rank == 0));
    assert!(writer.is_well_formed());
}

fn file(case: &str, part: &str) -> Vec<u8> {
    let folder = PathBuf::from(env!("CARGO_MANIFEST_DIR")).join("../examples/write_frames");
    fs::read(folder.join(format!("pointer_{case}.{part}"))).unwrap()
}

/// A kept example, its setup, and by hand what each of its frames is sent as.
fn example(case: &str, setup: &str, frames: &[&str]) {
    let (mut out, mut err) = (Vec::new(), Vec::new());
    assert_eq!(run(WITH_POINTER, &file(case, "in")[..], &mut out, &mut err), Some(Status::Accepted));
    assert_eq!((&out, &err), (&file(case, "out"), &Vec::new()));
    assert_eq!(file(case, "args"), b"--pointer\n");
    let mut text = Vec::new();
    records::decode(&out[..], &mut text, std::io::sink(), false);
    let expected: Vec<String> = frames.iter().flat_map(|events| in_numbers(events)).collect();
    assert_eq!(String::from_utf8(text).unwrap(), format!("SETUP {setup}\n{}\n", expected.join("\n")));
}

#[test]
fn first_at_zero() {
    let frames = ["TOUCH 1, ID 0, PRESSURE 30, ONE 1, REPORT", "Y 7, ABS_Y 7, REPORT"];
    example("first_at_zero", "2 4000 4000 255 255 255", &frames);
}

#[test]
fn one_to_six() {
    example(
        "one_to_six",
        "6 4000 4000 255 255 255",
        &[
            "TOUCH 1, ID 0, X 100, Y 200, PRESSURE 30, ONE 1, ABS_X 100, ABS_Y 200, REPORT",
            "SLOT 1, ID 1, X 300, Y 400, PRESSURE 30, ONE 0, TWO 1, REPORT",
            "SLOT 2, ID 2, X 500, Y 600, PRESSURE 30, TWO 0, THREE 1, REPORT",
            "SLOT 3, ID 3, X 700, Y 800, PRESSURE 30, THREE 0, FOUR 1, REPORT",
            "SLOT 4, ID 4, X 900, Y 1000, PRESSURE 30, FOUR 0, FIVE 1, REPORT",
            "SLOT 5, ID 5, X 1100, Y 1200, PRESSURE 30, REPORT",
            "ID -1, SLOT 2, ID -1, SLOT 3, ID -1, SLOT 4, ID -1, FIVE 0, TWO 1, REPORT",
        ],
    );
}

/// Slot 1 began first; slots 0 and 2 began together, so the lower of them comes next.
#[test]
fn oldest_lifts() {
    example(
        "oldest_lifts",
        "3 4000 4000 255 255 255",
        &[
            "TOUCH 1, SLOT 1, ID 0, X 300, Y 400, PRESSURE 30, ONE 1, ABS_X 300, ABS_Y 400, REPORT",
            "SLOT 0, ID 1, X 100, Y 200, PRESSURE 30, SLOT 2, ID 2, X 500, Y 600, PRESSURE 30, ONE 0, THREE 1, REPORT",
            "SLOT 0, X 101, REPORT",
            "SLOT 1, ID -1, THREE 0, TWO 1, ABS_X 101, ABS_Y 200, REPORT",
            "SLOT 0, ID -1, TWO 0, ONE 1, ABS_X 500, ABS_Y 600, REPORT",
        ],
    );
}

/// Alone, a replacing contact is followed; beside another it began later, and both at once are a tie.
#[test]
fn replaced() {
    example(
        "replaced",
        "2 4000 4000 255 255 255",
        &[
            "TOUCH 1, ID 0, X 100, Y 200, PRESSURE 30, ONE 1, ABS_X 100, ABS_Y 200, REPORT",
            "ID 1, REPORT",
            "SLOT 1, ID 2, X 300, Y 400, PRESSURE 30, ONE 0, TWO 1, REPORT",
            "SLOT 0, ID 3, ABS_X 300, ABS_Y 400, REPORT",
            "X 101, SLOT 1, Y 401, ABS_Y 401, REPORT",
            "ID 5, SLOT 0, ID 4, ABS_X 101, ABS_Y 200, REPORT",
        ],
    );
}

/// Another slot's contact lands where the pointer stands, and then one lands as it lifts.
#[test]
fn all_lift() {
    example(
        "all_lift",
        "2 4000 4000 255 255 255",
        &[
            "TOUCH 1, ID 0, X 100, Y 200, PRESSURE 30, SLOT 1, ID 1, X 300, Y 400, PRESSURE 30, \
             TWO 1, ABS_X 100, ABS_Y 200, REPORT",
            "TOUCH 0, ID -1, SLOT 0, ID -1, TWO 0, REPORT",
            "TOUCH 1, SLOT 1, ID 2, X 100, Y 200, ONE 1, REPORT",
            "ID -1, SLOT 0, ID 3, X 500, Y 600, ABS_X 500, ABS_Y 600, REPORT",
        ],
    );
}

#[test]
fn fresh_states() {
    for on in [false, true] {
        let fresh = Writer::fresh(panel(2), on).unwrap();
        assert_eq!(fresh.pointer, Pointer { on, told: Told { touch: 0, tool: 0, x: 0, y: 0 }, ranks: [0; SLOTS] });
        assert!(fresh.is_well_formed());
        assert_eq!(Writer::fresh(panel(33), on), Err(Refusal::Setup));
    }
    assert_eq!(Writer::ZEROS.pointer, Pointer::fresh(false));
}

const UNUSED: Slot = Slot::UNUSED;

/// Three contacts, the oldest in slot 2: what each may do to the ranks.
#[test]
fn ranks_by_hand() {
    let contacts = [slot(0, 1, 1, 9), slot(1, 2, 2, 9), slot(2, 3, 3, 9), UNUSED];
    let three = || pointing(0, 3, &contacts, (0x14e, 3, 3), &[2, 1, 0, 0]);
    let rows = [[1, 1, 1, 9, 0, 0], [1, 2, 2, 9, 0, 0], [1, 3, 3, 9, 0, 0], [0, 0, 0, 0, 0, 0]];
    let with = |kinds: [i32; 4]| -> Vec<i32> {
        rows.iter().zip(kinds).flat_map(|(row, kind)| [&[kind], &row[1..]].concat()).collect()
    };
    let new = |mut frame: Vec<i32>| {
        frame[19..22].copy_from_slice(&[4, 4, 9]);
        frame
    };
    check(&mut three(), &with([1, 1, 1, 0]), "", &[2, 1, 0, 0]);
    // The one between them lifts: the gap is closed.
    check(&mut three(), &with([1, 0, 1, 0]), "SLOT 1, ID -1, THREE 0, TWO 1, REPORT", &[1, 0, 0, 0]);
    // One lands, alone and as the one between them lifts.
    let lands = "SLOT 3, ID 3, X 4, Y 4, PRESSURE 9";
    check(&mut three(), &new(with([1, 1, 1, 1])), &format!("{lands}, THREE 0, FOUR 1, REPORT"), &[2, 1, 0, 3]);
    check(&mut three(), &new(with([1, 0, 1, 1])), &format!("SLOT 1, ID -1, {lands}, REPORT"), &[1, 0, 0, 2]);
    // A replaced one is the youngest, and shares its rank with one that lands.
    check(&mut three(), &with([1, 1, 2, 0]), "SLOT 2, ID 3, ABS_X 2, ABS_Y 2, REPORT", &[1, 0, 2, 0]);
    check(
        &mut three(),
        &new(with([1, 1, 2, 2])),
        "SLOT 2, ID 3, SLOT 3, ID 4, X 4, Y 4, PRESSURE 9, THREE 0, FOUR 1, ABS_X 2, ABS_Y 2, REPORT",
        &[1, 0, 2, 2],
    );
    check(&mut three(), &with([2, 1, 1, 0]), "ID 3, REPORT", &[2, 1, 0, 0]);
    // All are replaced: a tie.
    check(
        &mut three(),
        &with([2, 2, 2, 0]),
        "ID 3, SLOT 1, ID 4, SLOT 2, ID 5, ABS_X 1, ABS_Y 1, REPORT",
        &[0, 0, 0, 0],
    );
    check(
        &mut three(),
        &with([0, 0, 0, 0]),
        "TOUCH 0, ID -1, SLOT 1, ID -1, SLOT 2, ID -1, THREE 0, REPORT",
        &[0, 0, 0, 0],
    );
}

/// A writer of two contacts, the older in slot 1.
fn two() -> Writer {
    pointing(0, 2, &[slot(1, 100, 200, 30), slot(0, 300, 400, 30)], (0x14d, 300, 400), &[1, 0])
}

const SAME: [i32; 12] = [1, 100, 200, 30, 0, 0, 1, 300, 400, 30, 0, 0];

/// Each number that is held for the display, broken by itself: refusal 2, and the state as it came.
#[test]
fn states_that_are_not_well_formed() {
    type Break = fn(&mut Pointer);
    let breaks: [Break; 17] = [
        |pointer| pointer.on = false,
        |pointer| pointer.told.touch = 0,
        |pointer| pointer.told.touch = 2,
        |pointer| pointer.told.tool = 0x145,
        |pointer| pointer.told.tool = 0x14e,
        |pointer| pointer.told.tool = 0,
        |pointer| pointer.told.x = 100,
        |pointer| pointer.told.x = 301,
        |pointer| pointer.told.y = 200,
        |pointer| pointer.ranks = [0; SLOTS],
        |pointer| pointer.ranks[0] = 2,
        |pointer| pointer.ranks[0] = 32,
        |pointer| pointer.ranks[0] = 255,
        |pointer| pointer.ranks[1] = 1,
        |pointer| pointer.ranks.swap(0, 1),
        |pointer| pointer.ranks[2] = 1,
        |pointer| pointer.ranks[31] = 1,
    ];
    for (i, change) in breaks.into_iter().enumerate() {
        let mut broken = two();
        change(&mut broken.pointer);
        let before = broken.clone();
        assert!(!broken.is_well_formed(), "break {i}");
        // Before 3, 4 and 5.
        assert_eq!(broken.write(&[3], &mut [], 9), Err(Refusal::State));
        assert_eq!(broken, before);
    }
}

/// Ties are well formed, and the lower slot of one is followed.
#[test]
fn ties() {
    let contacts = [slot(1, 100, 200, 30), slot(0, 300, 400, 30)];
    pointing(0, 2, &contacts, (0x14d, 100, 200), &[0, 0]);
    let mut higher = two();
    higher.pointer.ranks = [0; SLOTS];
    assert!(!higher.is_well_formed());
    higher.pointer.told = Told { x: 100, y: 200, ..higher.pointer.told };
    assert!(higher.is_well_formed());
}

/// With no contact X and Y are anywhere in range, each by its own largest value.
#[test]
fn still_in_range() {
    let setup = Setup { slots: 1, largest: [4000, 3000, 255, 255, 255] };
    let mut still = Writer::fresh(setup, true).unwrap();
    for (x, y, is_good) in [(4000, 3000, true), (0, 3000, true), (4001, 0, false), (0, 3001, false), (0, 4000, false)] {
        still.pointer.told = Told { x, y, ..Told::NOTHING };
        assert_eq!(still.is_well_formed(), is_good, "{x} {y}");
    }
    for told in [Told { touch: 1, ..Told::NOTHING }, Told { tool: 0x145, ..Told::NOTHING }] {
        still.pointer.told = told;
        assert!(!still.is_well_formed());
    }
}

/// With the option off one number that is not 0 is enough, with contacts and without.
#[test]
fn off_means_zeros() {
    for slots in [vec![UNUSED], vec![slot(0, 100, 200, 30)]] {
        let good = writer(0, 1, &slots);
        assert!(good.is_well_formed());
        let numbers = [
            Told { touch: 1, ..Told::NOTHING },
            Told { tool: 0x145, ..Told::NOTHING },
            Told { x: 100, ..Told::NOTHING },
            Told { y: 200, ..Told::NOTHING },
        ];
        for told in numbers {
            let pointer = Pointer { told, ..Pointer::OFF };
            assert!(!Writer { pointer, ..good.clone() }.is_well_formed());
        }
        for s in 0..SLOTS {
            let mut ranked = good.clone();
            ranked.pointer.ranks[s] = 1;
            assert!(!ranked.is_well_formed());
        }
    }
}

/// The need and the count have the emulated events, and no byte moves where there is no room.
#[test]
fn room() {
    // SLOT 1, ID -1, two tools, X, Y and the report.
    let lifts: Vec<i32> = [&SAME[..6], &[0; 6]].concat();
    for (size, position) in [(55, 0), (24, 0), (58, 3), (0, 0), (56, 57)] {
        let (mut writer, mut buffer) = (two(), vec![7; size]);
        assert_eq!(writer.write(&lifts, &mut buffer, position), Err(Refusal::NoRoom { need: 56 }));
        assert_eq!((writer, buffer), (two(), vec![7; size]));
    }
    let (mut writer, mut buffer) = (two(), vec![7; 60]);
    assert_eq!(writer.write(&lifts, &mut buffer, 3), Ok(Written { events: 7, changed: 2 }));
    assert_eq!((&buffer[..3], &buffer[59..]), (&[7; 3][..], &[7][..]));
    // Nothing needs no room.
    assert_eq!(two().write(&SAME, &mut [], 0), Ok(Written::ZEROS));
}

/// A refused frame leaves what was told, though the oldest would lift in it.
#[test]
fn refused_frames() {
    let mut lifts: Vec<i32> = [&SAME[..6], &[0; 6]].concat();
    lifts[3] = 0;
    let mut writer = two();
    assert_eq!(write(&mut writer, &lifts), Err(Refusal::Value));
    assert_eq!(write(&mut writer, &lifts[..11]), Err(Refusal::Frame));
    assert_eq!(writer, two());
}

/// Each number of contacts has its tool, and five have that of all above.
#[test]
fn tools_of_every_number_of_contacts() {
    let setup = panel(SLOTS as u64);
    for count in 1..=SLOTS {
        let mut writer = Writer::fresh(setup, true).unwrap();
        let frame = [[1, 5, 6, 7, 0, 0].repeat(count), [0; 6].repeat(SLOTS - count)].concat();
        let (sent, _) = write(&mut writer, &frame).unwrap();
        let name = ["ONE 1", "TWO 1", "THREE 1", "FOUR 1", "FIVE 1"][count.min(5) - 1];
        let behind = format!("{name}, ABS_X 5, ABS_Y 6, REPORT");
        assert_eq!(sent[sent.len() - 4..], in_numbers(&behind)[..]);
        assert_eq!(sent[0], "EVENT 1 330 1");
    }
}

/// A frame that moves a few contacts; with few places, so that many land where one was.
fn any_frame(random: &mut Random, writer: &Writer) -> Vec<i32> {
    let mut frame = Vec::new();
    let calm = random.from_to(1, 6);
    let lift_all = random.once_in(12);
    for old in &writer.table[..writer.setup.slots as usize] {
        let is_live = old.id.is_live();
        let stays = !random.once_in(calm);
        let kind = match random.below(6) {
            _ if lift_all => 0,
            _ if stays => i32::from(is_live),
            0 | 1 => 0,
            2 => 2,
            _ => 1,
        };
        let numbers = if stays && is_live {
            old.numbers.map(|number| number as i32)
        } else {
            [random.below(3) as i32, random.below(3) as i32, 1, 0, 0]
        };
        frame.push(kind);
        frame.extend(numbers);
    }
    frame
}

/// What a display knows that hears nothing but the events: each button and place by type and code.
#[derive(Default)]
struct Display(BTreeMap<(u16, u16), i32>);

impl Display {
    fn hear(&mut self, event: Event) {
        let old = self.0.insert((event.kind, event.code), event.value).unwrap_or(0);
        let is_its = event.kind == 1 || (event.kind, event.code) == (3, 0) || (event.kind, event.code) == (3, 1);
        assert!(!is_its || old != event.value, "{event:?} is no change");
    }

    fn at(&self, kind: u16, code: u16) -> i32 {
        self.0.get(&(kind, code)).copied().unwrap_or(0)
    }
}

/// From fresh states, over many frames and widths: the display knows the earliest contact, as one finds it who wrote down in which frame each began; and but for its own events all is as with the option off.
#[test]
fn a_display_follows_the_earliest_contact() {
    let mut random = Random::new(6);
    for n in [1, 2, 3, 5, 6, 7, 9, 32] {
        let setup = Setup { slots: n, largest: [2, 2, 1, 1, 1] };
        let (mut on, mut off) = (Writer::fresh(setup, true).unwrap(), Writer::fresh(setup, false).unwrap());
        let mut display = Display::default();
        let mut began = [0; SLOTS];
        let mut place = (0, 0);
        for k in 1..600 {
            let frame = any_frame(&mut random, &on);
            let before = on.clone();
            let (mut buffer, mut plain) = ([0; LARGEST_FRAME], [0; LARGEST_FRAME]);
            let written = on.write(&frame, &mut buffer, 0).unwrap();
            let without = off.write(&frame, &mut plain, 0).unwrap();
            let sent: Vec<Event> = events(&buffer[..written.events as usize * RECORD]).collect();
            let is_contacts = |event: &&Event| event.kind == 0 || event.kind == 3 && event.code > 1;
            let contacts: Vec<u8> = sent.iter().filter(is_contacts).flat_map(|event| event.to_bytes()).collect();
            assert_eq!(contacts, plain[..without.events as usize * RECORD]);
            assert_eq!(Writer { pointer: Pointer::OFF, ..on.clone() }, off);
            assert_eq!(written.changed, without.changed);

            for (s, wanted) in frame.chunks_exact(SLOT_NUMBERS).enumerate() {
                if wanted[0] == 2 || wanted[0] == 1 && !before.table[s].id.is_live() {
                    began[s] = k;
                }
            }
            let live: Vec<usize> = (0..SLOTS).filter(|s| on.table[*s].id.is_live()).collect();
            if let Some(s) = live.iter().copied().min_by_key(|s| (began[*s], *s)) {
                place = (on.table[s].numbers[X] as i32, on.table[s].numbers[Y] as i32);
            }
            sent.iter().for_each(|event| display.hear(*event));
            assert_eq!(display.at(1, 0x14a), i32::from(!live.is_empty()));
            let tool = [0, 0x145, 0x14d, 0x14e, 0x14f, 0x148][live.len().min(5)];
            let down: Vec<u16> =
                [0x145, 0x14d, 0x14e, 0x14f, 0x148].into_iter().filter(|code| display.at(1, *code) == 1).collect();
            assert_eq!(down, [tool][usize::from(live.is_empty())..]);
            assert_eq!((display.at(3, 0), display.at(3, 1)), place);

            assert!(on.is_well_formed());
            let mut frames: Vec<i32> = live.iter().map(|s| began[*s]).collect();
            frames.sort_unstable();
            frames.dedup();
            let rank = |s: usize| frames.iter().position(|frame| live.contains(&s) && *frame == began[s]).unwrap_or(0);
            assert!((0..SLOTS).all(|s| usize::from(on.pointer.ranks[s]) == rank(s)), "frame {k}: {on:?}");
        }
    }
}
