//! K1: touch sizes in frames, records and loads, and the cranes' reader, which skips them.

use crate::common::*;
use second::events::*;
use second::maker::Maker;
use second::random::Random;
use second::reader::{Asked, Mode, Ran, Reader};
use second::refusal::Refusal;
use second::script::Call;
use second::table::{Layout, Setup, Slot, SlotNumber, Table, LIMITS, MAJOR, MINOR, NUMBERS, PRESSURE};
use second::writer::{Writer, LARGEST_FRAME};

fn sent(writer: &mut Writer, frame: &[i32]) -> Vec<String> {
    write(writer, frame).unwrap().0
}

fn glove() -> Writer {
    writer(0, 1, &[sized(0, 100, 200, 30, 9, 7)])
}

#[test]
fn a_glove_lands() {
    let mut writer = Writer::fresh(panel(1), false).unwrap();
    let events = sent(&mut writer, &[1, 100, 200, 30, 9, 7]);
    assert_eq!(events, ["ID 0", "X 100", "Y 200", "PRESSURE 30", "MAJOR 9", "MINOR 7", "REPORT"]);
    assert_eq!(writer, glove());
}

#[test]
fn only_its_sizes_change() {
    for (frame, events) in [
        ([1, 100, 200, 30, 10, 8], &["MAJOR 10", "MINOR 8", "REPORT"][..]),
        ([1, 100, 200, 30, 10, 7], &["MAJOR 10", "REPORT"]),
        ([1, 100, 200, 30, 9, 8], &["MINOR 8", "REPORT"]),
        ([1, 100, 200, 30, 0, 0], &["MAJOR 0", "MINOR 0", "REPORT"]),
        ([1, 100, 200, 30, 7, 9], &["MAJOR 7", "MINOR 9", "REPORT"]),
        ([1, 100, 200, 30, 9, 7], &[]),
    ] {
        let mut writer = glove();
        assert_eq!(sent(&mut writer, &frame), events);
        assert_eq!(writer.table[0].numbers, [100, 200, 30, frame[4] as u32, frame[5] as u32]);
    }
    // Of a slot that is not current, ABS_MT_SLOT goes in front.
    let mut writer = writer(1, 1, &[sized(0, 100, 200, 30, 9, 7), slot(-1, 0, 0, 0)]);
    assert_eq!(
        sent(&mut writer, &[1, 100, 200, 30, 10, 8, 0, 0, 0, 0, 0, 0]),
        ["SLOT 0", "MAJOR 10", "MINOR 8", "REPORT"]
    );
}

#[test]
fn a_lift_keeps_the_sizes() {
    for junk in [[0, 0, 0, 0, 0], [1, 1, 1, 256, -1], [100, 200, 30, 9, 7]] {
        let mut writer = glove();
        assert_eq!(sent(&mut writer, &[&[0], &junk[..]].concat()), ["ID -1", "REPORT"]);
        assert_eq!(writer.table[0], sized(-1, 100, 200, 30, 9, 7));
    }
}

#[test]
fn a_landing_with_equal_sizes_does_not_send_them() {
    let mut lifted = writer(0, 1, &[sized(-1, 100, 200, 30, 9, 7)]);
    assert_eq!(sent(&mut lifted.clone(), &[1, 5, 200, 30, 9, 7]), ["ID 1", "X 5", "REPORT"]);
    assert_eq!(sent(&mut lifted, &[1, 100, 200, 30, 9, 8]), ["ID 1", "MINOR 8", "REPORT"]);
    assert_eq!(sent(&mut glove(), &[2, 100, 200, 30, 9, 7]), ["ID 1", "REPORT"]);
    assert_eq!(sent(&mut glove(), &[2, 100, 200, 30, 8, 7]), ["ID 1", "MAJOR 8", "REPORT"]);
}

/// The least size is 0, and the largest that of the setup.
#[test]
fn sizes_out_of_their_range() {
    let mut small = glove();
    small.setup.largest = [4000, 4000, 255, 9, 7];
    for (major, minor, is_good) in
        [(0, 0, true), (9, 7, true), (10, 7, false), (9, 8, false), (-1, 0, false), (0, -1, false), (256, 0, false)]
    {
        for kind in [1, 2] {
            let written = write(&mut small.clone(), &[kind, 100, 200, 30, major, minor]);
            assert_eq!(written.is_ok(), is_good, "{major} {minor}");
            assert!(is_good || written == Err(Refusal::Value));
        }
    }
    assert_eq!(write(&mut glove(), &[1, 100, 200, 30, 256, 0]), Err(Refusal::Value));
    assert_eq!(write(&mut glove(), &[1, 100, 200, 30, 0, 256]), Err(Refusal::Value));
    for length in [4, 5, 7, 12] {
        assert_eq!(write(&mut glove(), &[1; 12][..length]), Err(Refusal::Frame));
    }
}

#[test]
fn largest_sizes_out_of_their_range() {
    for (i, largest, is_good) in [(MAJOR, 0, false), (MAJOR, 1, true), (MINOR, 255, true), (MINOR, 256, false)] {
        let mut setup = panel(1);
        setup.largest[i] = largest;
        assert_eq!(Writer::fresh(setup, false).is_ok(), is_good);
        assert_eq!(Reader::fresh(Layout::Panel, setup).is_ok(), is_good);
        // A crane does not know of them.
        assert!(Reader::fresh(Layout::Crane, setup.known_to(Layout::Crane)).is_ok());
    }
}

#[test]
fn sizes_are_read_loaded_and_asked_for() {
    let mut reader = following(0, &[slot(0, 100, 200, 30)]);
    let sizes = [Event::abs(0x30, 9), Event::abs(0x31, 7), Event::REPORT];
    assert_eq!(reader.run(&bytes(&sizes)), Ok(Ran { shown: 1, ..Ran::NOTHING }));
    assert_eq!(reader.ask(SlotNumber(0)), Ok(Asked::Contact(sized(0, 100, 200, 30, 9, 7))));
    for bad in [Event::abs(0x30, 256), Event::abs(0x31, -1)] {
        let mut lost = reader.clone();
        assert_eq!(lost.one(bad), Ok(Ran { bad: 1, ..Ran::NOTHING }));
        assert_eq!(lost, Reader { mode: Mode::Dropped, ..reader.clone() });
    }
    let mut stale = Reader { mode: Mode::Stale, ..following(0, &[slot(-1, 0, 0, 0)]) };
    for image in [&[0, 100, 200, 30][..], &[0, 100, 200, 30, 9, 256], &[0, 100, 200, 30, -1, 7]] {
        assert_eq!(stale.load(image, SlotNumber(0)), Err(Refusal::Image));
    }
    stale.load(&[0, 100, 200, 30, 9, 7], SlotNumber(0)).unwrap();
    assert_eq!(stale, reader);
}

#[test]
fn a_crane_skips_sizes_of_any_value() {
    let before = crane(0, &[slot(0, 100, 200, 30)]);
    for (code, value) in [(0x30, 9), (0x31, 7), (0x30, 256), (0x31, -1), (0x30, i32::MIN)] {
        let mut reader = before.clone();
        let skipped = Ran { unknown_code: 1, first_skipped: Some((3, code)), ..Ran::NOTHING };
        assert_eq!(reader.one(Event::abs(code, value)), Ok(skipped));
        assert_eq!(reader, before);
    }
    let mut stale = Reader { mode: Mode::Stale, ..before };
    assert_eq!(stale.load(&[0, 100, 200, 30, 9, 7], SlotNumber(0)), Err(Refusal::Image));
    stale.load(&[5, 1, 2, 3], SlotNumber(0)).unwrap();
    assert_eq!(stale.ask(SlotNumber(0)), Ok(Asked::Contact(slot(5, 1, 2, 3))));
}

/// A setup with narrow ranges, wide ones, and any.
fn any_setup(random: &mut Random) -> Setup {
    let slots = random.from_to(1, Layout::Crane.slots() as u64);
    Setup { slots, largest: LIMITS.map(|limit| random.pick(&[1, 3, limit, limit])) }
}

/// A frame that goes on from the table: most numbers stay, and now and then one is bad or a contact does not press.
fn any_frame(random: &mut Random, writer: &Writer) -> Vec<i32> {
    let mut frame = Vec::new();
    for slot in &writer.table[..writer.setup.slots as usize] {
        let goes_on = i32::from(slot.id.is_live());
        frame.push(random.pick(&[goes_on, goes_on, 0, 1, 2]));
        for (i, number) in slot.numbers.into_iter().enumerate() {
            let other = random.from_to(0, u64::from(writer.setup.largest[i])) as i32;
            frame.push(random.pick(&[number as i32, number as i32, other]));
        }
    }
    for row in frame.chunks_exact_mut(1 + NUMBERS) {
        row[1 + PRESSURE] = row[1 + PRESSURE].max(i32::from(row[0] != 0 && !random.once_in(100)));
    }
    if random.once_in(10) {
        let place = random.below(frame.len() as u64) as usize;
        frame[place] = random.pick(&[-1, 3, 0, 256, 40_000]);
    }
    if random.once_in(20) {
        frame.pop();
    }
    frame
}

fn known(table: &Table) -> Vec<Slot> {
    table.iter().map(|slot| slot.known_to(Layout::Crane)).collect()
}

/// What K1 claims of the cranes, for runs of frames from fresh with refused ones among them.
#[test]
fn a_crane_shows_the_first_four_numbers_and_skips_the_sizes() {
    let mut random = Random::new(31);
    let (mut accepted, mut refused, mut sizes) = (0, 0, 0);
    for _ in 0..300 {
        let setup = any_setup(&mut random);
        let mut writer = Writer::fresh(setup, false).unwrap();
        let mut panel = Reader::fresh(Layout::Panel, setup).unwrap();
        let mut crane = Reader::fresh(Layout::Crane, setup.known_to(Layout::Crane)).unwrap();
        for _ in 0..40 {
            let mut buffer = [0; LARGEST_FRAME];
            let Ok(written) = writer.write(&any_frame(&mut random, &writer), &mut buffer, 0) else {
                refused += 1;
                continue;
            };
            accepted += 1;
            let records = &buffer[..written.events as usize * RECORD];
            assert_eq!(panel.run(records).unwrap().bad, 0);
            let skipped: Vec<(u16, u16)> = events(records)
                .map(|event| (event.kind, event.code))
                .filter(|pair| matches!(pair, (3, 0x30 | 0x31)))
                .collect();
            sizes += skipped.len();
            let expected = Ran {
                shown: u64::from(written.events > 0),
                unknown_code: skipped.len() as u64,
                first_skipped: skipped.first().copied(),
                ..Ran::NOTHING
            };
            assert_eq!(crane.run(records), Ok(expected));
            assert_eq!((panel.shown, crane.mode), (writer.table, Mode::Following));
            assert_eq!(crane.shown.to_vec(), known(&panel.shown));
            assert_eq!((crane.pending, crane.current), (crane.shown, writer.current));
            assert!(crane.is_well_formed());
        }
    }
    assert!(accepted > 5_000 && refused > 1_000 && sizes > 5_000, "{accepted} {refused} {sizes}");
}

/// The cranes' reader is the panel's but for the sizes: with another unknown code in their place, both do the same.
#[test]
fn a_crane_does_all_else_as_the_panel_does() {
    const ANOTHER: u16 = 0x32;
    let mut maker = Maker::new(23);
    let mut runs = 0;
    for _ in 0..50_000 {
        let Some(Call::Run { reader, bytes: records }) = Call::parse(maker.next_line().as_bytes()) else {
            continue;
        };
        if reader.layout != Layout::Crane || !reader.is_well_formed() || records.len() % RECORD != 0 {
            continue;
        }
        runs += 1;
        let renamed = |event: Event| match number_of(event.code) {
            Some(MAJOR | MINOR) if event.kind == EV_ABS => Event { code: ANOTHER, ..event },
            _ => event,
        };
        let other: Vec<Event> = events(&records).map(renamed).collect();
        let mut panel = Reader { layout: Layout::Panel, ..reader.clone() };
        panel.setup.largest[Layout::Crane.numbers()..NUMBERS].fill(1);
        let mut crane = reader.clone();
        let (of_panel, of_crane) = (panel.run(&bytes(&other)).unwrap(), crane.run(&records).unwrap());
        let name = |first: (u16, u16)| if matches!(first, (3, 0x30 | 0x31)) { (3, ANOTHER) } else { first };
        assert_eq!(of_panel, Ran { first_skipped: of_crane.first_skipped.map(name), ..of_crane });
        assert_eq!(panel, Reader { layout: Layout::Panel, setup: panel.setup, ..crane });
    }
    assert!(runs > 1_000, "{runs}");
}
