//! Seeded random input for the programs: plain noise, noise that gets past the first test, and input that is cut or refused in each way.

use std::io;

use crate::events::{Event, ABS_MT_POSITION_X, BTN_TOUCH};
use crate::force::{LEN, OP, START};
use crate::maker::Maker;
use crate::pod::Pod;
use crate::programs::{show_commands, write_frames, HEADER, MOST_RECORDS, WITH_POINTER};
use crate::reader::Reader;
use crate::recorder::{block, BLOCK};
use crate::table::{Layout, Setup, LIMITS, NUMBERS, SLOTS};
use crate::writer::{Writer, LARGEST_FRAME};

/// Every other input is short, one length after the other, so that every cut of the first records is tried; between them come long ones.
const EACH_LENGTH: u64 = 80;
const LONGEST: u64 = 5_000;

/// The programs that read a setup first.
const AFTER_SETUP: [&str; 7] =
    ["show_table", "crane_table", "write_frames", WITH_POINTER, "record", "replay", "write_anonymous"];

/// Bytes that a script is made of.
const SCRIPT_BYTES: &[u8] = b"0123456789-  \n#fnrolagwsp";

/// The `index`th input for a program; `None` for a name that is none.
pub fn noise(program: &str, seed: u64, index: u64) -> Option<Vec<u8>> {
    let mut maker = Maker::new(seed ^ index.wrapping_mul(0xD6E8_FEB8_6659_FD93));
    let (shape, turn) = (index % 4, index / 4);
    let is_short = turn % 2 == 0 && turn / 2 < EACH_LENGTH;
    let length = if is_short { turn / 2 } else { maker.random.below(LONGEST) } as usize;
    let layout = if program == "crane_table" { Layout::Crane } else { Layout::Panel };
    Some(match program {
        "show_pod" => pod_bytes(&mut maker, shape, length),
        "show_force" => packets(&mut maker, shape, length),
        "write_force" => reports(&mut maker, shape, length),
        "show_commands" => commands(&mut maker, shape, length),
        "write_commands" => command_lines(&mut maker, shape, length),
        "drive" => script(&mut maker, shape, length),
        _ if shape == 0 && AFTER_SETUP.contains(&program) => odd_setup(&mut maker, layout, turn),
        "show_table" | "crane_table" | "record" => {
            after_setup(&mut maker, layout, length, |maker, setup| match shape {
                1 => plain(maker, length),
                _ if layout == Layout::Crane && maker.random.once_in(2) => sent(maker, setup, length),
                _ => records(maker, layout, setup, length, shape == 3),
            })
        }
        "write_frames" | WITH_POINTER => after_setup(&mut maker, layout, length, |maker, setup| match shape {
            1 => plain(maker, length),
            _ => frames(maker, setup, length, program == WITH_POINTER),
        }),
        "write_anonymous" => after_setup(&mut maker, layout, length, |maker, setup| match shape {
            1 if maker.random.once_in(2) => plain(maker, length),
            1 => records(maker, layout, setup, length, false),
            _ => packets_of_panel(maker, setup, length, shape == 3 && !is_short),
        }),
        "replay" => after_setup(&mut maker, layout, length, |maker, setup| match shape {
            1 => plain(maker, length),
            _ => recording(maker, setup, length, shape == 3),
        }),
        _ => return None,
    })
}

/// A good setup and what `more` makes after it: `length` bytes, or some more to be whole.
fn after_setup(
    maker: &mut Maker,
    layout: Layout,
    length: usize,
    more: impl Fn(&mut Maker, Setup) -> Vec<u8>,
) -> Vec<u8> {
    let setup = panel_setup(maker, layout);
    let mut bytes = header(&setup);
    bytes.extend(more(maker, setup));
    // Cut every other time only: a cut record hides the table.
    if maker.random.once_in(2) {
        bytes.truncate(HEADER + length);
    }
    bytes
}

/// A panel's setup that is good, also as such a reader knows it.
fn panel_setup(maker: &mut Maker, layout: Layout) -> Setup {
    let known = maker.setup(layout);
    match layout {
        Layout::Panel => known,
        Layout::Crane => maker.panel_setup(&known),
    }
}

fn plain(maker: &mut Maker, length: usize) -> Vec<u8> {
    (0..length).map(|_| maker.random.word() as u8).collect()
}

/// In turn a cut setup, one with a single number out of its range, one with any numbers, and none; few bytes follow.
fn odd_setup(maker: &mut Maker, layout: Layout, turn: u64) -> Vec<u8> {
    let setup = match turn % 4 {
        0 => return header(&panel_setup(maker, layout))[..(turn / 4) as usize % HEADER].to_vec(),
        1 => header(&one_bad_number(maker, layout, turn / 4)),
        2 => header(&maker.any_setup(Layout::Panel)),
        _ => Vec::new(),
    };
    let length = maker.random.below(EACH_LENGTH) as usize;
    [setup, plain(maker, length)].concat()
}

/// One number after the other is out of its range, and the others are good. A crane does not judge the touch sizes.
fn one_bad_number(maker: &mut Maker, layout: Layout, turn: u64) -> Setup {
    let mut setup = panel_setup(maker, layout);
    let which = (turn % (1 + NUMBERS as u64)) as usize;
    match which {
        0 => setup.slots = u64::from(bad_n(maker, layout, setup.slots, turn / (1 + NUMBERS as u64))),
        _ => {
            let largest = &mut setup.largest[which - 1];
            *largest = maker.bad_largest(*largest, LIMITS[which - 1]);
        }
    }
    setup
}

/// First the next n behind the most slots and then the widest panel's, since chance alone may leave them out.
fn bad_n(maker: &mut Maker, layout: Layout, good: u64, round: u64) -> u32 {
    let most = layout.slots() as u32;
    let n = match round {
        0 => most + 1,
        1 => SLOTS as u32,
        _ => maker.bad_n(layout, good) as u32,
    };
    // A header has 32 bits of it, and cut to them it may be good; the widest panel is good but for a crane.
    if (1..=most).contains(&n) {
        0
    } else {
        n
    }
}

/// More than the low 32 bits of n does not fit a header; the cut number is then as good a header as another.
fn header(setup: &Setup) -> Vec<u8> {
    [setup.slots as u32].iter().chain(&setup.largest).flat_map(|number| number.to_le_bytes()).collect()
}

/// Records that are mostly good, at least so many bytes; with `times` in front of each, as Linux has them, most are skipped.
fn records(maker: &mut Maker, layout: Layout, setup: Setup, length: usize, times: bool) -> Vec<u8> {
    let mut reader = Reader::fresh(layout, setup.known_to(layout)).expect("a good setup");
    let rough = maker.random.once_in(2);
    let mut bytes = Vec::new();
    while bytes.len() < length {
        if times {
            bytes.extend(time(maker));
        }
        // A long input that is lost at once would try little.
        let rough = rough && maker.random.once_in(1 + length as u64 / 100);
        let event = maker.event(&reader, rough);
        reader.one(event).expect("a reader that began fresh is well formed");
        bytes.extend(event.to_bytes());
    }
    // A loss before is mostly stale by the end.
    if maker.random.once_in(6) {
        bytes.extend(Event::DROPPED.to_bytes());
    }
    bytes
}

/// Seconds and microseconds, 64 bits each. Small ones are read as events that are not skipped: 0 is a report.
fn time(maker: &mut Maker) -> Vec<u8> {
    let (seconds, microseconds) = if maker.random.once_in(20) {
        (maker.random.below(4), maker.random.below(4))
    } else {
        (1_700_000_000 + maker.random.below(1 << 20), maker.random.below(1_000_000))
    };
    [seconds.to_le_bytes(), microseconds.to_le_bytes()].concat()
}

/// Frames that are mostly good, at least so many bytes; half of those for a `pointer` move what it follows.
fn frames(maker: &mut Maker, setup: Setup, length: usize, pointer: bool) -> Vec<u8> {
    let mut writer = Writer::fresh(setup, pointer).expect("a good setup");
    let mut bytes = Vec::new();
    while bytes.len() < length {
        let mut frame = match pointer && maker.random.once_in(2) {
            true => maker.pointer_frame(&writer),
            false => maker.frame(&writer),
        };
        if maker.random.once_in(8) {
            let i = maker.random.below(frame.len() as u64) as usize;
            frame[i] = maker.random.word() as i32;
        }
        if maker.random.once_in(8) {
            maker.press_least(&mut frame);
        }
        // A refused frame leaves the writer as it is, in the program too.
        let _ = writer.write(&frame, &mut [0; LARGEST_FRAME], 0);
        bytes.extend(frame.iter().flat_map(|number| number.to_le_bytes()));
    }
    bytes
}

/// Frames of a type A panel, mostly good, at least so many bytes; where it may be `long`, now and then one is about as long as a program holds.
fn packets_of_panel(maker: &mut Maker, setup: Setup, length: usize, long: bool) -> Vec<u8> {
    let mut writer = Writer::fresh(setup, false).expect("a good setup");
    let mut bytes = Vec::new();
    while bytes.len() < length {
        let mut frame = maker.type_a_frame(&writer);
        if long && maker.random.once_in(60) {
            stretch(maker, &mut frame);
        }
        let frame: Vec<u8> = frame.iter().flat_map(|event| event.to_bytes()).collect();
        // A refused frame leaves the writer as it is, in the program too.
        let _ = writer.write_anonymous(&frame, &mut [0; LARGEST_FRAME], 0);
        bytes.extend(frame);
    }
    bytes
}

/// One record comes so often that the frame is as long as may be, or a little longer or shorter.
fn stretch(maker: &mut Maker, frame: &mut Vec<Event>) {
    let wanted = MOST_RECORDS + maker.random.pick(&[0, 0, 1, 1, 2, 900]) - maker.random.pick(&[0, 0, 0, 1]);
    let record = maker.random.pick(&[Event::MT_REPORT, Event::key(BTN_TOUCH, true), Event::abs(ABS_MT_POSITION_X, 0)]);
    let more = wanted.saturating_sub(frame.len());
    frame.splice(0..0, vec![record; more]);
}

/// What a writer sends of such frames, at least so many bytes where the frames change enough.
fn sent(maker: &mut Maker, setup: Setup, length: usize) -> Vec<u8> {
    let mut bytes = Vec::new();
    let pointer = maker.random.once_in(4);
    let frames = [header(&setup), frames(maker, setup, length, pointer)].concat();
    write_frames(&frames[..], &mut bytes, io::sink(), pointer);
    bytes.split_off(HEADER)
}

/// Blocks of such records, at least so many bytes, some full and some not; where they are to be `damaged`, a few have something wrong.
fn recording(maker: &mut Maker, setup: Setup, length: usize, damaged: bool) -> Vec<u8> {
    let records = records(maker, Layout::Panel, setup, length, false);
    let mut bytes = Vec::new();
    let mut rest = &records[..];
    for number in 1.. {
        let Some(events) = maker.some_of(rest) else {
            break;
        };
        rest = &rest[events.len()..];
        bytes.extend(block(number, events).expect("1 to 62 records"));
    }
    let blocks = bytes.len() / BLOCK;
    for _ in 0..if damaged && blocks > 0 { maker.random.from_to(1, 3) } else { 0 } {
        let k = maker.random.below(blocks as u64) as usize;
        maker.damage(&mut bytes[k * BLOCK..(k + 1) * BLOCK]);
    }
    bytes
}

fn pod_bytes(maker: &mut Maker, shape: u64, length: usize) -> Vec<u8> {
    let mut pod = Pod::FRESH;
    let mut bytes = Vec::new();
    while bytes.len() < length {
        let byte = if shape == 0 { maker.random.word() as u8 } else { maker.pod_byte(pod) };
        pod.take(byte).expect("a pod that began fresh is well formed");
        bytes.push(byte);
    }
    bytes
}

/// Bytes of a force stick, so many: plain, rich in 0x2B, or packets good and damaged.
fn packets(maker: &mut Maker, shape: u64, length: usize) -> Vec<u8> {
    let mut bytes = Vec::new();
    while bytes.len() < length {
        match shape {
            0 => bytes.push(maker.random.word() as u8),
            1 => bytes.push(maker.random.pick(&[START, START, OP, LEN, 0, 16, 17, 0x23])),
            2 => bytes.extend(maker.force().packet().expect("a good report")),
            _ => bytes.extend(maker.force_part()),
        }
    }
    bytes.truncate(length);
    bytes
}

/// Reports for `write_force`, so many bytes: plain, which are mostly refused, or good but for a few.
fn reports(maker: &mut Maker, shape: u64, length: usize) -> Vec<u8> {
    if shape == 0 {
        return plain(maker, length);
    }
    let mut bytes = Vec::new();
    while bytes.len() < length {
        let mut force = maker.force();
        if shape == 3 && maker.random.once_in(6) {
            force.buttons += maker.random.pick(&[0, 1 << 12, 1 << 15]);
            force.hat += maker.random.pick(&[0, 16, 240]);
        }
        bytes.extend([force.x, force.y].iter().flat_map(|number| number.to_le_bytes()));
        bytes.push(force.throttle);
        bytes.extend(force.buttons.to_le_bytes());
        bytes.extend([force.hat, force.rudder as u8]);
    }
    bytes.truncate(length);
    bytes
}

/// Bytes of commands, so many: plain, good ones, or those that are wrong too.
fn commands(maker: &mut Maker, shape: u64, length: usize) -> Vec<u8> {
    let mut bytes = Vec::new();
    while bytes.len() < length {
        match shape {
            0 => bytes.push(maker.random.word() as u8),
            1 => bytes.push(maker.random.pick(&[0x80, 1, 7, 8, 9, 0x0B, 0x0C, 0x0D, 0x0E, 0x1B, 0x1C, 0])),
            2 => bytes.extend(maker.command().bytes()),
            _ => bytes.extend(maker.command_part()),
        }
    }
    bytes.truncate(length);
    bytes
}

/// Lines as `show_commands` prints them, so many bytes: plain noise, good ones, those that are wrong too, and damaged ones.
fn command_lines(maker: &mut Maker, shape: u64, length: usize) -> Vec<u8> {
    if shape == 0 {
        return plain(maker, length);
    }
    let (mut lines, source) = (Vec::new(), commands(maker, if shape == 1 { 2 } else { 3 }, length));
    show_commands(&source[..], &mut lines, io::sink());
    let lines = if shape == 3 { spoilt(maker, lines) } else { lines };
    let mut bytes: Vec<u8> = lines.into_iter().take(length).collect();
    bytes.resize(length, b'\n');
    bytes
}

/// Lines with a number that is another, or a byte put in, left out or changed here and there.
fn spoilt(maker: &mut Maker, lines: Vec<u8>) -> Vec<u8> {
    let mut bytes = Vec::new();
    for byte in lines {
        match maker.random.below(60) {
            0 => bytes.extend([byte, maker.random.pick(b" 0123456789abcdef-\n")]),
            1 => bytes.push(maker.random.pick(b" 0123456789ax\n\r")),
            2 => {}
            3 if byte.is_ascii_digit() => {
                bytes.extend(maker.random.pick(&[&b"0"[..], b"5", b"256", b"65536", b"99999999999999999999"]))
            }
            _ => bytes.push(byte),
        }
    }
    bytes
}

fn script(maker: &mut Maker, shape: u64, length: usize) -> Vec<u8> {
    let mut bytes = Vec::new();
    while bytes.len() < length {
        match shape {
            0 => bytes.push(maker.random.word() as u8),
            1 => bytes.push(maker.random.pick(SCRIPT_BYTES)),
            _ => bytes.extend(damaged(maker)),
        }
    }
    bytes.truncate(length);
    bytes
}

/// A script's lines, now and then with a byte put in, left out or changed.
fn damaged(maker: &mut Maker) -> Vec<u8> {
    let mut lines = maker.lines().into_bytes();
    while maker.random.once_in(2) && !lines.is_empty() {
        let at = maker.random.below(lines.len() as u64) as usize;
        let byte = if maker.random.once_in(4) { maker.random.word() as u8 } else { maker.random.pick(SCRIPT_BYTES) };
        match maker.random.below(3) {
            0 => lines.insert(at, byte),
            1 => lines[at] = byte,
            _ => {
                lines.remove(at);
            }
        }
    }
    lines
}

#[cfg(test)]
mod tests {
    use super::*;
    use crate::programs::NAMES;

    #[test]
    fn lengths_and_names() {
        for program in NAMES.into_iter().chain([WITH_POINTER]) {
            let lengths: Vec<u64> =
                (0..8 * EACH_LENGTH).map(|index| noise(program, 5, index).unwrap().len() as u64).collect();
            for length in 0..EACH_LENGTH {
                assert!(lengths.contains(&length));
            }
            assert!(lengths.iter().any(|length| *length > LONGEST / 2));
        }
        assert_eq!(noise("bench_sheet", 5, 0), None);
    }

    #[test]
    fn each_number_is_bad_by_itself() {
        let mut maker = Maker::new(6);
        for (layout, turn) in Layout::ALL.into_iter().flat_map(|layout| (0..600).map(move |turn| (layout, turn))) {
            let which = (turn % (1 + NUMBERS as u64)) as usize;
            let setup = one_bad_number(&mut maker, layout, turn);
            assert_eq!((1..=layout.slots() as u64).contains(&setup.slots), which != 0);
            for (i, limit) in LIMITS.into_iter().enumerate() {
                assert_eq!((1..=limit).contains(&setup.largest[i]), which != 1 + i);
            }
        }
    }

    /// A crane shows what such records tell, and skips the rest: too little of either would try nothing.
    #[test]
    fn what_is_sent_has_touch_sizes() {
        let mut maker = Maker::new(8);
        let setup = panel_setup(&mut maker, Layout::Crane);
        let mut reader = Reader::fresh(Layout::Crane, setup.known_to(Layout::Crane)).unwrap();
        let ran = reader.run(&sent(&mut maker, setup, 5_000)).unwrap();
        assert!(ran.shown > 5 && ran.unknown_code > 5, "{ran:?}");
        assert_eq!((ran.bad, ran.ignored), (0, 0));
    }

    #[test]
    fn records_with_times_are_24_bytes() {
        let mut maker = Maker::new(7);
        let setup = maker.setup(Layout::Panel);
        let bytes = records(&mut maker, Layout::Panel, setup, 2_400, true);
        assert!(bytes.len() == 2_400 || bytes.len() == 2_408);
        let microseconds = |record: &[u8]| u64::from_le_bytes(record[8..16].try_into().unwrap());
        assert!(bytes.chunks_exact(24).all(|record| microseconds(record) < 1_000_000));
    }
}
