//! The pod, the commands to it, the force stick and the recorder.

mod common;

use chandrulek::*;

/// The answers to these bytes but for those that say that more is to come.
fn reports(pod: &mut Pod, bytes: &[u8]) -> Vec<Report> {
    bytes.iter().map(|byte| pod.step(*byte).unwrap()).filter(|report| *report != Report::More).collect()
}

#[test]
fn reports_of_a_pod() {
    let mut pod = Pod::fresh();
    assert_eq!(pod, Pod::default());
    assert_eq!(reports(&mut pod, &[0xF0, 0xF0]), [Report::SelfTestPassed, Report::KeyUp(112)]);
    assert_eq!(reports(&mut pod, &[0x75, 0xF5, 0xF6]), [Report::KeyDown(117), Report::KeyUp(117), Report::BadByte]);
    let moved = Report::Relative { left: true, right: false, dx: -128, dy: 127 };
    assert_eq!(reports(&mut pod, &[0xFA, 0x80, 0x7F]), [moved]);
    assert_eq!(reports(&mut pod, &[0xF7, 5, 1, 0x2C, 0xFF, 0xC8]), [Report::Absolute { flags: 5, x: 300, y: 65_480 }]);
    let (pulled, loose) = (Stick { trigger: true, position: 1 }, Stick { trigger: false, position: 15 });
    assert_eq!(reports(&mut pod, &[0xFD, 0x81, 0x0F]), [Report::BothSticks(pulled, loose)]);
    assert_eq!(reports(&mut pod, &[0xFF, 0x81]), [Report::OneStick { which: 1, stick: pulled }]);
    assert_eq!(reports(&mut pod, &[0xFE, 0x10]), [Report::BadReport]);
    let clock = Clock { year: 0x26, month: 0x11, day: 0x16, hour: 0x04, minute: 0x59, second: 0x30 };
    assert_eq!(reports(&mut pod, &[0xFC, 0x26, 0x11, 0x16, 0x04, 0x59, 0x30]), [Report::TimeOfDay(clock)]);
}

#[test]
fn commands_and_their_bytes() {
    let clock = Clock { year: 0x26, month: 0x11, day: 0x16, hour: 0x04, minute: 0x59, second: 0x30 };
    let all: [(Command, &[u8]); 10] = [
        (Command::Reset, &[0x80, 0x01]),
        (Command::ButtonAction(4), &[0x07, 4]),
        (Command::RelativeMode, &[0x08]),
        (Command::AbsoluteMode { x: 640, y: 65_535 }, &[0x09, 0x02, 0x80, 0xFF, 0xFF]),
        (Command::Threshold { x: 1, y: 255 }, &[0x0B, 1, 255]),
        (Command::Scale { x: 255, y: 1 }, &[0x0C, 255, 1]),
        (Command::Interrogate, &[0x0D]),
        (Command::LoadPosition { x: 300, y: 200 }, &[0x0E, 0, 1, 0x2C, 0, 200]),
        (Command::SetClock(clock), &[0x1B, 0x26, 0x11, 0x16, 0x04, 0x59, 0x30]),
        (Command::AskClock, &[0x1C]),
    ];
    for (command, bytes) in all {
        let mut buffer = [0xAA; COMMAND_BYTES + 1];
        assert_eq!(Pod::fresh().command(command, &mut buffer, 1), Ok(bytes.len()));
        assert_eq!(buffer[1..=bytes.len()], *bytes);
        assert!(buffer[0] == 0xAA && buffer[1 + bytes.len()..].iter().all(|byte| *byte == 0xAA));
        assert_eq!(Command::read(&buffer, 1), (CommandRead::Found(command), 1 + bytes.len()));
    }
}

#[test]
fn a_reset_makes_the_pod_fresh() {
    let mut pod = Pod::fresh();
    reports(&mut pod, &[0xF0, 0xF8, 1]);
    let before = pod.clone();
    pod.command(Command::Interrogate, &mut [0], 0).unwrap();
    assert_eq!(pod, before);
    pod.command(Command::Reset, &mut [0; 2], 0).unwrap();
    assert_eq!(pod, Pod::fresh());
}

#[test]
fn command_bytes_that_are_no_command() {
    assert_eq!(Command::read(&[], 0), (CommandRead::Nothing, 0));
    assert_eq!(Command::read(&[0x08], usize::MAX), (CommandRead::Nothing, 1));
    assert_eq!(Command::read(&[0x80, 0x02, 0x08], 0), (CommandRead::Lost, 2));
    assert_eq!(Command::read(&[0x42, 0x08], 0), (CommandRead::NotForUs, 1));
    assert_eq!(Command::read(&[0x07, 0x05], 0), (CommandRead::Refused, 2));
    assert_eq!(Command::read(&[0x08, 0x1B, 0x26], 1), (CommandRead::Unfinished, 1));
}

#[test]
fn a_force_stick() {
    let report = ForceReport { x: -2, y: 300, throttle: 255, buttons: 0xABC, hat: 15, rudder: -128 };
    let mut bytes = [0; 14];
    assert_eq!(report.write(&mut bytes, 2), Ok(()));
    assert_eq!(bytes[2..13], [0x2B, 1, 8, 0xFE, 0xFF, 0x2C, 0x01, 0xFF, 0xBC, 0xFA, 0x80]);
    assert_eq!(bytes[13], bytes[2..13].iter().fold(0, |sum, byte| sum ^ byte));
    assert_eq!(ForceReport::read(&bytes, 0), (ForceRead::Report(report), 14));

    assert_eq!(ForceReport::read(&[1, 2], 0), (ForceRead::Nothing, 2));
    assert_eq!(ForceReport::read(&[0x2B, 9, 0, 0x2B ^ 9], 0), (ForceRead::NotForUs { op: 9, len: 0 }, 4));
    assert_eq!(ForceReport::read(&[0x2B, 1, 17], 0), (ForceRead::LengthOver, 1));
    assert_eq!(ForceReport::read(&bytes[..13], 0), (ForceRead::Unfinished, 2));
    bytes[5] ^= 1;
    assert_eq!(ForceReport::read(&bytes, 0), (ForceRead::WrongCheck, 3));
}

#[test]
fn a_recording() {
    let events = common::records(&["ID 0", "X 100", "REPORT"]);
    let block = make_block(7, &events).unwrap();
    assert_eq!(block[..8], [7, 0, 0, 0, 3, 0, 0, 0]);
    assert_eq!(read_block(&block, 7), Ok(&events[..]));
    assert_eq!(read_block(&block, 8), Err(BlockRefusal::WrongNumber));
    assert_eq!(read_block(&block[..511], 7), Err(BlockRefusal::WrongCheck));

    // 63 events are a full block and one more.
    let events = common::records(&["REPORT"; 63]);
    let mut buffer = [0xAA; 1025];
    assert_eq!(lay_blocks(7, &events, &mut buffer, 1), Ok(Laid { blocks: 2, next: 9 }));
    assert_eq!(read_block(&buffer[1..513], 7).map(<[u8]>::len), Ok(8 * BLOCK_EVENTS));
    assert_eq!(read_block(&buffer[513..], 8).map(<[u8]>::len), Ok(8));
    assert_eq!(lay_blocks(7, &[], &mut [], 0), Ok(Laid { blocks: 0, next: 7 }));
    assert_eq!(lay_blocks(u32::MAX, &[0; 8], &mut buffer, 0), Ok(Laid { blocks: 1, next: 0 }));
}

/// The sum that stands at the end of a block.
fn with_check(mut block: [u8; BLOCK_BYTES]) -> [u8; BLOCK_BYTES] {
    let sum: u32 = block[..508].iter().zip(1..).map(|(byte, place)| u32::from(*byte) * place).sum();
    block[508..].copy_from_slice(&sum.to_le_bytes());
    block
}

#[test]
fn damaged_blocks() {
    let good = make_block(7, &[1; 8]).unwrap();
    let altered = |place: usize, byte: u8| {
        let mut block = good;
        block[place] = byte;
        block
    };
    assert_eq!(with_check(good), good);
    assert_eq!(read_block(&altered(8, 2), 7), Err(BlockRefusal::WrongCheck));
    assert_eq!(read_block(&with_check(altered(4, 63)), 7), Err(BlockRefusal::CountOver));
    assert_eq!(read_block(&with_check(altered(100, 1)), 7), Err(BlockRefusal::NotZero));
    for (refusal, number) in
        [BlockRefusal::WrongCheck, BlockRefusal::WrongNumber, BlockRefusal::CountOver, BlockRefusal::NotZero]
            .iter()
            .zip(1..)
    {
        assert_eq!(refusal.number(), number);
        assert!(refusal.to_string().ends_with("take it as a loss"));
    }
}
