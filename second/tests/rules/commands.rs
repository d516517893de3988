//! K13, commands to the pod and the pod's time: bytes worked out by hand, and what must hold of every command.

use second::commands::*;
use second::pod::{Pod, Report};
use second::refusal::Refusal;

/// Each command with its bytes, high ones first.
fn by_hand() -> Vec<(Command, Vec<u8>)> {
    vec![
        (Command::Reset, vec![0x80, 0x01]),
        (Command::Buttons(3), vec![0x07, 3]),
        (Command::Relative, vec![0x08]),
        (Command::Absolute { x: 0x0102, y: 0xFFFE }, vec![0x09, 1, 2, 0xFF, 0xFE]),
        (Command::Threshold { x: 1, y: 255 }, vec![0x0B, 1, 255]),
        (Command::Scale { x: 255, y: 1 }, vec![0x0C, 255, 1]),
        (Command::Where, vec![0x0D]),
        (Command::Load { x: 0x0102, y: 0x0304 }, vec![0x0E, 0, 1, 2, 3, 4]),
        (Command::SetClock([0x99, 0x12, 0x31, 0x23, 0x59, 0x58]), vec![0x1B, 0x99, 0x12, 0x31, 0x23, 0x59, 0x58]),
        (Command::AskClock, vec![0x1C]),
    ]
}

/// Written in the middle of a buffer, each is read back; cut at any place it is unfinished.
#[test]
fn each_command_by_hand() {
    for (command, bytes) in by_hand() {
        let (mut pod, mut buffer) = (Pod::FRESH, [0x11; 12]);
        assert_eq!(command.write(&mut pod, &mut buffer, 2), Ok(()));
        let end = 2 + bytes.len();
        assert_eq!((&buffer[..2], &buffer[2..end]), (&[0x11; 2][..], &bytes[..]));
        assert!(buffer[end..].iter().all(|byte| *byte == 0x11));
        assert_eq!(read(&buffer, 2), (Answer::Command(command), end));
        for cut in 1..bytes.len() {
            assert_eq!(read(&bytes[..cut], 0), (Answer::Unfinished, 0));
        }
    }
}

#[test]
fn a_list_reads_back() {
    let list = by_hand();
    let bytes: Vec<u8> = list.iter().flat_map(|(_, bytes)| bytes.clone()).collect();
    let mut at = 0;
    for (command, _) in &list {
        let (answer, next) = read(&bytes, at as u64);
        assert_eq!(answer, Answer::Command(*command));
        at = next;
    }
    assert_eq!(read(&bytes, at as u64), (Answer::Nothing, bytes.len()));
}

/// Every byte behind 0x80, every first byte, every action, filler and tick.
#[test]
fn every_byte_in_its_place() {
    for byte in 0..=255u8 {
        let reset = if byte == 1 { Answer::Command(Command::Reset) } else { Answer::Lost };
        assert_eq!(read(&[0x80, byte], 0), (reset, 2));
        if !matches!(byte, 0x07..=0x09 | 0x0B..=0x0E | 0x1B | 0x1C | 0x80) {
            assert_eq!(read(&[byte, 1, 1, 1, 1, 1, 1], 0), (Answer::NotForUs, 1), "{byte:#x}");
        }
        let judged = |bytes: &[u8], is_good: bool| match read(bytes, 0) {
            (Answer::Command(command), next) => assert!(is_good && next == bytes.len() && command.bytes() == bytes),
            answer => assert!(!is_good && answer == (Answer::Refused, bytes.len()), "{bytes:?}"),
        };
        judged(&[7, byte], byte <= 4);
        judged(&[0x0E, byte, 1, 2, 3, 4], byte == 0);
        for first in [0x0B, 0x0C] {
            judged(&[first, byte, 1], byte > 0);
            judged(&[first, 1, byte], byte > 0);
        }
        for place in 1..7 {
            let mut clock = [0x1B, 0, 0, 0, 0, 0, 0];
            clock[place] = byte;
            judged(&clock, byte / 16 < 10 && byte % 16 < 10);
        }
    }
}

#[test]
fn what_a_write_refuses() {
    let broken = Pod { held: 7, ..Pod::FRESH };
    let bad = [
        Command::Buttons(5),
        Command::Threshold { x: 0, y: 1 },
        Command::Scale { x: 1, y: 0 },
        Command::SetClock([0, 0, 0, 0, 0, 0x5A]),
    ];
    for command in bad.into_iter().chain(by_hand().into_iter().map(|(command, _)| command)) {
        let need = command.bytes().len();
        let write = |mut pod: Pod, size: usize, position: u64| {
            let (before, mut buffer) = (pod, vec![7; size]);
            let written = command.write(&mut pod, &mut buffer, position);
            if written.is_err() {
                assert!(pod == before && buffer.iter().all(|byte| *byte == 7));
            }
            written
        };
        let no_room = Err(Refusal::NoRoom { need: need as u64 });
        assert_eq!(write(broken, 0, 9), Err(Refusal::State));
        assert_eq!((write(Pod::FRESH, need - 1, 0), write(Pod::FRESH, need, 1)), (no_room, no_room));
        assert_eq!((write(Pod::FRESH, 20, 21), write(Pod::FRESH, 20, u64::MAX)), (no_room, no_room));
        let room = if bad.contains(&command) { Err(Refusal::Command) } else { Ok(()) };
        assert_eq!(write(Pod::FRESH, need, 0), room);
    }
    assert_eq!(Refusal::Command.number(), 11);
}

/// Writing a reset forgets what is held and waits again; every other command leaves the pod as it is.
#[test]
fn what_a_write_does_to_the_pod() {
    let half = Pod { waits: false, held: 2, bytes: [0xF8, 1, 0, 0, 0, 0] };
    for (command, _) in by_hand() {
        let mut pod = half;
        command.write(&mut pod, &mut [0; 7], 0).unwrap();
        assert_eq!(pod, if command == Command::Reset { Pod::FRESH } else { half });
    }
}

fn time(bytes: [u8; 6]) -> Report {
    let mut pod = Pod::FRESH;
    assert_eq!(pod.take(0xFC), Ok(Report::More));
    for byte in &bytes[..5] {
        assert_eq!(pod.take(*byte), Ok(Report::More));
        assert!(pod.is_well_formed());
    }
    let report = pod.take(bytes[5]).unwrap();
    assert_eq!(pod, Pod::FRESH);
    report
}

#[test]
fn the_time_of_day() {
    assert_eq!(time([0x99, 0x12, 0x31, 0x23, 0x59, 0x58]), Report::Time([0x99, 0x12, 0x31, 0x23, 0x59, 0x58]));
    for (place, byte) in (0..6).flat_map(|place| (0..=255).map(move |byte| (place, byte))) {
        let mut bytes = [0x00; 6];
        bytes[place] = byte;
        let is_good = byte / 16 < 10 && byte % 16 < 10;
        assert_eq!(time(bytes), if is_good { Report::Time(bytes) } else { Report::BadReport });
    }
}
