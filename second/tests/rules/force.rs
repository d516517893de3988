//! K10, the force stick: packets worked out by hand, and what must hold of every packet.

use second::force::*;
use second::random::Random;
use second::refusal::Refusal;

const ZERO: Force = Force { x: 0, y: 0, throttle: 0, buttons: 0, hat: 0, rudder: 0 };

/// x 1, y -2, throttle 3, buttons 0x5A4, hat 6, rudder -7. The check: 2B 01 08 give 22, then 23, 23, DD, 22, 21, 85, E0, 19.
#[test]
fn a_packet_by_hand() {
    let force = Force { x: 1, y: -2, throttle: 3, buttons: 0x5A4, hat: 6, rudder: -7 };
    let packet = [0x2B, 0x01, 0x08, 0x01, 0x00, 0xFE, 0xFF, 0x03, 0xA4, 0x65, 0xF9, 0x19];
    assert_eq!(force.packet(), Ok(packet));
    assert_eq!(read(&packet, 0), (Answer::Report(force), 12));
}

/// Low bytes first, and each number in its own place: one of them at a time.
#[test]
fn each_number_by_hand() {
    for (force, place, bytes) in [
        (Force { x: 0x1234, ..ZERO }, 3, &[0x34, 0x12][..]),
        (Force { x: -32_768, ..ZERO }, 4, &[0x80]),
        (Force { y: 0x1234, ..ZERO }, 5, &[0x34, 0x12]),
        (Force { throttle: 200, ..ZERO }, 7, &[200]),
        (Force { buttons: 0x0FF, ..ZERO }, 8, &[0xFF]),
        (Force { buttons: 0xF00, ..ZERO }, 9, &[0x0F]),
        (Force { hat: 15, ..ZERO }, 9, &[0xF0]),
        (Force { rudder: -128, ..ZERO }, 10, &[0x80]),
    ] {
        let mut packet = [0x2B, 1, 8, 0, 0, 0, 0, 0, 0, 0, 0, 0];
        packet[place..place + bytes.len()].copy_from_slice(bytes);
        packet[11] = packet[..11].iter().fold(0, |sum, byte| sum ^ byte);
        assert_eq!(force.packet(), Ok(packet));
        assert_eq!(read(&packet, 0), (Answer::Report(force), 12));
    }
}

#[test]
fn what_a_write_refuses() {
    let need = Err(Refusal::NoRoom { need: 12 });
    let write = |force: Force, size: usize, position: u64| {
        let mut buffer = vec![7; size];
        let written = force.write(&mut buffer, position);
        assert_eq!(written.is_err(), buffer.iter().all(|byte| *byte == 7));
        written
    };
    for (buttons, hat) in [(4_096, 0), (0, 16), (65_535, 255)] {
        assert_eq!(write(Force { buttons, hat, ..ZERO }, 0, 9), Err(Refusal::Value));
    }
    assert_eq!(write(Force { buttons: 4_095, hat: 15, ..ZERO }, 12, 0), Ok(()));
    assert_eq!((write(ZERO, 11, 0), write(ZERO, 12, 1), write(ZERO, 13, 1)), (need, need, Ok(())));
    for position in [13, 1 << 32, u64::MAX, u64::MAX - 11] {
        assert_eq!(write(ZERO, 12, position), need);
    }
}

fn any(random: &mut Random) -> Force {
    let word = random.word();
    Force {
        x: word as i16,
        y: (word >> 16) as i16,
        throttle: (word >> 32) as u8,
        buttons: (word >> 40) as u16 & 0xFFF,
        hat: (word >> 56) as u8 & 15,
        rudder: random.word() as i8,
    }
}

/// Written anywhere, with other bytes around it, a report comes back, and no other byte moves.
#[test]
fn what_is_written_reads_back() {
    let mut random = Random::new(1);
    for _ in 0..2_000 {
        let (force, position) = (any(&mut random), random.below(30) as usize);
        let mut buffer: Vec<u8> = (0..50).map(|_| random.from_to(44, 255) as u8).collect();
        let before = buffer.clone();
        force.write(&mut buffer, position as u64).unwrap();
        assert_eq!(read(&buffer, 0), (Answer::Report(force), position + 12));
        assert_eq!((&buffer[..position], &buffer[position + 12..]), (&before[..position], &before[position + 12..]));
    }
}

/// Packets one after the other are read as the same reports.
#[test]
fn a_list_reads_back() {
    let mut random = Random::new(2);
    let list: Vec<Force> = (0..500).map(|_| any(&mut random)).collect();
    let bytes: Vec<u8> = list.iter().flat_map(|force| force.packet().unwrap()).collect();
    let (mut back, mut at) = (Vec::new(), 0);
    while let (Answer::Report(force), next) = read(&bytes, at as u64) {
        back.push(force);
        at = next;
    }
    assert_eq!((back, read(&bytes, at as u64)), (list, (Answer::Nothing, bytes.len())));
}

/// A report with one byte altered never reads as a report from its own 0x2B on.
#[test]
fn one_altered_byte() {
    let mut random = Random::new(3);
    for _ in 0..20 {
        let packet = any(&mut random).packet().unwrap();
        for (place, by) in (0..12).flat_map(|place| (1..=255).map(move |by| (place, by))) {
            let mut altered = packet;
            altered[place] ^= by;
            let (answer, next) = read(&altered, 0);
            assert!(!matches!((answer, next), (Answer::Report(_), 12)), "{place} {by}");
            match place {
                0 => {}
                1 | 3.. => assert_eq!((answer, next), (Answer::WrongCheck, 1)),
                _ if altered[2] > 16 => assert_eq!((answer, next), (Answer::LengthOver16, 1)),
                _ => assert!(matches!(answer, Answer::WrongCheck | Answer::Unfinished | Answer::NotForUs { .. })),
            }
        }
    }
}

/// Every OP with every LEN and a good check: one is read, the others are not for us, the long ones are refused.
#[test]
fn every_head() {
    for (op, len) in (0..=255u8).flat_map(|op| (0..=255u8).map(move |len| (op, len))) {
        let mut packet = vec![START, op, len];
        packet.resize(3 + usize::from(len), 0);
        packet.push(check(&packet));
        let whole = packet.len();
        let expected = match (op, len) {
            (1, 8) => (Answer::Report(ZERO), whole),
            (_, 17..) => (Answer::LengthOver16, 1),
            _ => (Answer::NotForUs { op, len }, whole),
        };
        assert_eq!(read(&packet, 0), expected);
        if len <= 16 {
            for cut in 1..whole {
                assert_eq!(read(&packet[..cut], 0), (Answer::Unfinished, 0));
            }
        } else {
            assert_eq!(read(&packet[..3], 0), (Answer::LengthOver16, 1));
            assert_eq!(read(&packet[..2], 0), (Answer::Unfinished, 0));
        }
    }
}

/// Whatever the bytes, reading moves on at every answer but the last two, and a cut gives the same answers before it.
#[test]
fn any_bytes() {
    let mut random = Random::new(4);
    for _ in 0..300 {
        let bytes: Vec<u8> = (0..120).map(|_| random.pick(&[0x2B, 1, 8, 0, 2, 3, 16, 17, 0x23, 0x28])).collect();
        let mut at = 0;
        loop {
            let (answer, next) = read(&bytes, at as u64);
            if matches!(answer, Answer::Unfinished | Answer::Nothing) {
                assert!(next == bytes.len() || bytes[next] == START);
                break;
            }
            assert!(next > at);
            let taken = next.max(at + 3).min(bytes.len());
            let (early, place) = read(&bytes[..taken], at as u64);
            assert!((early, place) == (answer, next) || early == Answer::Unfinished || early == Answer::Nothing);
            at = next;
        }
    }
}
