//! K2, the shift recorder: blocks worked out by hand, and what must hold of every block.

use crate::common::bytes;
use second::events::*;
use second::random::Random;
use second::recorder::*;
use second::refusal::Refusal;

fn some_records(random: &mut Random, count: usize) -> Vec<u8> {
    (0..count * RECORD).map(|_| random.word() as u8).collect()
}

/// Number 1, ID 0 alone. The sum: byte 0 is 1, 1 x 1; byte 4 is 1, 1 x 5; byte 8 is 3, 3 x 9; byte 10 is 57, 57 x 11: 660.
#[test]
fn the_first_block_by_hand() {
    let made = block(1, &[3, 0, 0x39, 0, 0, 0, 0, 0]).unwrap();
    assert_eq!(made[..16], [1, 0, 0, 0, 1, 0, 0, 0, 3, 0, 0x39, 0, 0, 0, 0, 0]);
    assert!(made[16..508].iter().all(|byte| *byte == 0));
    assert_eq!(made[508..], [0x94, 0x02, 0, 0]);
}

/// Low bytes first: 4 + 2 x 3 + 3 x 2 + 4 for the number, 5 for the count, and 255 x (9 + .. + 16) = 25,500 for an event.
#[test]
fn a_high_number_by_hand() {
    let made = block(0x0102_0304, &[255; 8]).unwrap();
    assert_eq!(made[..8], [4, 3, 2, 1, 1, 0, 0, 0]);
    assert_eq!(made[508..], [0xb5, 0x63, 0, 0]);
}

/// 255 x (9 + .. + 504) is 32,442,120; the count gives 62 x 5, and the number 255 x (1 + 2 + 3 + 4).
#[test]
fn the_largest_sum_by_hand() {
    let made = block(u32::MAX, &[255; 496]).unwrap();
    assert_eq!(made[4..8], [62, 0, 0, 0]);
    assert_eq!(u32::from_le_bytes([made[508], made[509], made[510], made[511]]), 32_444_980);
}

#[test]
fn what_one_block_refuses() {
    for (number, length, refusal) in [
        (0, 8, Refusal::Value),
        (1, 0, Refusal::Value),
        (1, 504, Refusal::Value),
        (1, 497, Refusal::Value),
        (0, 7, Refusal::Value),
        (1, 7, Refusal::Ragged),
        (u32::MAX, 495, Refusal::Ragged),
    ] {
        assert_eq!(block(number, &vec![1; length]), Err(refusal), "{number} {length}");
    }
}

/// The buffer after laying, and the answer.
fn laid(number: u32, records: &[u8], size: usize, position: u64) -> (Vec<u8>, Result<Laid, Refusal>) {
    let mut buffer = vec![7; size];
    let answer = lay(number, records, &mut buffer, position);
    (buffer, answer)
}

#[test]
fn what_laying_refuses() {
    let need = |need| Err(Refusal::NoRoom { need });
    for (number, length, size, position, answer) in [
        (0, 0, 0, 0, Err(Refusal::Value)),
        (0, 7, 0, 9, Err(Refusal::Value)),
        (u32::MAX, 497, 0, 0, Err(Refusal::Value)),
        (u32::MAX, 496, 0, 0, need(512)),
        (u32::MAX, 496, 511, 0, need(512)),
        (1, 1, 511, 0, need(512)),
        (1, 497, 1_023, 0, need(1_024)),
        (1, 8, 1_024, 513, need(512)),
        (1, 8, 1_024, u64::MAX, need(512)),
        (1, 0, 3, 4, need(0)),
        (1, 7, 512, 0, Err(Refusal::Ragged)),
        (1, 495, 600, 88, Err(Refusal::Ragged)),
        (1, 500, 1_024, 0, Err(Refusal::Ragged)),
    ] {
        let (buffer, found) = laid(number, &vec![1; length], size, position);
        assert_eq!(found, answer, "{number} {length} {size} {position}");
        assert!(buffer.iter().all(|byte| *byte == 7));
    }
}

#[test]
fn no_records_make_no_block() {
    assert_eq!(laid(9, &[], 3, 3), (vec![7; 3], Ok(Laid { blocks: 0, next: 9 })));
    assert_eq!(laid(u32::MAX, &[], 0, 0).1, Ok(Laid { blocks: 0, next: u32::MAX }));
}

#[test]
fn the_last_number_leaves_none() {
    assert_eq!(laid(u32::MAX, &[1; 8], 512, 0).1, Ok(Laid { blocks: 1, next: 0 }));
    assert_eq!(laid(u32::MAX - 1, &[1; 504], 1_024, 0).1, Ok(Laid { blocks: 2, next: 0 }));
    assert_eq!(laid(u32::MAX - 1, &[1; 496], 512, 0).1, Ok(Laid { blocks: 1, next: u32::MAX }));
}

/// All blocks but the last hold 62, the numbers rise, every other byte stays, and the events come back.
#[test]
fn what_is_laid_reads_back() {
    let mut random = Random::new(1);
    for count in [1, 61, 62, 63, 124, 125, 310, 400] {
        let records = some_records(&mut random, count);
        let number = 1 + random.below(1 << 31) as u32;
        let (blocks, position) = (count.div_ceil(62), random.below(40) as usize);
        let size = position + blocks * BLOCK + random.below(3) as usize;
        let (buffer, answer) = laid(number, &records, size, position as u64);
        assert_eq!(answer, Ok(Laid { blocks: blocks as u64, next: number + blocks as u32 }));
        let mut back = Vec::new();
        for (i, piece) in buffer[position..].chunks_exact(BLOCK).enumerate() {
            let events = read(number + i as u32, piece).unwrap();
            assert!(events.len() == FULL || (i + 1 == blocks && !events.is_empty()));
            back.extend_from_slice(events);
        }
        assert_eq!(back, records);
        let around = [&buffer[..position], &buffer[position + blocks * BLOCK..]].concat();
        assert!(around.iter().all(|byte| *byte == 7));
    }
}

/// Calls that hand in full blocks, one after the other, lay what one call does.
#[test]
fn several_calls_lay_as_one() {
    let records = some_records(&mut Random::new(2), 200);
    let (whole, answer) = laid(5, &records, 4 * BLOCK, 0);
    let (mut parts, mut number, mut position) = (vec![7; 4 * BLOCK], 5, 0);
    for part in [&records[..2 * FULL], &[], &records[2 * FULL..3 * FULL], &records[3 * FULL..]] {
        let laid = lay(number, part, &mut parts, position).unwrap();
        number = laid.next;
        position += laid.blocks * BLOCK as u64;
    }
    assert_eq!((parts, Ok(Laid { blocks: 4, next: number })), (whole, answer));
}

/// Every other byte at every of the 512 places, of full and of short blocks, of zeros and of large bytes.
#[test]
fn any_one_altered_byte_is_refused() {
    let mut random = Random::new(3);
    for (number, records) in [
        (1, some_records(&mut random, 62)),
        (0x0101_0101, some_records(&mut random, 7)),
        (u32::MAX, vec![255; FULL]),
        (256, vec![0; RECORD]),
    ] {
        let good = block(number, &records).unwrap();
        assert_eq!(read(number, &good), Ok(&records[..]));
        for place in 0..BLOCK {
            for by in 1..=255 {
                let mut altered = good;
                altered[place] = altered[place].wrapping_add(by);
                assert_eq!(read(number, &altered), Err(Wrong::Check), "{place} {by}");
            }
        }
    }
}

/// A block of one event with these bytes changed and a check that fits.
fn mended(changes: &[(usize, u8)]) -> [u8; BLOCK] {
    let mut made = block(3, &bytes(&[Event::REPORT])).unwrap();
    changes.iter().for_each(|(place, byte)| made[*place] = *byte);
    put_check(&mut made);
    made
}

#[test]
fn names_in_their_order() {
    let unchecked = |changes: &[(usize, u8)]| {
        let mut made = mended(changes);
        made[511] ^= 1;
        made
    };
    let (number, count, zero) = ((0, 4), (4, 63), (507, 1));
    assert_eq!(read(3, &unchecked(&[number, count, zero])), Err(Wrong::Check));
    assert_eq!(read(3, &mended(&[number, count, zero])), Err(Wrong::Number));
    assert_eq!(read(3, &mended(&[count, zero])), Err(Wrong::Count));
    assert_eq!(read(3, &mended(&[zero])), Err(Wrong::NotZero));
    assert_eq!(read(3, &mended(&[])), Ok(&[0; 8][..]));
    for high in [1, 2, 128, 255] {
        assert_eq!(read(3, &mended(&[(5, high)])), Err(Wrong::Count), "{high}");
    }
    for place in [6, 7].into_iter().chain(16..508) {
        assert_eq!(read(3, &mended(&[(place, 1)])), Err(Wrong::NotZero), "{place}");
    }
    for place in 0..4 {
        assert_eq!(read(3, &mended(&[(place, 9)])), Err(Wrong::Number), "{place}");
    }
}

/// Its events are zero where they are none: a count of 0, and one that takes zeros for events.
#[test]
fn other_counts_of_the_same_bytes() {
    assert_eq!(read(3, &mended(&[(4, 0)])), Ok(&[][..]));
    assert_eq!(read(3, &mended(&[(4, 62)])), Ok(&[0; FULL][..]));
    assert_eq!(read(3, &mended(&[(4, 0), (8, 1)])), Err(Wrong::NotZero));
}

#[test]
fn every_other_length_is_a_wrong_check() {
    let good = block(1, &[5; 8]).unwrap();
    for length in 0..BLOCK {
        assert_eq!(read(1, &good[..length]), Err(Wrong::Check));
    }
    assert_eq!(read(1, &[&good[..], &[0]].concat()), Err(Wrong::Check));
    assert_eq!(read(1, &[good, good].concat()), Err(Wrong::Check));
}

/// The check knows one altered byte and not two: 2 more at a place and 1 less at twice that place plus one weigh the same.
#[test]
fn two_altered_bytes_may_pass() {
    let mut made = block(1, &[5; FULL]).unwrap();
    made[20] += 2;
    made[41] -= 1;
    assert!(read(1, &made).is_ok_and(|events| events != [5; FULL]));
}
