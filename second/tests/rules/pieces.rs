//! K5: bytes as the line delivers them. However a byte string is cut, the end state, the sums of the counts and what is left over are those of its whole records.

use crate::common::*;
use second::events::*;
use second::maker::Maker;
use second::pieces::{PieceReader, LEFT_OVER};
use second::programs::{show_table, HEADER};
use second::random::Random;
use second::reader::{Asked, Mode, Ran, Reader};
use second::refusal::Refusal;
use second::script::{Call, Cut};
use second::table::{SlotNumber, TrackingId};

/// A reader with these bytes left over.
fn left_over(reader: Reader, bytes: &[u8]) -> PieceReader {
    let mut pieces = PieceReader::of(reader);
    pieces.held = bytes.len() as u64;
    pieces.bytes[..bytes.len()].copy_from_slice(bytes);
    pieces
}

/// What the pieces tell together, from this state, and the state behind them.
fn taken<'a>(mut state: PieceReader, pieces: impl Iterator<Item = &'a [u8]>) -> (PieceReader, Ran) {
    let mut sum = Ran::NOTHING;
    for piece in pieces {
        sum.add(state.take(piece).unwrap());
        assert!(state.is_well_formed());
    }
    (state, sum)
}

/// The same by document 01's run over the whole records of all bytes, the rest kept as it is.
fn by_records(state: &PieceReader, bytes: &[u8]) -> (PieceReader, Ran) {
    let all = [&state.bytes[..state.held as usize], bytes].concat();
    let (whole, rest) = all.split_at(all.len() / RECORD * RECORD);
    let mut reader = state.reader.clone();
    let ran = reader.run(whole).unwrap();
    (left_over(reader, rest), ran)
}

/// Lengths of some pieces that make so many bytes, with empty ones among them.
fn any_cut(random: &mut Random, length: usize) -> Vec<u64> {
    let many = random.pick(&[0, 1, 3, 9, 40]);
    let mut places: Vec<u64> = (0..random.from_to(0, many)).map(|_| random.below(length as u64 + 1)).collect();
    places.extend([0, length as u64]);
    places.sort_unstable();
    places.windows(2).map(|pair| pair[1] - pair[0]).collect()
}

#[test]
fn any_cut_of_any_string_from_any_state() {
    let mut maker = Maker::new(41);
    let mut random = Random::new(41);
    let (mut strings, mut lost, mut shown, mut skipped) = (0, 0, 0, 0);
    for _ in 0..80_000 {
        let Some(Call::PiecesTake { pieces, cut }) = Call::parse(maker.next_line().as_bytes()) else {
            continue;
        };
        if !pieces.is_well_formed() {
            continue;
        }
        strings += 1;
        let right = by_records(&pieces, &cut.bytes);
        assert_eq!(taken(pieces.clone(), cut.pieces()), right);
        assert_eq!(taken(pieces.clone(), cut.bytes.chunks(1)), right);
        assert_eq!(taken(pieces.clone(), std::iter::once(&cut.bytes[..])), right);
        for _ in 0..4 {
            let other = Cut { lengths: any_cut(&mut random, cut.bytes.len()), bytes: cut.bytes.clone() };
            assert_eq!(taken(pieces.clone(), other.pieces()), right);
        }
        lost += u64::from(right.0.reader.mode != pieces.reader.mode);
        (shown, skipped) = (shown + right.1.shown, skipped + right.1.skipped());
    }
    assert!(strings > 1_500 && lost > 100 && shown > 500 && skipped > 300, "{strings} {lost} {shown} {skipped}");
}

/// Every way to cut a string of 17 bytes, from every count of held bytes.
#[test]
fn every_cut_of_a_short_string() {
    let events = [Event::abs(ABS_MT_TRACKING_ID, 5), Event::REPORT, Event { kind: 4, code: 4, value: 7 }];
    let string = bytes(&events);
    for held in 0..=LEFT_OVER {
        let start = left_over(following(0, &[slot(-1, 1, 2, 3)]), &string[..held]);
        let rest = &string[held..17.max(held)];
        let right = by_records(&start, rest);
        for cuts in 0u32..1 << (rest.len().max(1) - 1) {
            let mut lengths = vec![1];
            for i in 1..rest.len() {
                match cuts >> (i - 1) & 1 {
                    1 => lengths.push(1),
                    _ => *lengths.last_mut().unwrap() += 1,
                }
            }
            let cut = Cut { lengths, bytes: rest.to_vec() };
            assert_eq!(taken(start.clone(), cut.pieces()), right, "held {held}, cuts {cuts:b}");
        }
    }
}

#[test]
fn what_is_left_over_after_each_byte() {
    let record = Event::abs(ABS_MT_POSITION_X, 0x0706_0504).to_bytes();
    let mut state = PieceReader::fresh(panel(1)).unwrap();
    for (i, byte) in record.iter().enumerate().take(7) {
        assert_eq!(state.take(&[*byte]), Ok(Ran::NOTHING));
        assert_eq!(state.held, i as u64 + 1);
        assert_eq!((&state.bytes[..=i], &state.bytes[i + 1..]), (&record[..=i], &[0; 7][i + 1..]));
        assert_eq!(state.take(&[]), Ok(Ran::NOTHING), "an empty piece changes nothing");
        assert_eq!(state.held, i as u64 + 1);
    }
    // The last byte makes it whole, and it is judged: an x too large.
    assert_eq!(state.take(&record[7..]), Ok(Ran { bad: 1, ..Ran::NOTHING }));
    assert_eq!((state.held, state.bytes, state.reader.mode), (0, [0; 7], Mode::Dropped));
}

#[test]
fn a_loss_keeps_what_is_left_over() {
    let dropped = Event::DROPPED.to_bytes();
    let mut state = PieceReader::of(following(0, &[slot(0, 1, 2, 3)]));
    let piece = [&dropped[..], &[0, 0, 0]].concat();
    assert_eq!(state.take(&piece), Ok(Ran::NOTHING));
    assert_eq!((state.reader.mode, state.held), (Mode::Dropped, 3));
    // The report that was begun makes it stale.
    assert_eq!(state.take(&[0; 5]), Ok(Ran { ignored: 1, ..Ran::NOTHING }));
    assert_eq!((state.reader.mode, state.held), (Mode::Stale, 0));
}

/// The first skipped of each piece is its own; over all of them it is the first piece's that has one.
#[test]
fn the_first_skipped_is_of_the_piece_that_ends_it() {
    let string = bytes(&[Event { kind: 1, code: 330, value: 1 }, Event { kind: 0, code: 2, value: 0 }]);
    let mut state = PieceReader::of(following(0, &[slot(-1, 0, 0, 0)]));
    let mut told = |piece: &[u8]| state.take(piece).unwrap().first_skipped;
    assert_eq!(told(&string[..7]), None);
    assert_eq!(told(&string[7..15]), Some((1, 330)));
    assert_eq!(told(&string[15..]), Some((0, 2)));
    let (_, sum) = taken(PieceReader::of(following(0, &[slot(-1, 0, 0, 0)])), string.chunks(3));
    assert_eq!((sum.first_skipped, sum.unknown_type, sum.unknown_code), (Some((1, 330)), 1, 1));
}

#[test]
fn a_load_between_pieces_keeps_what_is_left_over() {
    let half = &Event::abs(ABS_MT_POSITION_X, 9).to_bytes()[..4];
    let stale = Reader { mode: Mode::Stale, ..following(0, &[slot(0, 1, 2, 3)]) };
    let mut state = left_over(stale.clone(), half);
    assert_eq!(state.load(&[7, 1, 1, 1, 1], SlotNumber(0)), Err(Refusal::Image));
    assert_eq!(state, left_over(stale, half));
    assert_eq!(state.load(&[7, 1, 1, 1, 1, 1], SlotNumber(0)), Ok(()));
    assert_eq!(state, left_over(following(0, &[sized(7, 1, 1, 1, 1, 1)]), half));
    for mode in [Mode::Following, Mode::Dropped] {
        let mut state = left_over(Reader { mode, ..following(0, &[slot(0, 1, 2, 3)]) }, half);
        assert_eq!(state.load(&[], SlotNumber(9)), Err(Refusal::NotStale));
    }
    // The record that was begun before the load is read behind it.
    assert_eq!(state.take(&[9, 0, 0, 0]), Ok(Ran::NOTHING));
    assert_eq!(state.reader.pending[0].numbers[0], 9);
    assert_eq!(state.ask(SlotNumber(0)), Ok(Asked::Contact(sized(7, 1, 1, 1, 1, 1))));
}

#[test]
fn states_that_are_not_well_formed() {
    let breaks: [fn(&mut PieceReader); 9] = [
        |p| p.held = 8,
        |p| p.held = 1 << 32 | 3,
        |p| p.held = u64::MAX,
        |p| p.held = 2,
        |p| p.bytes[6] = 1,
        |p| (p.held, p.bytes) = (0, [0, 0, 1, 0, 0, 0, 0]),
        |p| p.reader.setup.slots = 33,
        |p| p.reader.shown[0].id = TrackingId(-2),
        |p| p.reader.mode = Mode::Stale,
    ];
    let mut reader = following(0, &[slot(0, 1, 2, 3)]);
    reader.pending[0].numbers[0] = 4;
    let good = left_over(reader, &[3, 0, 53]);
    assert!(good.is_well_formed());
    for (i, break_it) in breaks.iter().enumerate() {
        let mut state = good.clone();
        break_it(&mut state);
        let broken = state.clone();
        for piece in [&[][..], &[1], &[0; 8], &[0; 5]] {
            assert_eq!(state.take(piece), Err(Refusal::State), "break {i}");
        }
        assert_eq!(state.load(&[], SlotNumber(9)), Err(Refusal::State));
        assert_eq!(state.ask(SlotNumber(9)), Err(Refusal::State));
        assert_eq!(state, broken);
    }
    assert_eq!(PieceReader::fresh(panel(0)), Err(Refusal::Setup));
    assert!(!PieceReader::zeros().is_well_formed());
}

/// What is held is not judged before its record is whole, and no count of bytes is ever refused with 6.
#[test]
fn seven_bytes_of_anything_may_be_held() {
    let mut state = left_over(following(0, &[slot(0, 1, 2, 3)]), &[255; 7]);
    assert_eq!(state.take(&[]), Ok(Ran::NOTHING));
    let skipped = Ran { unknown_type: 1, first_skipped: Some((0xffff, 0xffff)), ..Ran::NOTHING };
    assert_eq!(state.take(&[255]), Ok(skipped));
    assert_eq!(Reader::run(&mut state.reader, &[0; 7]), Err(Refusal::Ragged), "the old call keeps it");
}

/// `show_table` reads pieces: the same answer, and 6 for what is left over at the end.
#[test]
fn the_program_says_6_at_the_end_alone() {
    let header: Vec<u8> = [1u32, 9, 9, 9, 9, 9].iter().flat_map(|number| number.to_le_bytes()).collect();
    assert_eq!(header.len(), HEADER);
    let records = bytes(&[Event::abs(ABS_MT_TRACKING_ID, 0), Event::REPORT]);
    for length in 0..=records.len() {
        let mut out = Vec::new();
        show_table(&[&header[..], &records[..length]].concat()[..], &mut out, std::io::sink());
        let expected = match length {
            16 => "following 0\n0 0 0 0 0 0 0\n",
            0 | 8 => "following 0\n0 -1 0 0 0 0 0\n",
            _ => "refused 6\n",
        };
        assert_eq!(String::from_utf8(out).unwrap(), expected, "{length}");
    }
}
