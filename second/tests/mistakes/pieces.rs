//! Mistakes in what K5 asks: what is left over of a piece, what a record over several pieces does, and what is judged of the state.

use second::events::RECORD;
use second::pieces::{PieceReader, LEFT_OVER};
use second::reader::{Mode, Ran};
use second::refusal::Refusal;
use second::script::{Call, PIECES_NUMBERS};

use crate::wrong::{answers, cuts, refuses, says, takes, Wrong};

type Taken = Result<Ran, Refusal>;

/// It takes a piece otherwise; the state that it is handed is well formed, until its mistake makes another of it.
fn pieces(name: &str, take: impl Fn(&mut PieceReader, &[u8]) -> Taken + 'static) -> Wrong {
    cuts(name, move |state, piece| match state.is_well_formed() {
        true => take(state, piece),
        false => state.take(piece),
    })
}

/// It does the right thing and then something else: the state before, the piece, the state after, what is told.
fn after(name: &str, more: impl Fn(&PieceReader, &[u8], &mut PieceReader, &mut Ran) + 'static) -> Wrong {
    pieces(name, move |state, piece| {
        let before = state.clone();
        let mut ran = state.take(piece)?;
        more(&before, piece, state, &mut ran);
        Ok(ran)
    })
}

fn forget(state: &mut PieceReader) {
    *state = PieceReader::of(state.reader.clone());
}

/// Whether the piece makes the record whole that is held.
fn ends_record(before: &PieceReader, piece: &[u8]) -> bool {
    before.held > 0 && before.held as usize + piece.len() >= RECORD
}

fn left_over() -> Vec<Wrong> {
    vec![
        after("what is left over is dropped", |_, _, now, _| forget(now)),
        after("an empty piece drops what is left over", |_, piece, now, _| {
            if piece.is_empty() {
                forget(now);
            }
        }),
        after("a loss drops what is left over", |before, _, now, _| {
            if before.reader.mode == Mode::Following && now.reader.mode != Mode::Following {
                forget(now);
            }
        }),
        after("a lost reader holds nothing", |_, _, now, _| {
            if now.reader.mode != Mode::Following {
                forget(now);
            }
        }),
        after("seven bytes are not held", |_, _, now, _| {
            if now.held == LEFT_OVER as u64 {
                forget(now);
            }
        }),
        after("four bytes are held at most", |_, _, now, _| {
            if now.held > 4 {
                now.held = 4;
                now.bytes[4..].fill(0);
            }
        }),
        after("used places are not set to 0", |before, piece, now, _| {
            if ends_record(before, piece) {
                now.bytes[now.held as usize..].copy_from_slice(&before.bytes[now.held as usize..]);
            }
        }),
        after("what is left over stands at the end of the places", |_, _, now, _| {
            let unused = LEFT_OVER - now.held as usize;
            now.bytes.rotate_right(unused);
        }),
        pieces("a piece that ends no record takes the place of what is held", |state, piece| {
            if !piece.is_empty() && (state.held as usize) + piece.len() < RECORD {
                forget(state);
            }
            state.take(piece)
        }),
    ]
}

/// The record that is held and the first bytes of the piece, and the rest of it.
fn parted<'a>(state: &PieceReader, piece: &'a [u8]) -> (&'a [u8], &'a [u8]) {
    piece.split_at((RECORD - state.held as usize) % RECORD)
}

fn joined() -> Vec<Wrong> {
    vec![
        pieces("a record over two pieces is not read", |state, piece| {
            if !ends_record(state, piece) {
                return state.take(piece);
            }
            let (_, rest) = parted(state, piece);
            forget(state);
            state.take(rest)
        }),
        pieces("a record over two pieces is read last", |state, piece| {
            if !ends_record(state, piece) {
                return state.take(piece);
            }
            let (first, rest) = parted(state, piece);
            let (whole, left) = rest.split_at(rest.len() / RECORD * RECORD);
            let mut record = state.bytes[..state.held as usize].to_vec();
            record.extend(first);
            forget(state);
            let mut ran = state.take(whole)?;
            ran.add(state.take(&record)?);
            ran.add(state.take(left)?);
            Ok(ran)
        }),
        pieces("the piece stands before what is held", |state, piece| {
            if !ends_record(state, piece) {
                return state.take(piece);
            }
            let (first, rest) = parted(state, piece);
            let record = [first, &state.bytes[..state.held as usize]].concat();
            forget(state);
            let mut ran = state.take(&record)?;
            ran.add(state.take(rest)?);
            Ok(ran)
        }),
        pieces("what is held is forgotten by a piece that begins anew", |state, piece| {
            if state.held > 0 && piece.len() >= RECORD {
                forget(state);
            }
            state.take(piece)
        }),
        pieces("a piece reads one record at most", |state, piece| {
            let (first, rest) = piece.split_at((RECORD - state.held as usize).min(piece.len()));
            let ran = state.take(first)?;
            let left = &rest[rest.len() / RECORD * RECORD..];
            state.take(left)?;
            Ok(ran)
        }),
        pieces("a record that is just whole waits", |state, piece| {
            if state.held > 0 && state.held as usize + piece.len() == RECORD {
                return Ok(Ran::NOTHING);
            }
            state.take(piece)
        }),
        pieces("a byte at a record's end is lost", |state, piece| {
            let ends = ends_record(state, piece) && state.held as usize + piece.len() > RECORD;
            let (first, rest) = if ends { parted(state, piece) } else { (piece, &[][..]) };
            let mut ran = state.take(first)?;
            ran.add(state.take(rest.get(1..).unwrap_or(&[]))?);
            Ok(ran)
        }),
    ]
}

/// It reads a piece only up to this many bytes.
fn cut_piece(most: usize) -> Wrong {
    pieces(&format!("a piece has {most} bytes at most"), move |state, piece| {
        state.take(&piece[..piece.len().min(most)])
    })
}

fn told() -> Vec<Wrong> {
    vec![
        pieces("a record over two pieces is not counted", |state, piece| {
            if !ends_record(state, piece) {
                return state.take(piece);
            }
            let (first, rest) = parted(state, piece);
            state.take(first)?;
            state.take(rest)
        }),
        pieces("a record over two pieces is not named", |state, piece| {
            if !ends_record(state, piece) {
                return state.take(piece);
            }
            let (first, rest) = parted(state, piece);
            let mut ran = Ran { first_skipped: None, ..state.take(first)? };
            ran.add(state.take(rest)?);
            Ok(ran)
        }),
        pieces("the last skipped of the two parts is named", |state, piece| {
            if !ends_record(state, piece) {
                return state.take(piece);
            }
            let (first, rest) = parted(state, piece);
            let joined = state.take(first)?;
            let mut ran = state.take(rest)?;
            let named = ran.first_skipped.or(joined.first_skipped);
            ran.add(joined);
            Ok(Ran { first_skipped: named, ..ran })
        }),
        pieces("a ragged piece is refused with 6", |state, piece| {
            if (state.held as usize + piece.len()) % RECORD != 0 {
                return Err(Refusal::Ragged);
            }
            state.take(piece)
        }),
        pieces("a ragged piece is refused with 6 where nothing is held", |state, piece| {
            if state.held == 0 && piece.len() % RECORD != 0 {
                return Err(Refusal::Ragged);
            }
            state.take(piece)
        }),
        pieces("an empty piece shows a table", |state, piece| {
            let ran = state.take(piece)?;
            Ok(Ran { shown: ran.shown + u64::from(piece.is_empty()), ..ran })
        }),
        answers("the counts are added up from piece to piece", |asked| match asked.call? {
            Call::PiecesTake { pieces, cut } if pieces.is_well_formed() => {
                let mut sum = Ran::NOTHING;
                let mut state = pieces.clone();
                let mut steps = Vec::new();
                for piece in cut.pieces() {
                    sum.add(state.take(piece).ok()?);
                    steps.push(crate::wrong::taken_text(&state, &Ok(sum)));
                }
                Some(steps.join(" / "))
            }
            _ => None,
        }),
        says("the last piece alone is told", |call, words| {
            if let Call::PiecesTake { .. } = call {
                let last = words.iter().rposition(|word| word == "/").map_or(0, |place| place + 1);
                words.drain(..last);
            }
        }),
        cut_piece(255),
        cut_piece(1_024),
    ]
}

/// A state that is not well formed, mended as a program sees it that does not judge that part.
fn mends(name: &str, mend: fn(&mut PieceReader)) -> Wrong {
    takes(name, move |call| {
        if let Call::PiecesTake { pieces, .. } | Call::PiecesLoad { pieces, .. } | Call::PiecesAsk { pieces, .. } = call
        {
            mend(pieces);
        }
    })
}

fn states() -> Vec<Wrong> {
    vec![
        mends("eight bytes may be held", |pieces| pieces.held -= u64::from(pieces.held == 8)),
        mends("as many as are held are not judged", |pieces| {
            if pieces.held > 7 {
                forget(pieces);
            }
        }),
        mends("what is held is cut to 8 bits", |pieces| pieces.held &= 0xff),
        mends("what is held is cut to 32 bits", |pieces| pieces.held &= 0xffff_ffff),
        mends("unused places are not judged", |pieces| {
            let held = (pieces.held as usize).min(LEFT_OVER);
            pieces.bytes[held..].fill(0);
        }),
        mends("the last unused place is not judged", |pieces| {
            pieces.bytes[6] *= u8::from(pieces.held > 6);
        }),
        mends("the first unused place is not judged", |pieces| {
            if pieces.held < 7 {
                pieces.bytes[pieces.held as usize] = 0;
            }
        }),
        refuses("nothing may be held", 2, |call| call.pieces().is_some_and(|pieces| pieces.held > 0)),
        refuses("seven bytes may not be held", 2, |call| call.pieces().is_some_and(|pieces| pieces.held == 7)),
        refuses("used places may not be 0", 2, |call| {
            call.pieces().is_some_and(|pieces| {
                let held = (pieces.held as usize).min(LEFT_OVER);
                pieces.bytes[..held].last() == Some(&0)
            })
        }),
        refuses("what is held is judged before its record is whole", 2, |call| {
            call.pieces().is_some_and(|pieces| pieces.held >= 2 && !matches!(pieces.bytes[0], 0 | 3))
        }),
        takes("the reader of pieces is not judged for questions", |call| match call {
            Call::PiecesAsk { pieces, .. } if pieces.reader.is_well_formed() => forget(pieces),
            _ => {}
        }),
        takes("the reader of pieces is not judged for loads", |call| match call {
            Call::PiecesLoad { pieces, .. } if pieces.reader.is_well_formed() => forget(pieces),
            _ => {}
        }),
    ]
}

/// It ends an accepted load in another state.
fn loads(name: &str, change: fn(&mut PieceReader)) -> Wrong {
    answers(name, move |asked| match asked.call? {
        Call::PiecesLoad { pieces, current, image } => {
            let mut loaded = pieces.clone();
            loaded.load(image, *current).ok()?;
            change(&mut loaded);
            Some(format!("0 {}", crate::wrong::pieces_text(&loaded)))
        }
        _ => None,
    })
}

fn between() -> Vec<Wrong> {
    vec![
        loads("a load drops what is left over", forget),
        loads("a load keeps the mode", |pieces| pieces.reader.mode = Mode::Stale),
        refuses("a load is refused while bytes are held", 7, |call| match call {
            Call::PiecesLoad { pieces, .. } => pieces.held > 0,
            _ => false,
        }),
        refuses("a load is ragged while bytes are held", 6, |call| match call {
            Call::PiecesLoad { pieces, .. } => pieces.held > 0,
            _ => false,
        }),
        answers("a slot is unknown while bytes are held", |asked| match asked.call? {
            Call::PiecesAsk { pieces, .. } if pieces.held > 0 && asked.right.starts_with("contact") => {
                Some("unknown".to_string())
            }
            _ => None,
        }),
        says("a refused fresh reader holds seven bytes", |call, words| {
            if let (Call::PiecesFresh(_), "1") = (call, words[0].as_str()) {
                words[PIECES_NUMBERS - LEFT_OVER] = "7".to_string();
            }
        }),
        refuses("a fresh reader of pieces has 16 slots at most", 1, |call| match call {
            Call::PiecesFresh(setup) => setup.slots > 16,
            _ => false,
        }),
        takes("a fresh reader of pieces may have 33 slots", |call| match call {
            Call::PiecesFresh(setup) if setup.slots == 33 => setup.slots = 32,
            _ => {}
        }),
    ]
}

/// Each mistake of this file.
pub fn all() -> Vec<Wrong> {
    [left_over(), joined(), told(), states(), between()].into_iter().flatten().collect()
}
