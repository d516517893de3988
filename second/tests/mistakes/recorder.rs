//! Mistakes in what K2 asks: how a block is made, laid and read.

use second::events::RECORD;
use second::recorder::{block, put_check, BLOCK, CHECK, COUNT, EVENTS, FULL, MOST};
use second::script::{marks, Call, RecorderCall};

use crate::wrong::{answers, bytes_text, judges_early, refuses, says, takes, Wrong};

/// Its number, and where its count and events end; 1 to 4 by name where it is refused.
type Read = Result<usize, u8>;

/// It reads a block otherwise.
fn reads(name: &str, read: impl Fn(u32, &[u8]) -> Read + 'static) -> Wrong {
    answers(name, move |asked| {
        let Call::Recorder(RecorderCall::Read { number, piece }) = asked.call? else {
            return None;
        };
        Some(match read(*number, piece) {
            Ok(count) => format!("0 {EVENTS} {count}"),
            Err(name) => name.to_string(),
        })
    })
}

/// The parts of a reading, so that a mistake is one of them changed.
#[derive(Clone, Copy)]
struct Parts {
    check: fn(&[u8; BLOCK]) -> bool,
    number: fn(u32, u32) -> bool,
    count: fn(&[u8; BLOCK]) -> usize,
    most: usize,
    zeros: fn(&[u8; BLOCK], usize) -> bool,
    order: [u8; 4],
}

fn sum(block: &[u8; BLOCK], weight: fn(usize) -> u64) -> u64 {
    (0..CHECK).map(|place| u64::from(block[place]) * weight(place)).sum()
}

fn right_sum(block: &[u8; BLOCK]) -> u64 {
    sum(block, |place| place as u64 + 1)
}

fn written(block: &[u8; BLOCK]) -> u64 {
    u64::from(u32::from_le_bytes([block[CHECK], block[CHECK + 1], block[CHECK + 2], block[CHECK + 3]]))
}

fn is_zero(block: &[u8; BLOCK], from: usize, to: usize) -> bool {
    from >= to || block[from..to].iter().all(|byte| *byte == 0)
}

const RIGHT: Parts = Parts {
    check: |block| right_sum(block) == written(block),
    number: |expected, found| expected == found,
    count: |block| usize::from(block[4]) + 256 * usize::from(block[5]),
    most: MOST,
    zeros: |block, count| is_zero(block, 6, 8) && is_zero(block, EVENTS + 8 * count, CHECK),
    order: [1, 2, 3, 4],
};

impl Parts {
    fn read(&self, number: u32, piece: &[u8]) -> Read {
        let Ok(block) = <&[u8; BLOCK]>::try_from(piece) else {
            return Err(1);
        };
        let found = u32::from_le_bytes([block[0], block[1], block[2], block[3]]);
        let count = (self.count)(block);
        for name in self.order {
            let is_good = match name {
                1 => (self.check)(block),
                2 => (self.number)(number, found),
                3 => count <= self.most,
                _ => (self.zeros)(block, count),
            };
            if !is_good {
                return Err(name);
            }
        }
        Ok(count)
    }
}

fn with(name: &str, change: impl Fn(&mut Parts)) -> Wrong {
    let mut parts = RIGHT;
    change(&mut parts);
    reads(name, move |number, piece| parts.read(number, piece))
}

/// The ways to read without a mistake.
pub fn right() -> Vec<Wrong> {
    vec![with("blocks", |_| {}), lays("blocks laid", |_| {}), makes("a block made", |_, _| {})]
}

fn checks() -> Vec<Wrong> {
    vec![
        with("the check is not judged", |parts| parts.check = |_| true),
        with("16 bits of the check are judged", |parts| {
            parts.check = |block| right_sum(block) as u16 == written(block) as u16;
        }),
        with("the check's high byte is not judged", |parts| {
            parts.check = |block| right_sum(block) == written(block) & 0xff_ffff;
        }),
        with("a byte counts its place times", |parts| {
            parts.check = |block| sum(block, |place| place as u64) == written(block);
        }),
        with("each byte counts once", |parts| parts.check = |block| sum(block, |_| 1) == written(block)),
        with("the last byte before the check is not summed up", |parts| {
            parts.check = |block| right_sum(block) - 508 * u64::from(block[CHECK - 1]) == written(block);
        }),
        with("the check is of the events alone", |parts| {
            parts.check =
                |block| sum(block, |place| if place < EVENTS { 0 } else { place as u64 + 1 }) == written(block);
        }),
        with("the check's high byte comes first", |parts| {
            parts.check = |block| right_sum(block) == u64::from((written(block) as u32).swap_bytes());
        }),
        with("the sum is cut to 16 bits", |parts| {
            parts.check = |block| right_sum(block) & 0xffff == written(block);
        }),
        reads("a short piece is filled with zeros", |number, piece| {
            let mut whole = piece.to_vec();
            whole.resize(BLOCK.max(piece.len()), 0);
            RIGHT.read(number, &whole)
        }),
        reads("bytes behind a block are passed over", |number, piece| {
            RIGHT.read(number, &piece[..piece.len().min(BLOCK)])
        }),
        reads("a short piece is not zero", |number, piece| {
            if piece.len() < BLOCK {
                return Err(4);
            }
            RIGHT.read(number, piece)
        }),
    ]
}

fn names() -> Vec<Wrong> {
    let mut all = vec![
        with("the number is not judged", |parts| parts.number = |_, _| true),
        with("8 bits of the number are judged", |parts| parts.number = |a, b| a as u8 == b as u8),
        with("16 bits of the number are judged", |parts| parts.number = |a, b| a as u16 == b as u16),
        with("a later number is good", |parts| parts.number = |expected, found| found >= expected),
        with("the number's high byte comes first", |parts| parts.number = |a, b| a == b.swap_bytes()),
        with("63 events are good", |parts| parts.most = 63),
        with("62 events are too many", |parts| parts.most = 61),
        with("the count has 8 bits", |parts| parts.count = |block| usize::from(block[4])),
        with("bytes 6 and 7 are not judged", |parts| {
            parts.zeros = |block, count| is_zero(block, EVENTS + 8 * count, CHECK);
        }),
        with("byte 7 is not judged", |parts| {
            parts.zeros = |block, count| is_zero(block, 6, 7) && is_zero(block, EVENTS + 8 * count, CHECK);
        }),
        with("what is behind the events is not judged", |parts| parts.zeros = |block, _| is_zero(block, 6, 8)),
        with("the four bytes before the check are not judged", |parts| {
            parts.zeros = |block, count| is_zero(block, 6, 8) && is_zero(block, EVENTS + 8 * count, CHECK - 4);
        }),
        with("the first byte behind the events is not judged", |parts| {
            parts.zeros = |block, count| is_zero(block, 6, 8) && is_zero(block, EVENTS + 8 * count + 1, CHECK);
        }),
        reads("a block of no event is refused", |number, piece| match RIGHT.read(number, piece) {
            Ok(0) => Err(3),
            read => read,
        }),
    ];
    for order in [[2, 1, 3, 4], [1, 3, 2, 4], [1, 2, 4, 3], [1, 4, 2, 3]] {
        all.push(with(&format!("judged in the order {order:?}"), |parts| parts.order = order));
    }
    all
}

/// It makes a block otherwise: the call's number and records, and the block.
fn makes(name: &str, change: impl Fn(u32, &mut [u8; BLOCK]) + 'static) -> Wrong {
    answers(name, move |asked| {
        let Call::Recorder(RecorderCall::Block { number, records }) = asked.call? else {
            return None;
        };
        let mut made = block(*number, records).ok()?;
        change(*number, &mut made);
        Some(format!("0 :{}", bytes_text(&made)))
    })
}

/// The records and the number of a call that makes one block.
fn one_block(call: &mut Call) -> Option<(&mut u32, &mut Vec<u8>)> {
    match call {
        Call::Recorder(RecorderCall::Block { number, records }) => Some((number, records)),
        _ => None,
    }
}

fn blocks() -> Vec<Wrong> {
    vec![
        makes("the number's high byte is written first", |number, made| {
            made[..COUNT].copy_from_slice(&number.to_be_bytes());
            put_check(made);
        }),
        makes("the bytes are counted", |_, made| {
            let bytes = made[COUNT] as u16 * RECORD as u16;
            made[COUNT..COUNT + 2].copy_from_slice(&bytes.to_le_bytes());
            put_check(made);
        }),
        makes("the check is not written", |_, made| made[CHECK..].fill(0)),
        makes("the check's high byte is written first", |_, made| made[CHECK..].reverse()),
        makes("16 bits of the check are written", |_, made| made[CHECK + 2..].fill(0)),
        makes("the check is one more", |_, made| made[CHECK] = made[CHECK].wrapping_add(1)),
        makes("what is behind the events is not zero", |_, made| {
            made[CHECK - 1] = 255;
            put_check(made);
        }),
        takes("number 0 is 1", |call| {
            if let Some((number @ 0, _)) = one_block(call) {
                *number = 1;
            }
        }),
        takes("records too many are left out", |call| {
            if let Some((_, records)) = one_block(call) {
                records.truncate(FULL);
            }
        }),
        takes("a cut record is left out of a block", |call| {
            if let Some((_, records)) = one_block(call) {
                records.truncate(records.len() / RECORD * RECORD);
            }
        }),
        judges_early("a ragged block is judged first", 6, |call| match call {
            Call::Recorder(RecorderCall::Block { records, .. }) => records.len() % RECORD != 0,
            _ => false,
        }),
        refuses("a block has 61 records at most", 4, |call| match call {
            Call::Recorder(RecorderCall::Block { records, .. }) => records.len() == FULL,
            _ => false,
        }),
        refuses("the last number is out of range", 4, |call| match call {
            Call::Recorder(RecorderCall::Block { number, .. }) => *number == u32::MAX,
            _ => false,
        }),
    ]
}

/// A call that lays blocks, in parts.
struct Laying<'a> {
    number: u32,
    position: u64,
    size: usize,
    records: &'a [u8],
    verdict: u8,
    blocks: u64,
    next: u32,
    need: u64,
    buffer: Vec<u8>,
}

/// It lays blocks otherwise: the right answer changed.
fn lays(name: &str, change: impl Fn(&mut Laying) + 'static) -> Wrong {
    answers(name, move |asked| {
        let Call::Recorder(RecorderCall::Lay { number, position, size, records }) = asked.call? else {
            return None;
        };
        let words: Vec<&str> = asked.right.split(' ').collect();
        let said = |i: usize| words[i].parse::<u64>().expect("a number");
        let mut laying = Laying {
            number: *number,
            position: *position,
            size: *size,
            records,
            verdict: said(0) as u8,
            blocks: said(1),
            next: said(2) as u32,
            need: said(3),
            buffer: words[5..].iter().map(|byte| byte.parse().expect("a byte")).collect(),
        };
        change(&mut laying);
        let Laying { verdict, blocks, next, need, buffer, .. } = laying;
        Some(format!("{verdict} {blocks} {next} {need} :{}", bytes_text(&buffer)))
    })
}

impl Laying<'_> {
    fn refuse(&mut self, verdict: u8) {
        (self.verdict, self.blocks, self.next, self.need) = (verdict, 0, self.number, 0);
        self.buffer = marks(self.size);
    }

    fn has_room(&self, need: u64) -> bool {
        self.position.checked_add(need).is_some_and(|end| end <= self.size as u64)
    }

    fn each(&mut self, change: fn(u32, &mut [u8; BLOCK])) {
        if self.verdict == 0 {
            let places = self.buffer[self.position as usize..].chunks_exact_mut(BLOCK).take(self.blocks as usize);
            for (place, i) in places.zip(0..) {
                let block: &mut [u8; BLOCK] = place.try_into().expect("a block");
                change(i, block);
                put_check(block);
            }
        }
    }
}

fn room() -> Vec<Wrong> {
    vec![
        lays("a ragged run is judged before the room", |laying| {
            if laying.verdict == 5 && laying.records.len() % RECORD != 0 {
                laying.refuse(6);
            }
        }),
        lays("the room is judged before the number", |laying| {
            let need = laying.records.len().div_ceil(FULL) as u64 * BLOCK as u64;
            if laying.verdict == 4 && !laying.has_room(need) {
                laying.verdict = 5;
                laying.need = need;
            }
        }),
        lays("the need counts whole records alone", |laying| {
            if laying.verdict == 5 {
                laying.need = (laying.records.len() / RECORD).div_ceil(MOST) as u64 * BLOCK as u64;
            }
        }),
        lays("the need is of full blocks alone", |laying| {
            if laying.verdict == 5 {
                laying.need = (laying.records.len() / FULL * BLOCK) as u64;
            }
        }),
        lays("the need is that of the records", |laying| {
            if laying.verdict == 5 {
                laying.need = laying.records.len() as u64;
            }
        }),
        lays("the need is told of accepted calls", |laying| {
            if laying.verdict == 0 {
                laying.need = laying.blocks * BLOCK as u64;
            }
        }),
        lays("without records any position will do", |laying| {
            if laying.verdict == 5 && laying.records.is_empty() {
                (laying.verdict, laying.next) = (0, laying.number);
            }
        }),
        lays("what is behind the blocks is zero", |laying| {
            if laying.verdict == 0 {
                laying.buffer[laying.position as usize + laying.blocks as usize * BLOCK..].fill(0);
            }
        }),
        lays("blocks are laid from the start", |laying| {
            if laying.verdict == 0 {
                laying.buffer.rotate_left(laying.position as usize);
            }
        }),
        lays("a block without room is cut", |laying| {
            if laying.verdict == 5 && laying.position < laying.size as u64 {
                if let Ok(made) = block(laying.number, &laying.records[..laying.records.len().min(FULL)]) {
                    let rest = laying.size - laying.position as usize;
                    laying.buffer[laying.position as usize..][..rest.min(BLOCK)]
                        .copy_from_slice(&made[..rest.min(BLOCK)]);
                }
            }
        }),
    ]
}

fn numbers() -> Vec<Wrong> {
    vec![
        lays("next is the last block's number", |laying| {
            if laying.verdict == 0 && laying.blocks > 0 {
                laying.next = laying.next.wrapping_sub(1);
            }
        }),
        lays("next is 1 past the last number", |laying| {
            if laying.verdict == 0 && laying.next == 0 {
                laying.next = 1;
            }
        }),
        lays("next is 0 where there is no block", |laying| {
            if laying.verdict == 0 && laying.blocks == 0 {
                laying.next = 0;
            }
        }),
        lays("a refusal has no next number", |laying| {
            if laying.verdict != 0 {
                laying.next = 0;
            }
        }),
        lays("the last number is past the range", |laying| {
            if laying.verdict == 0 && laying.next == 0 {
                laying.refuse(4);
            }
        }),
        lays("each block has the first one's number", |laying| {
            let number = laying.number;
            if laying.verdict == 0 && laying.blocks > 1 {
                for place in
                    laying.buffer[laying.position as usize..].chunks_exact_mut(BLOCK).take(laying.blocks as usize)
                {
                    let block: &mut [u8; BLOCK] = place.try_into().expect("a block");
                    block[..COUNT].copy_from_slice(&number.to_le_bytes());
                    put_check(block);
                }
            }
        }),
        lays("blocks are numbered from 0", |laying| {
            laying.each(|_, block| {
                let number = u32::from_le_bytes([block[0], block[1], block[2], block[3]]);
                block[..COUNT].copy_from_slice(&(number - 1).to_le_bytes());
            });
        }),
        lays("the last block's count is 62", |laying| laying.each(|_, block| block[COUNT] = 62)),
        takes("past the last number comes 1", |call| {
            if let Call::Recorder(RecorderCall::Lay { number, records, .. }) = call {
                if u64::from(*number) + records.len().div_ceil(FULL) as u64 > 1 << 32 {
                    *number = 1;
                }
            }
        }),
        takes("number 0 is laid as 1", |call| {
            if let Call::Recorder(RecorderCall::Lay { number: number @ 0, .. }) = call {
                *number = 1;
            }
        }),
        takes("a cut record is left out of the blocks", |call| {
            if let Call::Recorder(RecorderCall::Lay { records, .. }) = call {
                records.truncate(records.len() / RECORD * RECORD);
            }
        }),
        says("the count of blocks has three bits", |call, words| {
            if let Call::Recorder(RecorderCall::Lay { .. }) = call {
                words[1] = words[1].replace('8', "0");
            }
        }),
    ]
}

/// Each mistake of this file.
pub fn all() -> Vec<Wrong> {
    [checks(), names(), blocks(), room(), numbers()].into_iter().flatten().collect()
}
