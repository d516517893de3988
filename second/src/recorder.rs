//! The shift recorder: events in blocks of 512 bytes, each with its number and its check.

use crate::events::RECORD;
use crate::refusal::Refusal;

/// The bytes of a block.
pub const BLOCK: usize = 512;
/// The events that a block holds at most.
pub const MOST: usize = 62;
/// The bytes of these events.
pub const FULL: usize = MOST * RECORD;
/// Where the count of the events stands, 16 bits of it; two bytes that are zero come behind it.
pub const COUNT: usize = 4;
/// Where the events begin.
pub const EVENTS: usize = 8;
/// Where the check stands, 32 bits of it. All bytes before it are summed up.
pub const CHECK: usize = 508;

/// Why a block is not read; the first that fits, in this order.
#[derive(Clone, Copy, PartialEq, Eq, Debug)]
pub enum Wrong {
    /// Also for a piece that has not 512 bytes.
    Check,
    Number,
    Count,
    NotZero,
}

impl Wrong {
    /// Its number in a script; these are not document 01's.
    pub fn number(self) -> u8 {
        1 + self as u8
    }

    /// Its name.
    pub fn name(self) -> &'static str {
        match self {
            Wrong::Check => "wrong check",
            Wrong::Number => "wrong number",
            Wrong::Count => "count over 62",
            Wrong::NotZero => "not zero",
        }
    }
}

/// The sum over the bytes before the check of each times its position plus one. It is far below 2^32: 255 times 129,286 at most.
pub fn check(block: &[u8; BLOCK]) -> u32 {
    block[..CHECK].iter().zip(1..).map(|(byte, place)| u32::from(*byte) * place).sum()
}

/// Puts the sum in its place.
pub fn put_check(block: &mut [u8; BLOCK]) {
    let sum = check(block);
    block[CHECK..].copy_from_slice(&sum.to_le_bytes());
}

/// One block; refusals 4 (number 0, no records, or more than 62) and 6.
pub fn block(number: u32, records: &[u8]) -> Result<[u8; BLOCK], Refusal> {
    if number == 0 || records.is_empty() || records.len() > FULL {
        return Err(Refusal::Value);
    }
    if records.len() % RECORD != 0 {
        return Err(Refusal::Ragged);
    }
    let mut block = [0; BLOCK];
    block[..COUNT].copy_from_slice(&number.to_le_bytes());
    block[COUNT..COUNT + 2].copy_from_slice(&((records.len() / RECORD) as u16).to_le_bytes());
    block[EVENTS..EVENTS + records.len()].copy_from_slice(records);
    put_check(&mut block);
    Ok(block)
}

/// What laying gave.
#[derive(Clone, Copy, PartialEq, Eq, Debug)]
pub struct Laid {
    pub blocks: u64,
    /// The number of the block after the last; 0 where no number is left.
    pub next: u32,
}

/// The blocks of all records, numbered from `number` on, into the buffer from the position on; refusals 4, 5 and 6. No records make no block.
pub fn lay(number: u32, records: &[u8], buffer: &mut [u8], position: u64) -> Result<Laid, Refusal> {
    let blocks = records.len().div_ceil(FULL) as u64;
    let after = u64::from(number) + blocks;
    if number == 0 || after > 1 << 32 {
        return Err(Refusal::Value);
    }
    let need = blocks * BLOCK as u64;
    if position > buffer.len() as u64 || buffer.len() as u64 - position < need {
        return Err(Refusal::NoRoom { need });
    }
    if records.len() % RECORD != 0 {
        return Err(Refusal::Ragged);
    }
    let room = buffer[position as usize..].chunks_exact_mut(BLOCK);
    for ((events, place), number) in records.chunks(FULL).zip(room).zip(number..=u32::MAX) {
        place.copy_from_slice(&block(number, events)?);
    }
    // Past the last number no block can be made, and 0 says so.
    Ok(Laid { blocks, next: after as u32 })
}

/// The events of a block, as bytes; a piece of another length than 512 is a wrong check.
pub fn read(number: u32, piece: &[u8]) -> Result<&[u8], Wrong> {
    let block: &[u8; BLOCK] = piece.try_into().map_err(|_| Wrong::Check)?;
    if block[CHECK..] != check(block).to_le_bytes() {
        return Err(Wrong::Check);
    }
    if block[..COUNT] != number.to_le_bytes() {
        return Err(Wrong::Number);
    }
    let count = usize::from(u16::from_le_bytes([block[COUNT], block[COUNT + 1]]));
    if count > MOST {
        return Err(Wrong::Count);
    }
    let end = EVENTS + count * RECORD;
    let zeros = [&block[COUNT + 2..EVENTS], &block[end..CHECK]];
    if zeros.concat().iter().any(|byte| *byte != 0) {
        return Err(Wrong::NotZero);
    }
    Ok(&piece[EVENTS..end])
}
