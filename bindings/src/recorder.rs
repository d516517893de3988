//! The shift recorder: events in blocks, each with its number and its check.

use crate::ffi::{self, BLOCK_BYTES, RECORD_BYTES};
use crate::refusal::Refusal;
use std::error::Error;
use std::fmt;

/// What laying blocks gave.
#[derive(Clone, Copy, PartialEq, Eq, Debug)]
pub struct Laid {
    /// How many blocks were laid.
    pub blocks: usize,
    /// The number of the next block; 0 where no number is left.
    pub next: u32,
}

/// Why a block is not read. **A refused block is a loss**: tell the reader by [`Reader::lost`](crate::Reader::lost).
#[derive(Clone, Copy, PartialEq, Eq, Hash, Debug)]
pub enum BlockRefusal {
    /// Its check is wrong, or it has not 512 bytes.
    WrongCheck,
    /// It has another number than is expected.
    WrongNumber,
    /// It says that it holds more than 62 events.
    CountOver,
    /// A byte that nothing is kept in is not 0.
    NotZero,
}

impl BlockRefusal {
    /// Its number in `chandrulek.h`; these are not the numbers of [`Refusal`].
    pub fn number(self) -> u32 {
        match self {
            BlockRefusal::WrongCheck => 1,
            BlockRefusal::WrongNumber => 2,
            BlockRefusal::CountOver => 3,
            BlockRefusal::NotZero => 4,
        }
    }
}

/// Its name, and what to do.
impl fmt::Display for BlockRefusal {
    fn fmt(&self, f: &mut fmt::Formatter<'_>) -> fmt::Result {
        let name = match self {
            BlockRefusal::WrongCheck => "wrong check",
            BlockRefusal::WrongNumber => "wrong number",
            BlockRefusal::CountOver => "count over 62",
            BlockRefusal::NotZero => "not zero",
        };
        write!(f, "the block is refused: {name}: take it as a loss")
    }
}

impl Error for BlockRefusal {}

/// One block of 1 to 62 events, which are records of 8 bytes.
///
/// # Errors
/// [`Refusal::Value`] where the number is 0, or there is no event, or there are too many; [`Refusal::Ragged`].
pub fn make_block(number: u32, events: &[u8]) -> Result<[u8; BLOCK_BYTES], Refusal> {
    let mut block = [0; BLOCK_BYTES];
    Refusal::judge(ffi::make_block(number, events, &mut block), 0)?;
    Ok(block)
}

/// Lays the blocks of events, numbered from `number` on, into the buffer from the position on. No events make no block.
///
/// # Errors
/// [`Refusal::Value`] where the number is 0 or a block would be numbered past 4,294,967,295; [`Refusal::NoRoom`]; [`Refusal::Ragged`].
pub fn lay_blocks(number: u32, events: &[u8], buffer: &mut [u8], at: usize) -> Result<Laid, Refusal> {
    let mut answer = [0; 3];
    let verdict = ffi::lay_blocks(number, events, buffer, at, &mut answer);
    let [blocks, next, need] = answer;
    Refusal::judge(verdict, need)?;
    Ok(Laid { blocks: blocks as usize, next: next as u32 })
}

/// The events of a block, as records of 8 bytes, where the block of that number is expected.
///
/// # Errors
/// The first name that fits, in the order of [`BlockRefusal`].
pub fn read_block(block: &[u8], number: u32) -> Result<&[u8], BlockRefusal> {
    let mut answer = [0; 2];
    match ffi::read_block(block, number, &mut answer) {
        0 => {
            let [at, count] = answer.map(|number| number as usize);
            Ok(&block[at..at + RECORD_BYTES * count])
        }
        2 => Err(BlockRefusal::WrongNumber),
        3 => Err(BlockRefusal::CountOver),
        4 => Err(BlockRefusal::NotZero),
        _ => Err(BlockRefusal::WrongCheck),
    }
}
