//! Calls of the recorder: blocks at their edges, and blocks that are read with one thing wrong, or several.

use super::Maker;
use crate::events::RECORD;
use crate::recorder::{block, put_check, BLOCK, CHECK, COUNT, EVENTS, FULL, MOST};
use crate::script::{RecorderCall, LARGEST_BUFFER};

/// More blocks than this are laid at the buffer's start alone.
const FEW_BLOCKS: u64 = 3;

impl Maker {
    pub(super) fn recorder_call(&mut self) -> RecorderCall {
        match self.random.below(12) {
            0..=2 => self.recorder_block(),
            3..=6 => self.recorder_lay(),
            _ => self.recorder_read(),
        }
    }

    /// Any number but 0, often with zeros in its low bytes or at the end of the range.
    fn block_number(&mut self) -> u32 {
        let any = self.random.word() as u32;
        match self.random.below(8) {
            0..=2 => self.random.from_to(1, 300) as u32,
            3 => self.random.pick(&[1 << 8, 1 << 16, 1 << 24, 1 << 31]),
            4 => u32::MAX - self.random.below(3) as u32,
            _ => any.max(1),
        }
    }

    /// Bytes of so many records: any, many zeros, or all as large as can be, which makes the largest sum.
    fn recorded(&mut self, records: u64) -> Vec<u8> {
        let kind = self.random.below(6);
        let byte = |maker: &mut Maker| match kind {
            0 => 255,
            1 | 2 if maker.random.once_in(2) => 0,
            _ => maker.random.word() as u8,
        };
        (0..records * RECORD as u64).map(|_| byte(self)).collect()
    }

    fn add_ragged(&mut self, records: &mut Vec<u8>) {
        self.tag("recorder: ragged");
        for _ in 0..self.random.from_to(1, RECORD as u64 - 1) {
            records.push(self.random.word() as u8);
        }
    }

    fn recorder_block(&mut self) -> RecorderCall {
        let mut number = self.block_number();
        let count = match self.random.below(10) {
            0 => {
                self.tag("recorder: no records");
                0
            }
            1 | 2 => {
                self.tag("recorder: 62 records");
                MOST as u64
            }
            3 => {
                self.tag("recorder: a block over full");
                self.random.pick(&[63, 63, 64, 65, 124, 256])
            }
            4 => self.random.from_to(1, 61),
            _ => self.random.from_to(1, 4),
        };
        let mut records = self.recorded(count);
        if self.random.once_in(6) {
            self.add_ragged(&mut records);
        }
        if self.random.once_in(8) {
            self.tag("recorder: number 0");
            number = 0;
        } else if self.random.once_in(8) {
            self.tag("recorder: the last number");
            number = u32::MAX;
        }
        RecorderCall::Block { number, records }
    }

    fn recorder_lay(&mut self) -> RecorderCall {
        let count = self.laid_records();
        let mut records = self.recorded(count);
        let is_ragged = self.random.once_in(6);
        if is_ragged {
            self.add_ragged(&mut records);
        }
        let blocks = records.len().div_ceil(FULL) as u64;
        let need = blocks as usize * BLOCK;
        let (position, size) = match blocks {
            // Nothing is needed, and the position may still lie past the end.
            0 if self.random.once_in(3) => {
                self.tag("room: past the end");
                (self.random.from_to(1, 5), 0)
            }
            0..=FEW_BLOCKS => self.room(need),
            _ => (self.random.pick(&[0, 0, 1]), need.min(LARGEST_BUFFER)),
        };
        if is_ragged && (size as u64) < position.saturating_add(need as u64) {
            self.tag("recorder: ragged, without room");
        }
        RecorderCall::Lay { number: self.first_number(blocks), position, size, records }
    }

    fn laid_records(&mut self) -> u64 {
        let most = MOST as u64;
        match self.random.below(12) {
            0 => {
                self.tag("recorder: no records");
                0
            }
            1 | 2 => {
                self.tag("recorder: 62 records");
                most
            }
            3..=5 => {
                self.tag("recorder: several blocks");
                self.random.pick(&[most + 1, 2 * most - 1, 2 * most, 2 * most, 2 * most + 1, 3 * most])
            }
            6 if self.random.once_in(4) => {
                self.tag("recorder: as many blocks as may be");
                let blocks = (LARGEST_BUFFER / BLOCK) as u64;
                self.random.pick(&[blocks * most, blocks * most, blocks * most - 5, blocks * most + 1])
            }
            _ => self.random.from_to(1, 5),
        }
    }

    /// The number of the first of so many blocks: 0, one with which the last block has the last number or one past it, or any.
    fn first_number(&mut self, blocks: u64) -> u32 {
        let last = (1 << 32) - blocks;
        match self.random.below(10) {
            0 => {
                self.tag("recorder: number 0");
                0
            }
            1 | 2 => {
                self.tag("recorder: the last number");
                last.min(u64::from(u32::MAX)) as u32
            }
            3 if blocks > 1 => {
                self.tag("recorder: numbers past the last");
                self.random.pick(&[last + 1, u64::from(u32::MAX)]) as u32
            }
            _ => {
                let number = self.block_number();
                (u64::from(number)).min(last) as u32
            }
        }
    }

    fn recorder_read(&mut self) -> RecorderCall {
        let mut number = self.block_number();
        let count = match self.random.below(6) {
            0 => 0,
            1 | 2 => MOST as u64,
            3 => 1,
            _ => self.random.from_to(1, 61),
        };
        let mut piece = self.any_block(number, count);
        match self.random.below(14) {
            0 | 1 => self.tag("recorder: a good block"),
            2..=4 => self.alter(&mut piece),
            5 => {
                self.tag("recorder: another number expected");
                number = self.other_block_number(number);
            }
            6 => {
                self.tag("recorder: another number written");
                let other = self.other_block_number(number);
                piece[..COUNT].copy_from_slice(&other.to_le_bytes());
                put_check(&mut piece);
            }
            7 | 8 => self.other_count(&mut piece, count),
            9 | 10 => self.dirty(&mut piece, count),
            11 => self.several_faults(&mut piece, &mut number, count),
            _ => return RecorderCall::Read { number, piece: self.other_length(&piece) },
        }
        RecorderCall::Read { number, piece: piece.to_vec() }
    }

    /// A block with a good check; of no events too, which no call makes.
    fn any_block(&mut self, number: u32, count: u64) -> [u8; BLOCK] {
        if count > 0 {
            return block(number, &self.recorded(count)).expect("1 to 62 records");
        }
        let mut piece = [0; BLOCK];
        piece[..COUNT].copy_from_slice(&number.to_le_bytes());
        put_check(&mut piece);
        piece
    }

    /// The check is the one that stood there before.
    fn alter(&mut self, piece: &mut [u8; BLOCK]) {
        match self.random.below(4) {
            0 => {
                self.tag("recorder: one bit of the check altered");
                let bit = self.random.below(32);
                piece[CHECK + bit as usize / 8] ^= 1 << (bit % 8);
            }
            1 => {
                // A byte counts its place plus one times, so 2 at one place weigh what 1 at twice that place plus one does.
                let low = self.random.from_to(EVENTS as u64, 253) as usize;
                let high = 2 * low + 1;
                if piece[low] < 254 && piece[high] > 0 {
                    self.tag("recorder: two bytes altered, the sum as it was");
                    piece[low] += 2;
                    piece[high] -= 1;
                }
            }
            _ => {
                self.tag("recorder: one byte altered");
                let place = match self.random.below(4) {
                    0 => self.random.pick(&[0, 3, 4, 5, 6, 7, 8, CHECK - 1, CHECK, BLOCK - 1]),
                    _ => self.random.below(BLOCK as u64) as usize,
                };
                let by = self.random.pick(&[1, 255, 128, 16]);
                piece[place] = piece[place].wrapping_add(by);
            }
        }
    }

    /// Near it, or the same in some of its bytes.
    fn other_block_number(&mut self, number: u32) -> u32 {
        let bit = 1 << self.random.below(32);
        let other = self.random.pick(&[number.wrapping_add(1), number.wrapping_sub(1), number ^ bit, number ^ bit, 0]);
        if other == number {
            number ^ 1
        } else {
            other
        }
    }

    fn other_count(&mut self, piece: &mut [u8; BLOCK], count: u64) {
        let over = self.random.pick(&[63, 63, 64, 255, 256, 257, 256 + 62, 512, 1 << 15, 65_535]);
        let other = match self.random.below(4) {
            0 if count > 0 => {
                self.tag("recorder: count one less");
                count as u16 - 1
            }
            1 if count < MOST as u64 => {
                self.tag("recorder: count one more");
                count as u16 + 1
            }
            _ => {
                self.tag("recorder: count over 62");
                over
            }
        };
        piece[COUNT..COUNT + 2].copy_from_slice(&other.to_le_bytes());
        put_check(piece);
    }

    /// A byte that should be zero is not, and the check fits.
    fn dirty(&mut self, piece: &mut [u8; BLOCK], count: u64) {
        let behind = EVENTS + count as usize * RECORD;
        let byte = self.random.from_to(1, 255) as u8;
        if self.random.once_in(3) {
            self.tag("recorder: byte 6 or 7 not zero");
            piece[COUNT + 2 + self.random.below(2) as usize] = byte;
        } else {
            self.tag("recorder: a byte behind the events not zero");
            let any = self.random.from_to(behind as u64, CHECK as u64 - 1) as usize;
            piece[self.random.pick(&[behind, CHECK - 1, any])] = byte;
        }
        put_check(piece);
    }

    /// Two or three of them at once, so that one is to be named before the other.
    fn several_faults(&mut self, piece: &mut [u8; BLOCK], number: &mut u32, count: u64) {
        let which = self.random.pick(&[0b011, 0b101, 0b110, 0b111, 0b1011, 0b1101, 0b1110]);
        if which & 1 != 0 {
            *number = self.other_block_number(*number);
        }
        if which & 2 != 0 {
            self.dirty(piece, count);
        }
        if which & 4 != 0 {
            piece[COUNT..COUNT + 2].copy_from_slice(&[self.random.pick(&[63, 64, 255]), 0]);
            put_check(piece);
        }
        if which & 8 != 0 {
            piece[CHECK] = piece[CHECK].wrapping_add(1);
        }
        self.tags.clear();
        self.tag("recorder: several faults");
    }

    /// The records of the next block: mostly as many as it holds; none where nothing is left.
    pub(crate) fn some_of<'a>(&mut self, records: &'a [u8]) -> Option<&'a [u8]> {
        let most = if self.random.once_in(4) { self.random.from_to(1, 61) } else { MOST as u64 };
        records.chunks(most as usize * RECORD).next()
    }

    /// Something of a block is wrong.
    pub(crate) fn damage(&mut self, piece: &mut [u8]) {
        let block: &mut [u8; BLOCK] = piece.try_into().expect("a block");
        let count = u64::from(block[COUNT]).min(MOST as u64);
        match self.random.below(4) {
            0 => self.alter(block),
            1 => {
                block[0] = block[0].wrapping_add(1);
                put_check(block);
            }
            2 => self.other_count(block, count),
            _ => self.dirty(block, count),
        }
    }

    fn other_length(&mut self, piece: &[u8; BLOCK]) -> Vec<u8> {
        if self.random.once_in(2) {
            self.tag("recorder: a piece cut");
            let any = self.random.below(BLOCK as u64) as usize;
            return piece[..self.random.pick(&[0, 1, BLOCK - 1, BLOCK - 4, any, any])].to_vec();
        }
        self.tag("recorder: a piece too long");
        let more = self.random.pick(&[1, 1, 4, 8, BLOCK]);
        [&piece[..], &vec![0; more]].concat()
    }
}
