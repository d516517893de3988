//! The recorder in plain Rust, from document 02: a block is written where it is to lie, and read where it lies.

pub const BLOCK: usize = 512;
pub const MOST: usize = 62;
pub const FULL: usize = 8 * MOST;
const HEADER: usize = 8;
const CHECK: usize = 508;

/// What laying answers: the verdict, how many blocks, the number after them, the bytes needed.
pub type Laid = (u64, [u64; 3]);
/// What reading answers: 0 or the refusal's place among document 02's four, the events' place and their count.
pub type Read = (u64, [u64; 2]);

fn check(block: &[u8]) -> u32 {
    block[..CHECK].iter().zip(1..).map(|(&byte, weight): (&u8, u32)| u32::from(byte) * weight).sum()
}

fn put(block: &mut [u8], number: u32, events: &[u8]) {
    let end = HEADER + events.len();
    block[..4].copy_from_slice(&number.to_le_bytes());
    block[4..HEADER].copy_from_slice(&(events.len() as u32 / 8).to_le_bytes());
    block[HEADER..end].copy_from_slice(events);
    block[end..CHECK].fill(0);
    let sum = check(block);
    block[CHECK..].copy_from_slice(&sum.to_le_bytes());
}

pub fn lay(number: u32, events: &[u8], buf: &mut [u8], at: usize) -> Laid {
    let blocks = events.len().div_ceil(FULL);
    let refused = |verdict, need| (verdict, [0, u64::from(number), need]);
    let after = u64::from(number) + blocks as u64;
    if number == 0 || after > 1 << 32 {
        return refused(4, 0);
    }
    let need = BLOCK * blocks;
    if buf.len() < at || buf.len() - at < need {
        return refused(5, need as u64);
    }
    if events.len() % 8 != 0 {
        return refused(6, 0);
    }
    for ((block, run), number) in buf[at..].chunks_exact_mut(BLOCK).zip(events.chunks(FULL)).zip(number..=u32::MAX) {
        put(block, number, run);
    }
    (0, [blocks as u64, after & 0xffff_ffff, 0])
}

fn four(block: &[u8], at: usize) -> u32 {
    u32::from_le_bytes([block[at], block[at + 1], block[at + 2], block[at + 3]])
}

pub fn read(block: &[u8], number: u32) -> Read {
    let refused = |name| (name, [0, 0]);
    if block.len() != BLOCK || check(block) != four(block, CHECK) {
        return refused(1);
    }
    if four(block, 0) != number {
        return refused(2);
    }
    let count = usize::from(u16::from_le_bytes([block[4], block[5]]));
    if count > MOST {
        return refused(3);
    }
    if block[6..HEADER].iter().chain(&block[HEADER + 8 * count..CHECK]).any(|&byte| byte != 0) {
        return refused(4);
    }
    (0, [HEADER as u64, count as u64])
}
