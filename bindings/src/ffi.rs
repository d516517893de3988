//! The functions of `chandrulek.h`: their declarations, and a safe call of each. All unsafe code of the crate is here.
//!
//! (1) What the header asks of a caller: no pointer is null, a slice has as many elements as its length says, an array as many as it is declared
//! with, and what a call may change is shared with no other argument. References to slices and arrays are all that. The library asks nothing
//! of the values, keeps no pointer, and stays inside what it is lent.

/// The version of the states' layout: byte 0 of every state.
pub const VERSION: u8 = 1;
/// Slots of a table.
pub const RECORDS: usize = 32;
/// Numbers of a slot in a frame or an image.
pub(crate) const PER_SLOT: usize = 6;
/// Numbers of a setup.
pub(crate) const SETUP: usize = 6;
/// Bytes of an event's record.
pub const RECORD_BYTES: usize = 8;
/// Events of one frame, at most.
pub const MOST_EVENTS: usize = 228;
/// A buffer with so many bytes from the position on has room for any frame.
pub const MOST_BYTES: usize = 1824;
/// Bytes of a [`Writer`](crate::Writer).
pub const WRITER_BYTES: usize = 848;
/// Bytes of a [`Reader`](crate::Reader).
pub const READER_BYTES: usize = 1568;
/// Bytes of a [`LineReader`](crate::LineReader).
pub const LINE_BYTES: usize = 1576;
/// Bytes of a [`Pod`](crate::Pod).
pub const POD_BYTES: usize = 12;
/// Bytes of a recording's block.
pub const BLOCK_BYTES: usize = 512;
/// Events that a block holds at most.
pub const BLOCK_EVENTS: usize = 62;
/// Bytes of a force stick's packet, as it is written.
pub const FORCE_BYTES: usize = 12;
/// Bytes of the longest command to the pod.
pub const COMMAND_BYTES: usize = 7;

extern "C" {
    fn chandrulek_writer_fresh(state: *mut u8, state_len: usize, setup: *const u32, pointer: u32) -> u32;
    fn chandrulek_write(
        state: *mut u8,
        state_len: usize,
        frame: *const i32,
        frame_len: usize,
        buf: *mut u8,
        buf_len: usize,
        at: usize,
        answer: *mut u64,
    ) -> u32;
    fn chandrulek_write_anonymous(
        state: *mut u8,
        state_len: usize,
        records: *const u8,
        records_len: usize,
        buf: *mut u8,
        buf_len: usize,
        at: usize,
        answer: *mut u64,
    ) -> u32;
    fn chandrulek_reader_fresh(state: *mut u8, state_len: usize, setup: *const u32) -> u32;
    fn chandrulek_run(
        state: *mut u8,
        state_len: usize,
        records: *const u8,
        records_len: usize,
        answer: *mut u64,
    ) -> u32;
    fn chandrulek_load(state: *mut u8, state_len: usize, image: *const i32, image_len: usize, current: usize) -> u32;
    fn chandrulek_ask(state: *const u8, state_len: usize, slot: usize, answer: *mut i32) -> u32;
    fn chandrulek_line_fresh(state: *mut u8, state_len: usize, setup: *const u32) -> u32;
    fn chandrulek_take(state: *mut u8, state_len: usize, piece: *const u8, piece_len: usize, answer: *mut u64) -> u32;
    fn chandrulek_line_load(
        state: *mut u8,
        state_len: usize,
        image: *const i32,
        image_len: usize,
        current: usize,
    ) -> u32;
    fn chandrulek_line_ask(state: *const u8, state_len: usize, slot: usize, answer: *mut i32) -> u32;
    fn chandrulek_pod_fresh(state: *mut u8, state_len: usize) -> u32;
    fn chandrulek_pod_step(state: *mut u8, state_len: usize, byte: u8, answer: *mut i32) -> u32;
    fn chandrulek_command_write(
        pod: *mut u8,
        pod_len: usize,
        command: *const u32,
        buf: *mut u8,
        buf_len: usize,
        at: usize,
        answer: *mut u64,
    ) -> u32;
    fn chandrulek_command_read(bytes: *const u8, bytes_len: usize, at: usize, answer: *mut u32) -> usize;
    fn chandrulek_force_write(report: *const i32, buf: *mut u8, buf_len: usize, at: usize, answer: *mut u64) -> u32;
    fn chandrulek_force_read(bytes: *const u8, bytes_len: usize, at: usize, answer: *mut i32) -> usize;
    fn chandrulek_make_block(
        number: u32,
        events: *const u8,
        events_len: usize,
        block: *mut u8,
        block_len: usize,
    ) -> u32;
    fn chandrulek_lay_blocks(
        number: u32,
        events: *const u8,
        events_len: usize,
        buf: *mut u8,
        buf_len: usize,
        at: usize,
        answer: *mut u64,
    ) -> u32;
    fn chandrulek_read_block(block: *const u8, block_len: usize, number: u32, answer: *mut u64) -> u32;
}

pub(crate) fn writer_fresh(state: &mut [u8], setup: &[u32; 6], pointer: u32) -> u32 {
    // SAFETY: whole slices and arrays, lent for the call (1).
    unsafe { chandrulek_writer_fresh(state.as_mut_ptr(), state.len(), setup.as_ptr(), pointer) }
}

pub(crate) fn write(state: &mut [u8], frame: &[i32], buf: &mut [u8], at: usize, answer: &mut [u64; 3]) -> u32 {
    // SAFETY: whole slices and arrays, lent for the call (1).
    unsafe {
        chandrulek_write(
            state.as_mut_ptr(),
            state.len(),
            frame.as_ptr(),
            frame.len(),
            buf.as_mut_ptr(),
            buf.len(),
            at,
            answer.as_mut_ptr(),
        )
    }
}

pub(crate) fn write_anonymous(
    state: &mut [u8],
    records: &[u8],
    buf: &mut [u8],
    at: usize,
    answer: &mut [u64; 3],
) -> u32 {
    // SAFETY: whole slices and arrays, lent for the call (1).
    unsafe {
        chandrulek_write_anonymous(
            state.as_mut_ptr(),
            state.len(),
            records.as_ptr(),
            records.len(),
            buf.as_mut_ptr(),
            buf.len(),
            at,
            answer.as_mut_ptr(),
        )
    }
}

pub(crate) fn reader_fresh(state: &mut [u8], setup: &[u32; 6]) -> u32 {
    // SAFETY: whole slices and arrays, lent for the call (1).
    unsafe { chandrulek_reader_fresh(state.as_mut_ptr(), state.len(), setup.as_ptr()) }
}

pub(crate) fn run(state: &mut [u8], records: &[u8], answer: &mut [u64; 8]) -> u32 {
    // SAFETY: whole slices and arrays, lent for the call (1).
    unsafe { chandrulek_run(state.as_mut_ptr(), state.len(), records.as_ptr(), records.len(), answer.as_mut_ptr()) }
}

pub(crate) fn load(state: &mut [u8], image: &[i32], current: usize) -> u32 {
    // SAFETY: whole slices and arrays, lent for the call (1).
    unsafe { chandrulek_load(state.as_mut_ptr(), state.len(), image.as_ptr(), image.len(), current) }
}

pub(crate) fn ask(state: &[u8], slot: usize, answer: &mut [i32; 7]) -> u32 {
    // SAFETY: whole slices and arrays, lent for the call (1).
    unsafe { chandrulek_ask(state.as_ptr(), state.len(), slot, answer.as_mut_ptr()) }
}

pub(crate) fn line_fresh(state: &mut [u8], setup: &[u32; 6]) -> u32 {
    // SAFETY: whole slices and arrays, lent for the call (1).
    unsafe { chandrulek_line_fresh(state.as_mut_ptr(), state.len(), setup.as_ptr()) }
}

pub(crate) fn take(state: &mut [u8], piece: &[u8], answer: &mut [u64; 8]) -> u32 {
    // SAFETY: whole slices and arrays, lent for the call (1).
    unsafe { chandrulek_take(state.as_mut_ptr(), state.len(), piece.as_ptr(), piece.len(), answer.as_mut_ptr()) }
}

pub(crate) fn line_load(state: &mut [u8], image: &[i32], current: usize) -> u32 {
    // SAFETY: whole slices and arrays, lent for the call (1).
    unsafe { chandrulek_line_load(state.as_mut_ptr(), state.len(), image.as_ptr(), image.len(), current) }
}

pub(crate) fn line_ask(state: &[u8], slot: usize, answer: &mut [i32; 7]) -> u32 {
    // SAFETY: whole slices and arrays, lent for the call (1).
    unsafe { chandrulek_line_ask(state.as_ptr(), state.len(), slot, answer.as_mut_ptr()) }
}

pub(crate) fn pod_fresh(state: &mut [u8]) -> u32 {
    // SAFETY: whole slices and arrays, lent for the call (1).
    unsafe { chandrulek_pod_fresh(state.as_mut_ptr(), state.len()) }
}

pub(crate) fn pod_step(state: &mut [u8], byte: u8, answer: &mut [i32; 7]) -> u32 {
    // SAFETY: whole slices and arrays, lent for the call (1).
    unsafe { chandrulek_pod_step(state.as_mut_ptr(), state.len(), byte, answer.as_mut_ptr()) }
}

pub(crate) fn command_write(
    pod: &mut [u8],
    command: &[u32; 7],
    buf: &mut [u8],
    at: usize,
    answer: &mut [u64; 1],
) -> u32 {
    // SAFETY: whole slices and arrays, lent for the call (1).
    unsafe {
        chandrulek_command_write(
            pod.as_mut_ptr(),
            pod.len(),
            command.as_ptr(),
            buf.as_mut_ptr(),
            buf.len(),
            at,
            answer.as_mut_ptr(),
        )
    }
}

pub(crate) fn command_read(bytes: &[u8], at: usize, answer: &mut [u32; 8]) -> usize {
    // SAFETY: whole slices and arrays, lent for the call (1).
    unsafe { chandrulek_command_read(bytes.as_ptr(), bytes.len(), at, answer.as_mut_ptr()) }
}

pub(crate) fn force_write(report: &[i32; 6], buf: &mut [u8], at: usize, answer: &mut [u64; 1]) -> u32 {
    // SAFETY: whole slices and arrays, lent for the call (1).
    unsafe { chandrulek_force_write(report.as_ptr(), buf.as_mut_ptr(), buf.len(), at, answer.as_mut_ptr()) }
}

pub(crate) fn force_read(bytes: &[u8], at: usize, answer: &mut [i32; 7]) -> usize {
    // SAFETY: whole slices and arrays, lent for the call (1).
    unsafe { chandrulek_force_read(bytes.as_ptr(), bytes.len(), at, answer.as_mut_ptr()) }
}

pub(crate) fn make_block(number: u32, events: &[u8], block: &mut [u8]) -> u32 {
    // SAFETY: whole slices and arrays, lent for the call (1).
    unsafe { chandrulek_make_block(number, events.as_ptr(), events.len(), block.as_mut_ptr(), block.len()) }
}

pub(crate) fn lay_blocks(number: u32, events: &[u8], buf: &mut [u8], at: usize, answer: &mut [u64; 3]) -> u32 {
    // SAFETY: whole slices and arrays, lent for the call (1).
    unsafe {
        chandrulek_lay_blocks(
            number,
            events.as_ptr(),
            events.len(),
            buf.as_mut_ptr(),
            buf.len(),
            at,
            answer.as_mut_ptr(),
        )
    }
}

pub(crate) fn read_block(block: &[u8], number: u32, answer: &mut [u64; 2]) -> u32 {
    // SAFETY: whole slices and arrays, lent for the call (1).
    unsafe { chandrulek_read_block(block.as_ptr(), block.len(), number, answer.as_mut_ptr()) }
}
