//! What a host does between runs to the bytes of a state: it raises a line, or sets the mask. Nothing else is judged.

use std::ops::Range;

pub const STATE: usize = 3548;
/// Where the bytes have the two numbers.
pub const MASK: Range<usize> = 3536..3540;
pub const WAITING: Range<usize> = 3540..3544;

const DONE: u64 = 0;
const REFUSED: u64 = 2;

/// A line that waits already waits on, and is served once.
pub fn raise(state: &mut [u8], line: u64) -> u64 {
    if state.len() != STATE || !(1..=15).contains(&line) {
        return REFUSED;
    }
    let waiting = state[WAITING].iter().fold(0, |number, &byte| number << 8 | u32::from(byte));
    state[WAITING].copy_from_slice(&(waiting | 1 << line).to_be_bytes());
    DONE
}

pub fn set_mask(state: &mut [u8], mask: u64) -> u64 {
    if state.len() != STATE || mask >= 1 << 16 {
        return REFUSED;
    }
    state[MASK].copy_from_slice(&(mask as u32).to_be_bytes());
    DONE
}
