//! The memory sum: what all bytes of memory add up to, handed from run to run beside the memory.
//!
//! Here it is added up afresh, before a run and after it; no store is followed.

use super::state::MEMORY;

/// The greatest sum that a run takes: every byte is FF.
pub const MOST_SUM: u64 = 0xFF * MEMORY as u64;

/// A sum that is handed back has so many values: it wraps where a false one was handed in.
const VALUES: u64 = 1 << 32;

pub fn sum_of(memory: &[u8]) -> u64 {
    memory.iter().map(|&byte| u32::from(byte)).sum::<u32>().into()
}

/// The sum that was handed in, moved as far as that of the memory.
pub fn moved(handed: u64, before: u64, after: u64) -> u64 {
    (handed + after).wrapping_sub(before) % VALUES
}
