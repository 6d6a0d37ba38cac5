//! Numbers that are worth trying as cells and as addresses.

use crate::model::place::{VIEW, VIEW_BYTES};
use crate::model::reach::{PART, SHARED, TASKS};
use crate::model::state::{LOCALS, MEMORY};
use crate::random::Random;

/// The address of the first exception cell, behind the last local.
const CATCH_VIEW: usize = VIEW + 4 * LOCALS;

/// A cell: often one on which a carry, a sign or a width turns.
pub fn cell(random: &mut Random) -> u32 {
    match random.below(6) {
        0 => random.u32(),
        1 => random.below(4) as u32,
        2 => (random.below(4) as u32).wrapping_neg(),
        3 => 1 << random.below(32),
        4 => random.pick(&[0x7F, 0x80, 0xFF, 0x100, 0x7FFF, 0x8000, 0xFFFF, 0x7FFF_FFFF, 0x8000_0000, 0x8000_0001]),
        _ => address(random),
    }
}

/// A number for a store over these bytes: often one that leaves them, or one that turns them round and leaves their sum.
pub fn over(random: &mut Random, bytes: &[u8]) -> u32 {
    let before = |number: u32, byte: &u8| number << 8 | u32::from(*byte);
    match random.below(5) {
        0 => bytes.iter().fold(random.u32(), before),
        1 | 2 => bytes.iter().rev().fold(random.u32(), before),
        _ => cell(random),
    }
}

/// An address of data: inside memory, in view, or close to an edge of either.
pub fn address(random: &mut Random) -> u32 {
    let near = random.below(12) as u32;
    match random.below(8) {
        0 | 1 => random.below(MEMORY) as u32,
        2 => MEMORY as u32 - 6 + near,
        3 => (VIEW + 4 * random.below(VIEW_BYTES / 4)) as u32,
        4 => random.between(VIEW - 4, VIEW + VIEW_BYTES + 4) as u32,
        5 => {
            let edge = random.pick(&[VIEW, CATCH_VIEW, VIEW + VIEW_BYTES]);
            around(random, edge)
        }
        6 => 0u32.wrapping_sub(6).wrapping_add(near),
        _ => random.pick(&[0x8000_0000, 0x7FFF_FFFF, 0xFFFF_8000, 0x0100_0000, 0x0001_8000]),
    }
}

/// An address at which so many bytes are in view: in one cell, across two, or across the last local and the first
/// exception cell.
pub fn in_view(random: &mut Random, bytes: usize) -> u32 {
    let start = match random.below(4) {
        0 | 1 => 4 * random.below(VIEW_BYTES / 4) + random.below(5 - bytes),
        2 => random.below(VIEW_BYTES - bytes + 1),
        _ => CATCH_VIEW - VIEW - random.between(1, bytes),
    };
    (VIEW + start) as u32
}

/// An address at which so many bytes begin before the view and end in it, or begin in it and end past it; one byte stands
/// beside it.
pub fn over_an_end_of_view(random: &mut Random, bytes: usize) -> u32 {
    let outside = random.between(1, bytes.max(2) - 1);
    (if random.percent(50) { VIEW - outside } else { VIEW + VIEW_BYTES - bytes + outside }) as u32
}

/// An address around the start of a task's part or the end of memory.
pub fn seam(random: &mut Random) -> u32 {
    let start = SHARED + PART * random.between(0, TASKS);
    around(random, start)
}

/// Some bytes before an address, or a few after it.
pub fn around(random: &mut Random, address: usize) -> u32 {
    (address - 6 + random.below(9)) as u32
}
