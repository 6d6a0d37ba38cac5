//! Memories as a host could hand them in, each with a sum beside it: mostly the true one, else one that a run takes all the
//! same, or one that it refuses.

use crate::model::state::MEMORY;
use crate::model::sum::{sum_of, MOST_SUM};
use crate::random::Random;

/// The bytes, and the sum that the host says they have.
#[derive(Clone, Default, PartialEq)]
pub struct Memory {
    pub bytes: Vec<u8>,
    pub sum: u64,
}

impl Memory {
    pub fn any(random: &mut Random) -> Memory {
        let bytes = bytes(random);
        Memory::with_any_sum(random, bytes)
    }

    /// With a sum that a run takes, and mostly the true one.
    pub fn with_any_sum(random: &mut Random, bytes: Vec<u8>) -> Memory {
        let sum = any_sum(random, sum_of(&bytes));
        Memory { bytes, sum }
    }

    pub fn has_true_sum(&self) -> bool {
        self.sum == sum_of(&self.bytes)
    }
}

/// Bytes of anything.
pub fn bytes(random: &mut Random) -> Vec<u8> {
    random.bytes(256).repeat(MEMORY / 256)
}

fn any_sum(random: &mut Random, truth: u64) -> u64 {
    let few = random.below(64) as u64;
    match random.below(20) {
        0 => 0,
        1 => few,
        2 => MOST_SUM,
        3 | 6 => MOST_SUM - few,
        4 => random.below(MOST_SUM as usize + 1) as u64,
        5 => random.pick(&[truth.saturating_sub(1), (truth + 1).min(MOST_SUM)]),
        _ => truth,
    }
}

/// One that is too great. In 32 bits some of these would be taken, and one would be the true one.
pub fn refused_sum(random: &mut Random, truth: u64) -> u64 {
    let past_32_bits = (random.between(1, 9) as u64) << 32;
    match random.below(4) {
        0 => MOST_SUM + 1,
        1 => random.between(MOST_SUM as usize + 2, u32::MAX as usize) as u64,
        2 => random.pick(&[1 << 32, past_32_bits + truth, past_32_bits + MOST_SUM, 1 << 63]),
        _ => u64::MAX,
    }
}

#[cfg(test)]
mod tests {
    use super::*;

    #[test]
    fn sums_are_taken_or_refused_and_mostly_true() {
        let mut random = Random::new(1);
        let memories: Vec<_> = (0..1000).map(|_| Memory::any(&mut random)).collect();
        let are_true = memories.iter().filter(|memory| memory.has_true_sum()).count();
        assert!((600..800).contains(&are_true), "{are_true} of {}", memories.len());
        assert!(memories.iter().all(|memory| memory.sum <= MOST_SUM));
        assert!((0..1000).all(|_| refused_sum(&mut random, 5) > MOST_SUM));
    }
}
