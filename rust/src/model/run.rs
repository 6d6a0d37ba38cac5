//! A run of one task under a step budget.

use super::observer::Observer;
use super::reach::Reach;
use super::state::{Answer, Machine, MEMORY};
use super::sum::{moved, sum_of, MOST_SUM};
use super::turn::turn;

pub const MAX_BUDGET: u64 = 1_000_000;

#[derive(Clone, Copy, Debug, PartialEq, Eq)]
pub struct Outcome {
    pub answer: Answer,
    pub steps: u64,
    pub cycles: u64,
    /// The memory sum that is handed back.
    pub sum: u64,
}

impl Outcome {
    /// What was handed in is not as it should be; the sum goes back as it came.
    pub fn bad_input(sum: u64) -> Outcome {
        Outcome { answer: Answer::BadInput, steps: 0, cycles: 0, sum }
    }
}

pub fn run(machine: &mut Machine, memory: &mut [u8], budget: u64, sum: u64, observer: &mut impl Observer) -> Outcome {
    let Ok(memory) = <&mut [u8; MEMORY]>::try_from(memory) else {
        return Outcome::bad_input(sum);
    };
    if budget > MAX_BUDGET || sum > MOST_SUM || !machine.is_well_formed() {
        return Outcome::bad_input(sum);
    }
    let before = sum_of(memory);
    let all = turn(machine, memory, Reach::Alone, budget, observer);
    Outcome {
        answer: all.left.unwrap_or(Answer::BudgetSpent),
        steps: all.steps,
        cycles: all.cycles,
        sum: moved(sum, before, sum_of(memory)),
    }
}
