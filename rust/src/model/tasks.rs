//! A run of four tasks on one memory, in turns.

use std::ops::RangeInclusive;

use super::observer::Observer;
use super::reach::{Reach, TASKS};
use super::run::{Outcome, MAX_BUDGET};
use super::state::{Answer, Machine, MEMORY};
use super::sum::{moved, sum_of, MOST_SUM};
use super::turn::turn;

/// Steps that a turn may be given.
pub const QUANTA: RangeInclusive<u64> = 1..=1_000;
/// The kept number of a task that has not left.
pub const READY: u64 = 1;

#[derive(Clone, Debug, PartialEq, Eq)]
pub struct Task {
    pub machine: Machine,
    /// `READY`, or the number of the answer with which the task left.
    pub kept: u64,
}

impl Task {
    pub fn fresh() -> Task {
        Task { machine: Machine::fresh(), kept: READY }
    }

    pub fn is_ready(&self) -> bool {
        self.kept == READY
    }

    /// A task that is not ready is judged like any other.
    fn is_good(&self) -> bool {
        self.machine.is_well_formed() && matches!(self.kept, READY | 0 | 3..=13 | 16 | 17)
    }
}

/// One sum serves all four.
pub fn run_tasks(
    tasks: &mut [Task; TASKS],
    memory: &mut [u8],
    quantum: u64,
    budget: u64,
    sum: u64,
    observer: &mut impl Observer,
) -> Outcome {
    let Ok(memory) = <&mut [u8; MEMORY]>::try_from(memory) else {
        return Outcome::bad_input(sum);
    };
    if budget > MAX_BUDGET || sum > MOST_SUM || !QUANTA.contains(&quantum) || !tasks.iter().all(Task::is_good) {
        return Outcome::bad_input(sum);
    }
    let before = sum_of(memory);
    let (mut steps, mut cycles, mut first) = (0, 0, 0);
    let answer = loop {
        let left = budget - steps;
        if left == 0 {
            break Answer::BudgetSpent;
        }
        let Some(number) = next_ready(tasks, first) else {
            break Answer::Finished;
        };
        let task = &mut tasks[number];
        let turn = turn(&mut task.machine, memory, Reach::Task(number), quantum.min(left), observer);
        observer.turn_over(number, turn, quantum, left);
        task.kept = turn.left.map_or(READY, Answer::number);
        steps += turn.steps;
        cycles += turn.cycles;
        first = number + 1;
    };
    Outcome { answer, steps, cycles, sum: moved(sum, before, sum_of(memory)) }
}

/// The first ready task in circular order, beginning with this number.
pub fn next_ready(tasks: &[Task; TASKS], first: usize) -> Option<usize> {
    (first..first + TASKS).map(|number| number % TASKS).find(|&number| tasks[number].is_ready())
}
