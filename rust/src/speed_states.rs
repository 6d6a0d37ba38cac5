//! The programs of the speed table that are run as a state, by which the memory sum is handed back: of four steps one is a store
//! to memory. And what a host saves that reads the sum after each run.

use crate::assembler::assemble;
use crate::boundary::PROVED;
use crate::model::run::MAX_BUDGET;
use crate::model::state::{Machine, MEMORY};
use crate::model::sum::sum_of;
use crate::state_bytes::{numbers_in, spell, RESULT_BYTES};

pub struct SpeedState {
    pub name: &'static str,
    pub memory: Vec<u8>,
    /// Steps of one run of a fresh machine: no program ends before.
    pub steps: u64,
}

pub fn speed_states() -> [SpeedState; 3] {
    ["STORE.L", "STORE.W", "STORE.B"].map(|name| SpeedState {
        name,
        memory: memory_with(&format!("start: LOAD.B 7  LOAD.W $4001  {name}  BRA start")),
        steps: MAX_BUDGET,
    })
}

fn memory_with(source: &str) -> Vec<u8> {
    let mut memory = assemble(source);
    memory.resize(MEMORY, 0);
    memory
}

/// Steps of the runs after which a host wants to know the sum, and how many such runs are taken together.
pub const SHORT_RUN: u64 = 100;
pub const SHORT_RUNS: u64 = 1000;

/// How a host knows the sum after a run, with the function in which its instructions are counted.
pub struct Way {
    pub name: &'static str,
    pub entry: &'static str,
    sum_after_run: fn(&mut Held) -> u64,
}

pub const WAYS: [Way; 2] = [
    Way { name: "sum-read", entry: "run_and_read_sum", sum_after_run: run_and_read_sum },
    Way { name: "sum-added-up", entry: "run_and_add_up", sum_after_run: run_and_add_up },
];

impl Way {
    /// The sums after so many runs, of a program whose every round moves them.
    pub fn repeat(&self) -> Vec<u64> {
        let memory = memory_with("start: LOAD.W $4001  FETCH.L  1+  LOAD.W $4001  STORE.L  BRA start");
        let mut held = Held { state: spell(&Machine::fresh()), sum: sum_of(&memory), memory };
        (0..SHORT_RUNS).map(|_| (self.sum_after_run)(&mut held)).collect()
    }
}

/// What a host holds of the proved machine from run to run.
struct Held {
    state: Vec<u8>,
    memory: Vec<u8>,
    sum: u64,
}

impl Held {
    fn run(&mut self) {
        let mut result = [0; RESULT_BYTES];
        PROVED.run_state(&mut self.state, &mut self.memory, SHORT_RUN, self.sum, &mut result);
        [_, _, _, self.sum] = numbers_in(&result);
    }
}

/// Keeps its plain name, by which callgrind finds it.
#[no_mangle]
#[inline(never)]
fn run_and_read_sum(held: &mut Held) -> u64 {
    held.run();
    held.sum
}

/// As above.
#[no_mangle]
#[inline(never)]
fn run_and_add_up(held: &mut Held) -> u64 {
    held.run();
    sum_of(&held.memory)
}

#[cfg(test)]
mod tests {
    use super::*;
    use crate::model::run::run;
    use crate::model::state::Answer;

    #[test]
    fn states_run_until_the_budget_is_spent() {
        for SpeedState { name, mut memory, steps } in speed_states() {
            let outcome = run(&mut Machine::fresh(), &mut memory, steps, 0, &mut ());
            assert_eq!((outcome.answer, outcome.steps, outcome.sum), (Answer::BudgetSpent, steps, 7), "{name}");
        }
    }

    #[test]
    fn both_ways_give_the_same_sums_and_no_two_in_a_row_alike() {
        let [read, added_up] = WAYS.map(|way| way.repeat());
        assert_eq!(read, added_up);
        assert!(read.windows(2).all(|pair| pair[0] != pair[1]));
    }
}
