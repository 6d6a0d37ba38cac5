//! Turns: how each ends, who has the next one, and what a run leaves to the next.

use super::bench::bench;
use super::observer::Observer;
use super::reach::{PART, SHARED, TASKS};
use super::run::{run, Outcome};
use super::state::{Answer, LastThrow, Machine, MEMORY};
use super::tasks::{run_tasks, Task, READY};
use super::turn::Turn;
use crate::assembler::{assemble, image};

const ENDLESS: &str = "here: NOP BRA here";

/// Four tasks, each with a program at the start of its part.
struct Four {
    tasks: [Task; TASKS],
    memory: Vec<u8>,
}

/// The turns of a run: whose, and of how many steps.
#[derive(Default)]
struct Turns(Vec<(usize, u64)>);

impl Observer for Turns {
    fn turn_over(&mut self, number: usize, turn: Turn, _: u64, _: u64) {
        self.0.push((number, turn.steps));
    }
}

impl Four {
    fn new(sources: [&str; TASKS]) -> Four {
        let mut memory = vec![0; MEMORY];
        let mut tasks = [(); TASKS].map(|()| Task::fresh());
        for (number, source) in sources.iter().enumerate() {
            let (start, code) = (SHARED + PART * number, assemble(source));
            memory[start..start + code.len()].copy_from_slice(&code);
            tasks[number].machine.program_counter = start as u32;
        }
        Four { tasks, memory }
    }

    /// No program here stores to memory, so that a sum of 0 stays.
    fn run(&mut self, quantum: u64, budget: u64) -> Outcome {
        run_tasks(&mut self.tasks, &mut self.memory, quantum, budget, 0, &mut ())
    }

    fn turns(&mut self, quantum: u64, budget: u64) -> Vec<(usize, u64)> {
        let mut turns = Turns::default();
        run_tasks(&mut self.tasks, &mut self.memory, quantum, budget, 0, &mut turns);
        turns.0
    }

    fn kept(&self) -> [u64; TASKS] {
        [0, 1, 2, 3].map(|number| self.tasks[number].kept)
    }
}

#[test]
fn pause_is_a_nop_in_a_run_of_one_task() {
    let file = image(&assemble("PAUSE PAUSE EXIT"), &[], None);
    assert_eq!(bench(&file, &mut vec![0; MEMORY], &mut ()).text, "0 2 2 2 0 0 0 0 0 0\n");
}

#[test]
fn a_turn_ends_with_the_quantum_or_the_budget() {
    let mut four = Four::new([ENDLESS; TASKS]);
    assert_eq!(four.turns(3, 11), [(0, 3), (1, 3), (2, 3), (3, 2)]);
    // Where the last run stopped is forgotten.
    assert_eq!(four.turns(3, 4), [(0, 3), (1, 1)]);
    assert_eq!(four.kept(), [READY; TASKS]);
}

#[test]
fn a_turn_ends_after_pause() {
    let mut four = Four::new(["NOP PAUSE NOP NOP NOP", "PAUSE PAUSE PAUSE", ENDLESS, ENDLESS]);
    assert_eq!(four.turns(3, 12), [(0, 2), (1, 1), (2, 3), (3, 3), (0, 3)]);
}

#[test]
fn pause_as_the_quantums_last_step_passes_once() {
    let mut four = Four::new(["NOP PAUSE NOP NOP", ENDLESS, ENDLESS, ENDLESS]);
    assert_eq!(four.turns(2, 9), [(0, 2), (1, 2), (2, 2), (3, 2), (0, 1)]);
}

#[test]
fn a_spent_quantum_comes_before_the_next_instruction() {
    let mut four = Four::new(["NOP EXIT", ENDLESS, ENDLESS, ENDLESS]);
    assert_eq!(four.turns(1, 5), [(0, 1), (1, 1), (2, 1), (3, 1), (0, 0), (1, 1)]);
    assert_eq!(four.kept(), [0, READY, READY, READY]);
}

#[test]
fn a_task_that_finishes_or_is_refused_leaves_and_keeps_its_answer() {
    let mut four = Four::new(["EXIT", "NOP DROP", "LOAD.W 16384 FETCH.B", ENDLESS]);
    assert_eq!(four.run(1000, 10), Outcome { answer: Answer::BudgetSpent, steps: 10, cycles: 15, sum: 0 });
    assert_eq!(four.kept(), [0, 5, 17, READY]);
    // The machine stands before the instruction that was refused.
    assert_eq!(four.tasks[1].machine.program_counter, 20_481);
    assert_eq!(four.turns(4, 6), [(3, 4), (3, 2)]);
    assert_eq!(four.kept(), [0, 5, 17, READY]);
}

#[test]
fn the_turn_comes_back_to_the_only_ready_task() {
    let mut four = Four::new([ENDLESS, ENDLESS, "NOP PAUSE EXIT", ENDLESS]);
    for number in [0, 1, 3] {
        four.tasks[number].kept = 13;
    }
    let before = four.tasks.clone();
    assert_eq!(four.turns(1, 9), [(2, 1), (2, 1), (2, 0)]);
    for number in [0, 1, 3] {
        assert_eq!(four.tasks[number], before[number]);
    }
}

#[test]
fn tasks_that_are_not_ready_are_passed_over_in_the_circle() {
    let mut four = Four::new([ENDLESS; TASKS]);
    four.tasks[0].kept = 0;
    four.tasks[2].kept = 17;
    assert_eq!(four.turns(2, 7), [(1, 2), (3, 2), (1, 2), (3, 1)]);
}

#[test]
fn answers_of_the_run() {
    let mut four = Four::new(["EXIT"; TASKS]);
    // A spent budget comes before the end of the last task, and before the want of a ready one.
    assert_eq!(four.run(5, 0).answer, Answer::BudgetSpent);
    assert_eq!(four.kept(), [READY; TASKS]);
    assert_eq!(four.run(5, 1), Outcome { answer: Answer::Finished, steps: 0, cycles: 0, sum: 0 });
    assert_eq!(four.kept(), [0; TASKS]);
    assert_eq!(four.run(5, 0).answer, Answer::BudgetSpent);
    let mut four = Four::new(["NOP EXIT"; TASKS]);
    assert_eq!(four.run(5, 4), Outcome { answer: Answer::BudgetSpent, steps: 4, cycles: 4, sum: 0 });
    assert_eq!(four.kept(), [0, 0, 0, READY]);
}

#[test]
fn one_ready_task_runs_as_it_would_alone() {
    let mut four = Four::new(["LOAD.B 5 DUP + EXIT", ENDLESS, ENDLESS, ENDLESS]);
    four.tasks[1..].iter_mut().for_each(|task| task.kept = 0);
    let mut alone = four.tasks[0].machine.clone();
    let outcome = run(&mut alone, &mut four.memory.clone(), 100, 0, &mut ());
    assert_eq!(four.run(2, 100), outcome);
    assert_eq!(four.tasks[0].machine, alone);
}

#[test]
fn a_byte_of_a_cell_is_the_running_tasks_own() {
    let sources = [1, 2, 3, 4].map(|byte| {
        format!("LOAD.B {byte} LOAD.L $1003F STORE.B PAUSE LOAD.L $1003E FETCH.L LOAD.L $10040 FETCH.B EXIT")
    });
    let mut four = Four::new(sources.each_ref().map(String::as_str));
    assert_eq!(four.run(1, 100).answer, Answer::Finished);
    assert_eq!(four.kept(), [0; TASKS]);
    for (number, task) in four.tasks.iter().enumerate() {
        assert_eq!(task.machine.parameters[..2], [(number as u32 + 1) << 16, 0]);
    }
}

#[test]
fn a_throw_is_noted_in_the_running_task_alone() {
    let start = |number: usize| SHARED + PART * number;
    let throws = |number| format!("LOAD.W {} CATCH ZERO EXIT LOAD.B {number} THROW", start(number) + 6);
    let mut four = Four::new([ENDLESS, &throws(1), ENDLESS, &throws(3)]);
    let before = LastThrow { address: 100, code: 200 };
    four.tasks.iter_mut().for_each(|task| task.machine.last_throw = before);
    four.run(1, 100);
    let thrown = |number| LastThrow { address: start(number) as u32 + 8, code: number as u32 };
    let noted = four.tasks.each_ref().map(|task| task.machine.last_throw);
    assert_eq!(noted, [before, thrown(1), before, thrown(3)]);
}

/// What a run of endless tasks leaves, after something was done to them.
fn answer_after(spoil: fn(&mut Four), quantum: u64, budget: u64) -> Answer {
    let mut four = Four::new([ENDLESS; TASKS]);
    spoil(&mut four);
    let (tasks, memory) = (four.tasks.clone(), four.memory.clone());
    let outcome = four.run(quantum, budget);
    if outcome.answer == Answer::BadInput {
        assert_eq!(outcome, Outcome::bad_input(0));
        assert!(four.tasks == tasks && four.memory == memory);
    }
    outcome.answer
}

#[test]
fn what_is_not_as_it_should_be_is_2() {
    let bad = Answer::BadInput;
    assert_eq!(answer_after(|_| (), 1, 1_000), Answer::BudgetSpent);
    assert_eq!(answer_after(|_| (), 1_000, 1_000), Answer::BudgetSpent);
    for (quantum, budget) in [(0, 1), (1_001, 1), (u64::MAX, 1), (1, 1_000_001), (1, u64::MAX), (0, 0)] {
        assert_eq!(answer_after(|_| (), quantum, budget), bad, "{quantum} {budget}");
    }
    assert_eq!(answer_after(|four| four.memory.truncate(MEMORY - 1), 1, 1), bad);
    assert_eq!(answer_after(|four| four.tasks[3].machine.p = 65, 1, 1), bad);
    let not_ready = |four: &mut Four| four.tasks[2] = Task { machine: Machine { r: 65, ..Machine::fresh() }, kept: 0 };
    assert_eq!(answer_after(not_ready, 1, 1), bad);
}

#[test]
fn only_numbers_that_a_task_can_get_are_kept() {
    let good: Vec<_> = (0..300)
        .filter(|&number| {
            let mut four = Four::new([ENDLESS; TASKS]);
            four.tasks[3].kept = number;
            four.run(1, 1).answer == Answer::BudgetSpent
        })
        .collect();
    assert_eq!(good, [0, 1, 3, 4, 5, 6, 7, 8, 9, 10, 11, 12, 13, 16, 17]);
}
