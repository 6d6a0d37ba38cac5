//! The programs of the speed table that four tasks run in turns, all from the same shared code, each on a word of its
//! own part.

use crate::assembler::assemble;
use crate::model::reach::{PART, SHARED, TASKS};
use crate::model::run::MAX_BUDGET;
use crate::model::state::MEMORY;
use crate::model::tasks::Task;

const QUANTA: [u64; 4] = [1, 10, 100, 1_000];

pub struct SpeedTasks {
    pub name: String,
    pub tasks: [Task; TASKS],
    pub memory: Vec<u8>,
    pub quantum: u64,
    /// Steps of one run: no program ends before.
    pub steps: u64,
}

pub fn speed_tasks() -> Vec<SpeedTasks> {
    [("pausing", PAUSING), ("looping", LOOPING)]
        .into_iter()
        .flat_map(|(name, source)| QUANTA.map(|quantum| speed_tasks_of(name, source, quantum)))
        .collect()
}

fn speed_tasks_of(name: &str, source: &str, quantum: u64) -> SpeedTasks {
    let mut memory = assemble(source);
    memory.resize(MEMORY, 0);
    let mut tasks = [(); TASKS].map(|()| Task::fresh());
    for (number, task) in tasks.iter_mut().enumerate() {
        task.machine.push((SHARED + PART * number) as u32);
    }
    SpeedTasks { name: format!("{name} {quantum}"), tasks, memory, quantum, steps: MAX_BUDGET }
}

/// Of five steps one is a PAUSE.
const PAUSING: &str = "start: DUP FETCH.L DROP PAUSE BRA start";

/// A word of the task's own counts the rounds, and each round counts down.
const LOOPING: &str = "
    start:   DUP  FETCH.L  1+  OVER  STORE.L
             LOAD.B 10
    next:    1-  DUP  BEQ done
             BRA next
    done:    DROP  BRA start
";

#[cfg(test)]
mod tests {
    use super::*;
    use crate::model::run::Outcome;
    use crate::model::state::Answer;
    use crate::model::tasks::{run_tasks, READY};

    #[test]
    fn tasks_run_until_the_budget_is_spent() {
        for SpeedTasks { name, mut tasks, mut memory, quantum, steps } in speed_tasks() {
            let Outcome { answer, steps: taken, .. } = run_tasks(&mut tasks, &mut memory, quantum, steps, 0, &mut ());
            assert_eq!((answer, taken), (Answer::BudgetSpent, steps), "{name}");
            assert!(tasks.iter().all(|task| task.kept == READY), "{name}");
        }
    }
}
