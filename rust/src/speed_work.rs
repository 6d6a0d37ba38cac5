//! What the speed table measures, and the machines that it measures it on.

use crate::boundary::{Foreign, PLAIN_C, PROVED};
use crate::model::bench::bench;
use crate::model::reach::TASKS;
use crate::model::run::{self, Outcome};
use crate::model::state::{Machine, MEMORY};
use crate::model::sum::sum_of;
use crate::model::tasks::{self, Task};
use crate::speed_images::{speed_images, SpeedImage};
use crate::speed_lines::{run_by_model, speed_lines, Held, SpeedLines};
use crate::speed_states::{speed_states, SpeedState};
use crate::speed_tasks::{speed_tasks, SpeedTasks};
use crate::state_bytes::{spell, spell_result, spell_tasks, RESULT_BYTES};

/// Calls of a small run that are taken together.
const SMALL_CALLS: u64 = 1000;

/// One row of the table.
pub enum Work {
    Image(SpeedImage),
    State(SpeedState),
    Lines(SpeedLines),
    Tasks(SpeedTasks),
}

/// A machine, and the functions in which its instructions are counted.
#[derive(Clone, Copy)]
pub struct Contender {
    pub name: &'static str,
    bench_entry: &'static str,
    state_entry: &'static str,
    tasks_entry: &'static str,
    lines_entry: &'static str,
    bench: fn(&[u8], &mut [u8], &mut [u8]) -> u64,
    /// Gives the state, the memory and the result as bytes.
    run_state: fn(&SpeedState) -> Vec<u8>,
    /// As above, with the tasks.
    run_tasks: fn(&SpeedTasks) -> Vec<u8>,
    /// As the first, with the last result of many.
    run_lines: fn(&SpeedLines) -> Vec<u8>,
}

/// In the order of the table's columns; ratios are to the first.
pub const CONTENDERS: [Contender; 3] = [
    Contender {
        name: "plain-c",
        bench_entry: "plain_bench",
        state_entry: "plain_run_state",
        tasks_entry: "plain_run_tasks",
        lines_entry: "plain_run_lines",
        bench: |image, memory, out| PLAIN_C.bench(image, memory, out),
        run_state: |work| foreign_state(PLAIN_C, work),
        run_tasks: |work| foreign_tasks(PLAIN_C, work),
        run_lines: |work| foreign_lines(plain_run_lines, work),
    },
    Contender {
        name: "proved",
        bench_entry: "glidecotton_bench",
        state_entry: "glidecotton_run_state",
        tasks_entry: "glidecotton_run_tasks",
        lines_entry: "proved_run_lines",
        bench: |image, memory, out| PROVED.bench(image, memory, out),
        run_state: |work| foreign_state(PROVED, work),
        run_tasks: |work| foreign_tasks(PROVED, work),
        run_lines: |work| foreign_lines(proved_run_lines, work),
    },
    Contender {
        name: "model",
        bench_entry: "model_bench",
        state_entry: "model_run_state",
        tasks_entry: "model_run_tasks",
        lines_entry: "model_run_lines",
        bench: model_bench,
        run_state: model_state,
        run_tasks: model_tasks,
        run_lines: |work| model_run_lines(work).left(),
    },
];

pub fn all_work() -> Vec<Work> {
    let alone = speed_images().into_iter().map(Work::Image).chain(speed_states().map(Work::State));
    alone.chain([Work::Lines(speed_lines())]).chain(speed_tasks().into_iter().map(Work::Tasks)).collect()
}

impl Work {
    pub fn name(&self) -> &str {
        match self {
            Work::Image(image) => image.name,
            Work::State(state) => state.name,
            Work::Lines(lines) => lines.name,
            Work::Tasks(tasks) => &tasks.name,
        }
    }

    /// What the cost of a measurement is divided by, and its name.
    pub fn units(&self) -> (u64, &'static str) {
        match self {
            Work::Image(image) if image.per_step => (image.steps, "a step"),
            Work::Image(_) => (SMALL_CALLS, "a run"),
            Work::State(state) => (state.steps, "a step"),
            Work::Lines(lines) => (lines.steps, "a step"),
            Work::Tasks(tasks) => (tasks.steps, "a step"),
        }
    }

    /// Speeds compare only where all do the same work and leave the same bytes.
    pub fn all_agree(&self) -> bool {
        let left = CONTENDERS.map(|contender| contender.repeat(self));
        left.iter().all(|bytes| bytes.len() > 3 && *bytes == left[0])
    }
}

impl Contender {
    pub fn entry(&self, work: &Work) -> &'static str {
        match work {
            Work::Image(_) => self.bench_entry,
            Work::State(_) => self.state_entry,
            Work::Lines(_) => self.lines_entry,
            Work::Tasks(_) => self.tasks_entry,
        }
    }

    /// Does the work as often as a measurement asks, and gives what the last time left.
    pub fn repeat(&self, work: &Work) -> Vec<u8> {
        match work {
            Work::Image(image) => self.repeat_image(image),
            Work::State(state) => (self.run_state)(state),
            Work::Lines(lines) => (self.run_lines)(lines),
            Work::Tasks(tasks) => (self.run_tasks)(tasks),
        }
    }

    fn repeat_image(&self, image: &SpeedImage) -> Vec<u8> {
        let mut memory = vec![0; MEMORY];
        let mut out = vec![0; 1024];
        let mut length = 0;
        for _ in 0..if image.per_step { 1 } else { SMALL_CALLS } {
            length = (self.bench)(&image.file, &mut memory, &mut out);
        }
        out.truncate(length as usize);
        out
    }
}

/// Keeps its plain name, by which callgrind finds it.
#[no_mangle]
#[inline(never)]
fn model_bench(image: &[u8], memory: &mut [u8], out: &mut [u8]) -> u64 {
    let text = bench(image, memory, &mut ()).text;
    out[..text.len()].copy_from_slice(text.as_bytes());
    text.len() as u64
}

/// As above.
#[no_mangle]
#[inline(never)]
fn model_run_state(machine: &mut Machine, memory: &mut [u8], budget: u64, sum: u64) -> Outcome {
    run::run(machine, memory, budget, sum, &mut ())
}

/// As above.
#[no_mangle]
#[inline(never)]
fn model_run_tasks(tasks: &mut [Task; TASKS], memory: &mut [u8], quantum: u64, budget: u64, sum: u64) -> Outcome {
    tasks::run_tasks(tasks, memory, quantum, budget, sum, &mut ())
}

fn model_state(work: &SpeedState) -> Vec<u8> {
    let (mut machine, mut memory) = (Machine::fresh(), work.memory.clone());
    let outcome = model_run_state(&mut machine, &mut memory, work.steps, sum_of(&work.memory));
    [spell(&machine), memory, spell_result(outcome)].concat()
}

fn foreign_state(machine: Foreign, work: &SpeedState) -> Vec<u8> {
    let (mut state, mut memory) = (spell(&Machine::fresh()), work.memory.clone());
    let mut result = vec![0; RESULT_BYTES];
    machine.run_state(&mut state, &mut memory, work.steps, sum_of(&work.memory), &mut result);
    [state, memory, result].concat()
}

fn model_tasks(work: &SpeedTasks) -> Vec<u8> {
    let (mut tasks, mut memory) = (work.tasks.clone(), work.memory.clone());
    let outcome = model_run_tasks(&mut tasks, &mut memory, work.quantum, work.steps, sum_of(&work.memory));
    [spell_tasks(&tasks), memory, spell_result(outcome)].concat()
}

fn foreign_tasks(machine: Foreign, work: &SpeedTasks) -> Vec<u8> {
    let (mut tasks, mut memory) = (spell_tasks(&work.tasks), work.memory.clone());
    let mut result = vec![0; RESULT_BYTES];
    machine.run_tasks(&mut tasks, &mut memory, work.quantum, work.steps, sum_of(&work.memory), &mut result);
    [tasks, memory, result].concat()
}

fn foreign_lines(run: fn(&mut Held), work: &SpeedLines) -> Vec<u8> {
    let mut held = work.held();
    run(&mut held);
    held.left()
}

/// Keeps its plain name, as above; counted are the host's calls too.
#[no_mangle]
#[inline(never)]
fn plain_run_lines(held: &mut Held) {
    held.run(PLAIN_C);
}

/// As above.
#[no_mangle]
#[inline(never)]
fn proved_run_lines(held: &mut Held) {
    held.run(PROVED);
}

/// As above.
#[no_mangle]
#[inline(never)]
fn model_run_lines(work: &SpeedLines) -> Held {
    run_by_model(work)
}
