//! Runs of four tasks: any instructions, programs in turns, loops, and calls that are not as they should be.

use crate::assembler::assemble;
use crate::chains::{aim, first_instruction, lay_line_codes, slices, Lengths, Runner};
use crate::fragments::{any_access, Arena, Taste, STYLES};
use crate::grower::Grower;
use crate::line_calls::some_calls;
use crate::memories::{bytes, refused_sum, Memory};
use crate::model::reach::{Reach, PART, SHARED, TASKS};
use crate::model::run::MAX_BUDGET;
use crate::model::state::{Answer, Machine, MEMORY};
use crate::model::sum::sum_of;
use crate::model::tasks::{run_tasks, Task, READY};
use crate::operands::{around, in_view, over_an_end_of_view, seam};
use crate::random::Random;
use crate::state_bytes::{RESULT_BYTES, TASKS_BYTES};
use crate::states::{broken, well_formed, with_lines, CLAUSES};

const ANY_INSTRUCTIONS: &str = "tasks: any instructions";
const WITH_LINES: &str = "tasks: with lines";
const LOOPS: &str = "tasks: loops";
const CHAIN: &str = "tasks: run in a chain";
/// The kinds of runs; the first are the wrong calls.
#[rustfmt::skip]
pub const KINDS: [&str; 13] = [
    "tasks: of a wrong length", "tasks: wrong result", "tasks: wrong memory", "tasks: wrong budget", "tasks: wrong quantum",
    "tasks: wrong kept number", "tasks: broken, ready", "tasks: broken, not ready", "tasks: wrong sum",
    ANY_INSTRUCTIONS, WITH_LINES, LOOPS, CHAIN,
];
const BROKEN: [usize; 2] = [6, 7];
const WRONG_SUM: usize = 8;

/// The numbers of the answers that a task can leave with.
pub const ANSWERS_KEPT: [u64; 14] = [0, 3, 4, 5, 6, 7, 8, 9, 10, 11, 12, 13, 16, 17];

/// Work that is sure to be over after so many steps may be given any budget.
const SOON: u64 = 10_000;

/// How long a turn and a run may be.
#[derive(Clone, Copy)]
pub struct Pace {
    pub quantum: u64,
    pub budget: u64,
}

/// Tasks of a random kind; gives the number of runs they took.
pub fn any_tasks<R: Runner>(runner: &mut R, random: &mut Random) -> Result<u64, R::Failure> {
    match random.below(23) {
        0..=3 => {
            let tasks = good_tasks(random);
            let mut memory = Memory::any(random);
            wrong_call(runner, random, tasks, &mut memory)?;
            Ok(1)
        }
        4..=14 => any_instructions(runner, random),
        15 => loops(runner, random),
        16..=18 => any_entries(runner, random),
        _ => chain(runner, random),
    }
}

/// A call with one buffer, one number, one task or the sum not as it should be, and now and then the sum besides. The host
/// has its own sum again afterwards.
fn wrong_call<R: Runner>(
    runner: &mut R,
    random: &mut Random,
    mut tasks: [Task; TASKS],
    memory: &mut Memory,
) -> Result<(), R::Failure> {
    let mut lengths = Lengths::OF_TASKS;
    let mut pace = Pace { quantum: 3, budget: 5 };
    let wrong = random.below(WRONG_SUM + 2).min(WRONG_SUM);
    let number = random.below(TASKS);
    let task = &mut tasks[number];
    match wrong {
        0 => lengths.machines = random.pick(&[0, 1, TASKS_BYTES / TASKS, TASKS_BYTES - 1, TASKS_BYTES + 1]),
        1 => lengths.result = random.pick(&[0, 1, 8, 24, RESULT_BYTES - 1, RESULT_BYTES + 1]),
        2 => lengths.memory = random.pick(&[0, 1, SHARED, MEMORY - 1, MEMORY + 1, 2 * MEMORY]),
        3 => pace.budget = random.pick(&[1_000_001, 1_000_001, 1 << 32, (1 << 32) + 5, 1 << 63, u64::MAX]),
        4 => pace.quantum = random.pick(&[0, 0, 1_001, 1_001, (1 << 32) + 3, u64::MAX]),
        5 => task.kept = random.pick(&[2, 14, 15, 18, 19, 256, 257, 1 << 32, (1 << 32) + 1, 1 << 63, u64::MAX]),
        WRONG_SUM => {}
        broken_task => {
            let clause = random.below(CLAUSES.len());
            task.machine = broken(random, clause);
            task.kept = if broken_task == BROKEN[0] { READY } else { random.pick(&ANSWERS_KEPT) };
        }
    }
    let own = memory.sum;
    if wrong == WRONG_SUM || random.percent(20) {
        memory.sum = refused_sum(random, sum_of(&memory.bytes));
    }
    runner.tasks(KINDS[wrong], &mut tasks, memory, pace, lengths)?;
    memory.sum = own;
    if BROKEN.contains(&wrong) {
        some_calls(runner, random, Reach::Task(number), &mut tasks[number].machine)?;
    }
    Ok(())
}

/// Any instruction around a seam, or an access in shared code whose data is around one or around the cells in view, at
/// the program counter of any task.
fn any_instructions<R: Runner>(runner: &mut R, random: &mut Random) -> Result<u64, R::Failure> {
    let mut tasks = good_tasks(random);
    let mut bytes = bytes(random);
    for (number, task) in tasks.iter_mut().enumerate() {
        let (at, code, data) = if random.percent(50) {
            (near(random, number), any_code(random), near(random, number))
        } else {
            let (code, width) = any_access(random);
            (random.below(SHARED) as u32, code, data(random, number, width))
        };
        task.machine.program_counter = at;
        let first = if number == 0 { first_instruction(&task.machine) } else { at as usize };
        for place in [at as usize, first] {
            if let Some(byte) = bytes.get_mut(place) {
                *byte = code;
            }
        }
        if random.percent(90) {
            aim(random, &mut task.machine, code, data, &bytes);
        }
    }
    let pace = Pace { quantum: random.pick(&[1, 1, 2, 3, 1_000]), budget: random.between(0, 12) as u64 };
    let mut memory = Memory::with_any_sum(random, bytes);
    runner.tasks(ANY_INSTRUCTIONS, &mut tasks, &mut memory, pace, Lengths::OF_TASKS)?;
    Ok(1)
}

/// Tasks with lines at instructions that have to do with them, few of which can go on for long.
fn any_entries<R: Runner>(runner: &mut R, random: &mut Random) -> Result<u64, R::Failure> {
    let mut tasks = [(); TASKS].map(|()| Task { machine: with_lines(random), kept: kept(random) });
    let mut bytes = bytes(random);
    for (number, task) in tasks.iter_mut().enumerate() {
        task.machine.program_counter = random.between(64, SHARED - 1) as u32;
        lay_line_codes(random, &mut bytes, &task.machine);
        if random.percent(30) {
            some_calls(runner, random, Reach::Task(number), &mut task.machine)?;
        }
        // Often task 0 has nobody to take turns with.
        if number > 0 && random.percent(40) {
            task.kept = random.pick(&ANSWERS_KEPT);
        }
    }
    let pace = Pace { quantum: random.pick(&[1, 2, 3, 4, 1_000]), budget: random.between(0, 12) as u64 };
    let mut memory = Memory::with_any_sum(random, bytes);
    runner.tasks(WITH_LINES, &mut tasks, &mut memory, pace, Lengths::OF_TASKS)?;
    Ok(1)
}

/// An address for so many bytes: around a seam, across the end of shared memory, in view, or partly in view.
fn data(random: &mut Random, number: usize, bytes: usize) -> u32 {
    match random.below(17) {
        0..=5 => near(random, number),
        6 => in_view(random, bytes),
        7..=13 => (SHARED - random.between(1, bytes.max(2) - 1)) as u32,
        _ => over_an_end_of_view(random, bytes),
    }
}

/// An address around the end of shared memory, around an end of the task's own part, around any seam, or anywhere.
fn near(random: &mut Random, number: usize) -> u32 {
    match random.below(10) {
        0..=2 => around(random, SHARED),
        3 | 4 => {
            let own = part(number) + PART * random.below(2);
            around(random, own)
        }
        5..=8 => seam(random),
        _ => random.below(MEMORY) as u32,
    }
}

/// Often a code of several bytes or one that touches data, or any.
fn any_code(random: &mut Random) -> u8 {
    match random.below(10) {
        0..=2 => random.between(0x2D, 0x32) as u8,
        3..=5 => random.pick(&[0x34, 0x35, 0x36, 0x38, 0x80, 0xC0]),
        6 => random.byte(),
        _ => random.below(0x40) as u8,
    }
}

/// A loop for each task, with a PAUSE in it or none, and budgets around whole turns.
fn loops<R: Runner>(runner: &mut R, random: &mut Random) -> Result<u64, R::Failure> {
    let mut tasks = [(); TASKS].map(|()| Task { machine: Machine::fresh(), kept: kept(random) });
    let mut bytes = bytes(random);
    for (number, task) in tasks.iter_mut().enumerate() {
        let start = random.pick(&[100 * number, part(number)]);
        let code = looping(random);
        bytes[start..start + code.len()].copy_from_slice(&code);
        task.machine.program_counter = start as u32;
    }
    let any = random.between(1, 1_000) as u64;
    let quantum = random.pick(&[1, 2, 999, 1_000, any]);
    let budget = match random.below(500) {
        0 => MAX_BUDGET,
        _ => quantum * random.between(1, 9) as u64 + random.below(3) as u64 - 1,
    };
    let mut memory = Memory::with_any_sum(random, bytes);
    runner.tasks(LOOPS, &mut tasks, &mut memory, Pace { quantum, budget }, Lengths::OF_TASKS)?;
    Ok(1)
}

fn looping(random: &mut Random) -> Vec<u8> {
    let nops = |count| "NOP ".repeat(count);
    let (before, after) = (nops(random.below(12)), nops(random.below(4)));
    let pause = if random.percent(40) { "PAUSE " } else { "" };
    assemble(&format!("here: {before}{pause}{after}BRA here"))
}

/// Several runs of four tasks, one after another, between which the host changes lines and a byte and makes some ready again.
fn chain<R: Runner>(runner: &mut R, random: &mut Random) -> Result<u64, R::Failure> {
    let mut tasks = if random.percent(15) { [(); TASKS].map(|()| Task::fresh()) } else { good_tasks(random) };
    let mut bytes = bytes(random);
    let arenas = [0, 1, 2, 3].map(|number| arena(random, number));
    for (task, arena) in tasks.iter_mut().zip(&arenas) {
        task.machine.program_counter = arena.address(random);
    }
    let mut runs = 0;
    for _ in 0..random.between(1, 5) {
        raise_some(runner, random, &mut tasks)?;
        let quantum = quantum(random);
        let tastes = [0, 1, 2, 3].map(|number| {
            let (_, style) = random.pick(&STYLES);
            Taste { style, arena: arenas[number], reach: Reach::Task(number) }
        });
        let copy: Box<[u8; MEMORY]> = bytes.clone().into_boxed_slice().try_into().expect("a memory's length");
        let target = random.between(1, 200) as u64;
        let grown = Grower::new(random, copy, target).grow_turns(tasks.clone(), &tastes, quantum);
        grown.write(random, arenas[0], &mut bytes);
        let budget = budget(random, &tasks, &bytes, quantum, grown.steps);
        let mut memory = Memory::with_any_sum(random, bytes);
        for slice in slices(random, budget) {
            match slice {
                Some(budget) => {
                    runner.tasks(CHAIN, &mut tasks, &mut memory, Pace { quantum, budget }, Lengths::OF_TASKS)?
                }
                None => wrong_call(runner, random, tasks.clone(), &mut memory)?,
            }
            runs += 1;
            raise_some(runner, random, &mut tasks)?;
        }
        bytes = memory.bytes;
        let elsewhere = random.below(MEMORY);
        bytes[elsewhere] = random.byte();
        for (task, arena) in tasks.iter_mut().zip(&arenas) {
            if !task.is_ready() && random.percent(60) {
                task.kept = READY;
                task.machine.program_counter = arena.address(random);
            }
        }
    }
    Ok(runs)
}

/// Calls for the lines of task 0, and now and then for those of the others.
fn raise_some<R: Runner>(runner: &mut R, random: &mut Random, tasks: &mut [Task; TASKS]) -> Result<(), R::Failure> {
    for (number, task) in tasks.iter_mut().enumerate() {
        if number == 0 || random.percent(20) {
            some_calls(runner, random, Reach::Task(number), &mut task.machine)?;
        }
    }
    Ok(())
}

/// Around where growth stopped; or a large one where every task leaves soon.
fn budget(random: &mut Random, tasks: &[Task; TASKS], memory: &[u8], quantum: u64, grown: u64) -> u64 {
    let soon =
        || run_tasks(&mut tasks.clone(), &mut memory.to_vec(), quantum, SOON, 0, &mut ()).answer == Answer::Finished;
    if random.percent(10) && soon() {
        return random.pick(&[MAX_BUDGET, MAX_BUDGET, SOON]);
    }
    grown.saturating_sub(random.below(2) as u64) + random.below(3) as u64
}

fn quantum(random: &mut Random) -> u64 {
    match random.below(5) {
        0 => 1,
        1 => 2,
        2 => random.between(3, 10) as u64,
        3 => random.between(11, 999) as u64,
        _ => 1_000,
    }
}

/// Code in shared memory, each task's own or every task's; in the task's part; or at one of that part's ends.
fn arena(random: &mut Random, number: usize) -> Arena {
    let (start, length) = match random.below(8) {
        0..=2 => (PART * number, random.between(200, PART)),
        3 => (0, 2_000),
        4 | 5 => (part(number), random.between(200, PART)),
        6 => (part(number) - 60, 120),
        _ => (part(number) + PART - 100, 100),
    };
    Arena { start, length }
}

/// Where the task's part begins.
fn part(number: usize) -> usize {
    SHARED + PART * number
}

fn good_tasks(random: &mut Random) -> [Task; TASKS] {
    [(); TASKS].map(|()| Task { machine: well_formed(random), kept: kept(random) })
}

/// Mostly ready, or any answer.
fn kept(random: &mut Random) -> u64 {
    if random.percent(75) {
        READY
    } else {
        random.pick(&ANSWERS_KEPT)
    }
}
