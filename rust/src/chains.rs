//! Runs that begin with a state in place of an image.

use crate::fragments::{any_access, Arena, Taste, STYLES};
use crate::grower::Grower;
use crate::line_calls::{some_calls, LineCall};
use crate::memories::{bytes, refused_sum, Memory};
use crate::model::codes::row_of;
use crate::model::entry::enter;
use crate::model::place::width;
use crate::model::reach::{Reach, TASKS};
use crate::model::state::{Machine, MEMORY};
use crate::model::sum::sum_of;
use crate::model::tasks::Task;
use crate::operands::{over, over_an_end_of_view};
use crate::random::Random;
use crate::state_bytes::{READ_RESULT_BYTES, RESULT_BYTES, STATE_BYTES, TASKS_BYTES};
use crate::states::{broken, well_formed, with_lines, CLAUSES};
use crate::task_chains::Pace;

const WRONG_SUM: &str = "state: wrong sum";
/// Code of a state's runs lies here.
const ARENA: Arena = Arena { start: 0, length: 4096 };

/// The lengths of the buffers lent to one call of `read_image`, `run_state` or `run_tasks`.
#[derive(Clone, Copy, PartialEq)]
pub struct Lengths {
    /// Of the state, or of the tasks.
    pub machines: usize,
    pub memory: usize,
    pub result: usize,
}

impl Lengths {
    pub const OF_READ: Lengths = Lengths { machines: STATE_BYTES, memory: MEMORY, result: READ_RESULT_BYTES };
    pub const OF_STATE: Lengths = Lengths { machines: STATE_BYTES, memory: MEMORY, result: RESULT_BYTES };
    pub const OF_TASKS: Lengths = Lengths { machines: TASKS_BYTES, memory: MEMORY, result: RESULT_BYTES };

    /// Whether a call that wants other lengths takes these; a wrong memory it takes, and answers 2.
    pub fn suit(self, wanted: Lengths) -> bool {
        self.machines == wanted.machines && self.result == wanted.result
    }
}

/// What takes each state, or four tasks, through a run, and leaves them, the memory and its sum as the run leaves them.
pub trait Runner {
    type Failure;

    fn state(
        &mut self,
        kind: &'static str,
        machine: &mut Machine,
        memory: &mut Memory,
        budget: u64,
        lengths: Lengths,
    ) -> Result<(), Self::Failure>;

    fn tasks(
        &mut self,
        kind: &'static str,
        tasks: &mut [Task; TASKS],
        memory: &mut Memory,
        pace: Pace,
        lengths: Lengths,
    ) -> Result<(), Self::Failure>;

    /// Makes a host's call on the state of a machine, alone or a task, handed over in so many bytes.
    fn lines(
        &mut self,
        reach: Reach,
        machine: &mut Machine,
        call: LineCall,
        length: usize,
    ) -> Result<(), Self::Failure>;
}

/// States of a random kind; gives the number of runs they took.
pub fn any_state<R: Runner>(runner: &mut R, random: &mut Random) -> Result<u64, R::Failure> {
    match random.below(18) {
        0 | 1 => {
            let machine = well_formed(random);
            let mut memory = Memory::any(random);
            wrong_call(runner, random, machine, &mut memory)?;
            Ok(1)
        }
        2..=5 => any_instruction(runner, random),
        6..=10 => any_store(runner, random),
        11..=13 => any_entry(runner, random),
        _ => chain(runner, random),
    }
}

/// A call with one buffer, the budget, the state or the sum not as it should be, and now and then the sum besides. The
/// host has its own sum again afterwards.
fn wrong_call<R: Runner>(
    runner: &mut R,
    random: &mut Random,
    mut machine: Machine,
    memory: &mut Memory,
) -> Result<(), R::Failure> {
    let mut lengths = Lengths::OF_STATE;
    let mut budget = 5;
    let kind = match random.below(9) {
        0 => {
            lengths.machines = random.pick(&[0, 1, STATE_BYTES - 1, STATE_BYTES + 1]);
            "state: of a wrong length"
        }
        1 => {
            lengths.memory = random.pick(&[0, 1, MEMORY - 1, MEMORY + 1, 2 * MEMORY]);
            "state: wrong memory"
        }
        2 => {
            lengths.result = random.pick(&[0, 1, 8, 24, lengths.result - 1, lengths.result + 1]);
            "state: wrong result"
        }
        3 => {
            budget = random.pick(&[1_000_001, 1 << 32, 1 << 63, u64::MAX]);
            "state: wrong budget"
        }
        4..=6 => {
            let clause = random.below(CLAUSES.len());
            machine = broken(random, clause);
            CLAUSES[clause]
        }
        _ => WRONG_SUM,
    };
    let own = memory.sum;
    if kind == WRONG_SUM || random.percent(20) {
        memory.sum = refused_sum(random, sum_of(&memory.bytes));
    }
    runner.state(kind, &mut machine, memory, budget, lengths)?;
    memory.sum = own;
    // A state that no run takes is not judged by the calls for lines.
    if CLAUSES.contains(&kind) {
        some_calls(runner, random, Reach::Alone, &mut machine)?;
    }
    Ok(())
}

/// Any bytes at the program counter of any state: where several refusals apply, it is seen which is given.
fn any_instruction<R: Runner>(runner: &mut R, random: &mut Random) -> Result<u64, R::Failure> {
    let mut machine = well_formed(random);
    let mut bytes = bytes(random);
    let at = if random.percent(10) { MEMORY - random.between(1, 5) } else { random.below(MEMORY) };
    machine.program_counter = at as u32;
    let code = match random.below(10) {
        0 => random.byte(),
        1..=3 => partly_in_view(&mut machine, random),
        _ => random.below(0x3F) as u8,
    };
    bytes[at] = code;
    bytes[first_instruction(&machine)] = code;
    let budget = random.between(0, 2) as u64;
    let mut memory = Memory::with_any_sum(random, bytes);
    runner.state("state: any instruction", &mut machine, &mut memory, budget, Lengths::OF_STATE)?;
    Ok(1)
}

/// Where a machine's first instruction is: its own, or a routine's.
pub fn first_instruction(machine: &Machine) -> usize {
    let mut machine = machine.clone();
    enter(&mut machine);
    machine.program_counter as usize
}

/// Instructions that have to do with lines, at the program counter and in all routines of a state with lines.
fn any_entry<R: Runner>(runner: &mut R, random: &mut Random) -> Result<u64, R::Failure> {
    let mut machine = with_lines(random);
    let mut bytes = bytes(random);
    machine.program_counter = random.between(64, MEMORY - 1) as u32;
    lay_line_codes(random, &mut bytes, &machine);
    if random.percent(30) {
        some_calls(runner, random, Reach::Alone, &mut machine)?;
    }
    let budget = random.below(5) as u64;
    let mut memory = Memory::with_any_sum(random, bytes);
    runner.state("state: with lines", &mut machine, &mut memory, budget, Lengths::OF_STATE)?;
    Ok(1)
}

/// Puts codes that have to do with lines where the machine stands and where the routines begin.
pub fn lay_line_codes(random: &mut Random, bytes: &mut [u8], machine: &Machine) {
    for at in (1..=15).map(|line| 4 * line).chain([machine.program_counter as usize]) {
        let any = random.byte();
        bytes[at] = random.pick(&[0x3C, 0x3C, 0x3C, 0x3D, 0x3D, 0x0D, 0x09, 0x0C, 0x00, any]);
    }
    // At the lowest level mostly one that would finish the run.
    if machine.s == 0 && random.percent(60) {
        bytes[machine.program_counter as usize] = 0x3D;
    }
}

/// The code of an access, for which the top cell becomes an address across an end of the cells in view.
fn partly_in_view(machine: &mut Machine, random: &mut Random) -> u8 {
    let (code, bytes) = any_access(random);
    if let Some(top) = machine.p.checked_sub(1) {
        machine.parameters[top] = over_an_end_of_view(random, bytes);
    }
    code
}

/// A store in any state: of too few cells, to any address, and mostly to memory.
fn any_store<R: Runner>(runner: &mut R, random: &mut Random) -> Result<u64, R::Failure> {
    let mut machine = well_formed(random);
    let mut bytes = bytes(random);
    let (at, code) = (random.below(MEMORY), random.pick(&[0x2E, 0x30, 0x32]));
    machine.program_counter = at as u32;
    bytes[at] = code;
    bytes[first_instruction(&machine)] = code;
    match random.below(10) {
        0 | 1 => machine.p = random.below(2),
        2 | 3 => {}
        _ => {
            let address = random.below(MEMORY - 3) as u32;
            aim(random, &mut machine, code, address, &bytes);
        }
    }
    let mut memory = Memory::with_any_sum(random, bytes);
    runner.state("state: any store", &mut machine, &mut memory, 1, Lengths::OF_STATE)?;
    Ok(1)
}

/// Gives the machine an address to fetch from or to store to, and a number for a store over what stands there.
pub fn aim(random: &mut Random, machine: &mut Machine, code: u8, address: u32, bytes: &[u8]) {
    let start = address as usize;
    let stands = row_of(code).and_then(|row| bytes.get(start..start + width(row.op)));
    for (below, number) in [(1, address), (2, over(random, stands.unwrap_or_default()))] {
        if machine.p >= below {
            machine.parameters[machine.p - below] = number;
        }
    }
}

/// Several runs of one state, one after another, the lines and the memory changed in between.
fn chain<R: Runner>(runner: &mut R, random: &mut Random) -> Result<u64, R::Failure> {
    let mut machine = if random.percent(15) { Machine::fresh() } else { well_formed(random) };
    let mut bytes = bytes(random);
    machine.program_counter = if random.percent(2) { random.u32() } else { random.below(ARENA.length) as u32 };
    let mut runs = 0;
    for _ in 0..random.between(1, 5) {
        some_calls(runner, random, Reach::Alone, &mut machine)?;
        let (_, style) = random.pick(&STYLES);
        let target = random.between(1, 120) as u64;
        let copy: Box<[u8; MEMORY]> = bytes.clone().into_boxed_slice().try_into().expect("a memory's length");
        let taste = Taste { style, arena: ARENA, reach: Reach::Alone };
        let grown = Grower::new(random, copy, target).grow(machine.clone(), &taste);
        grown.write(random, ARENA, &mut bytes);
        let budget = grown.steps.saturating_sub(random.below(2) as u64) + random.below(3) as u64;
        let mut memory = Memory::with_any_sum(random, bytes);
        runs += in_slices(runner, random, "state: run in a chain", &mut machine, &mut memory, budget)?;
        bytes = memory.bytes;
        let elsewhere = random.below(MEMORY);
        bytes[elsewhere] = random.byte();
        // A machine that was refused would be refused again: the host moves it on.
        if grown.ended.is_some() {
            machine.program_counter = random.below(ARENA.length) as u32;
        }
    }
    Ok(runs)
}

/// Runs a state with a budget that may be cut into slices, with lines raised between them; gives the number of calls.
pub fn in_slices<R: Runner>(
    runner: &mut R,
    random: &mut Random,
    kind: &'static str,
    machine: &mut Machine,
    memory: &mut Memory,
    budget: u64,
) -> Result<u64, R::Failure> {
    let calls = slices(random, budget);
    for slice in &calls {
        match *slice {
            Some(budget) => runner.state(kind, machine, memory, budget, Lengths::OF_STATE)?,
            None => wrong_call(runner, random, machine.clone(), memory)?,
        }
        some_calls(runner, random, Reach::Alone, machine)?;
    }
    Ok(calls.len() as u64)
}

/// A budget for one run, or cut into pieces for runs of which each is handed just what the one before handed back. Nothing
/// stands for a call between them that is refused.
pub fn slices(random: &mut Random, mut budget: u64) -> Vec<Option<u64>> {
    let mut calls = Vec::new();
    while random.percent(40) {
        let slice = random.between(0, budget as usize) as u64;
        budget -= slice;
        calls.push(Some(slice));
        if random.percent(40) {
            calls.push(None);
        }
    }
    calls.push(Some(budget));
    calls
}
