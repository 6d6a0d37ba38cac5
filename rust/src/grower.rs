//! Programs that run for long: each byte is chosen when a machine comes to it.
//!
//! A random string of bytes is refused within a few steps. Here the model runs ahead, and where it reaches a byte that
//! nobody has chosen yet, a fragment is picked that suits the state it is in. What was stored over is left as it is
//! and carried out, so programs also run what they wrote.

use crate::fragments::{ending, fragment, routine, Arena, Taste};
use crate::model::codes::{fetch, PAUSE_CODE};
use crate::model::entry::enter;
use crate::model::place::width;
use crate::model::reach::TASKS;
use crate::model::state::{Answer, Machine, MEMORY};
use crate::model::step::step;
use crate::model::tasks::{next_ready, Task};
use crate::random::Random;

/// Steps that an ending may take before it is given up.
const ENDING: u64 = 40;

/// The bytes that were chosen, and how the model's run over them went.
pub struct Grown {
    pub chosen: Vec<(usize, u8)>,
    pub steps: u64,
    /// The answer that ended the run of one machine.
    pub ended: Option<Answer>,
}

impl Grown {
    /// Writes what was chosen; and mostly routines for lines that the model was not in, since a host may raise them on the way.
    pub fn write(&self, random: &mut Random, arena: Arena, bytes: &mut [u8]) {
        for line in (1..=15).filter(|_| random.percent(80)).collect::<Vec<_>>() {
            let routine = routine(random, arena);
            bytes[4 * line..][..routine.len()].copy_from_slice(&routine);
        }
        for &(address, byte) in &self.chosen {
            bytes[address] = byte;
        }
    }
}

pub struct Grower<'a> {
    random: &'a mut Random,
    memory: Box<[u8; MEMORY]>,
    /// The bytes that are no longer to be chosen.
    decided: Vec<bool>,
    grown: Grown,
    /// Steps after which endings are chosen, and after which growth stops.
    target: u64,
    limit: u64,
}

impl<'a> Grower<'a> {
    /// For so many steps; half of the programs then get an ending.
    pub fn new(random: &'a mut Random, memory: Box<[u8; MEMORY]>, target: u64) -> Grower<'a> {
        let limit = if random.percent(50) { target + ENDING } else { target };
        let grown = Grown { chosen: Vec::new(), steps: 0, ended: None };
        Grower { random, memory, decided: vec![false; MEMORY], grown, target, limit }
    }

    /// Runs one machine ahead, choosing code on the way.
    pub fn grow(mut self, mut machine: Machine, taste: &Taste) -> Grown {
        while self.grown.ended.is_none() && self.grown.steps < self.limit {
            self.grown.ended = self.step(&mut machine, taste).err();
        }
        self.grown
    }

    /// Runs four tasks ahead in turns, choosing code on the way.
    pub fn grow_turns(mut self, mut tasks: [Task; TASKS], tastes: &[Taste; TASKS], quantum: u64) -> Grown {
        let mut first = 0;
        while self.grown.steps < self.limit {
            let Some(number) = next_ready(&tasks, first) else { break };
            self.grow_turn(&mut tasks[number], &tastes[number], quantum);
            first = number + 1;
        }
        self.grown
    }

    fn grow_turn(&mut self, task: &mut Task, taste: &Taste, quantum: u64) {
        let end = self.limit.min(self.grown.steps + quantum);
        while self.grown.steps < end {
            match self.step(&mut task.machine, taste) {
                Ok(PAUSE_CODE) => return,
                Ok(_) => {}
                Err(answer) => {
                    task.kept = answer.number();
                    return;
                }
            }
        }
    }

    /// Carries out a machine's next instruction, chosen now where it was not before, and gives its code.
    fn step(&mut self, machine: &mut Machine, taste: &Taste) -> Result<u8, Answer> {
        if taste.reach.has_lines() {
            enter(machine);
        }
        let here = machine.program_counter as usize;
        if self.decided.get(here) == Some(&false) {
            let bytes = if self.grown.steps < self.target {
                fragment(self.random, taste, machine)
            } else {
                ending(self.random, taste.reach)
            };
            self.choose(here, &bytes);
        }
        self.note_store(machine, taste);
        let code = self.memory.get(here).copied().unwrap_or(0);
        step(machine, &mut self.memory, taste.reach)?;
        self.grown.steps += 1;
        Ok(code)
    }

    /// Writes a fragment, but not over bytes that are decided.
    fn choose(&mut self, here: usize, bytes: &[u8]) {
        for (address, &byte) in (here..MEMORY).zip(bytes) {
            if !self.decided[address] {
                self.decided[address] = true;
                self.memory[address] = byte;
                self.grown.chosen.push((address, byte));
            }
        }
    }

    /// A byte that the program is about to store over is no longer ours to choose.
    fn note_store(&mut self, machine: &Machine, taste: &Taste) {
        let Ok(instruction) = fetch(&self.memory[..], taste.reach, machine.program_counter) else {
            return;
        };
        let row = instruction.row;
        let stores = width(row.op) > 0 && row.takes == 2;
        if stores && machine.p >= 2 {
            let start = machine.parameters[machine.p - 1] as usize;
            if let Some(bytes) = self.decided.get_mut(start..start + width(row.op)) {
                bytes.fill(true);
            }
        }
    }
}
