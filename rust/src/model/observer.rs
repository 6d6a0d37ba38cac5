//! What may be watched of a run from outside.

use super::reach::Reach;
use super::state::{Answer, LastThrow, Lines, Machine, MEMORY};
use super::turn::Turn;

/// What an observer sees of the machine: the levels of the linked stacks, the flag, the last throw, the lines and the top
/// cell, 0 where there is none.
#[derive(Clone, Copy)]
pub struct Seen {
    pub s: usize,
    pub e: usize,
    pub flag: u32,
    pub last_throw: LastThrow,
    pub lines: Lines,
    pub top: u32,
}

impl Seen {
    pub fn of(machine: &Machine) -> Seen {
        let top = machine.p.checked_sub(1).map_or(0, |at| machine.parameters[at]);
        let Machine { s, e, flag, last_throw, lines, .. } = *machine;
        Seen { s, e, flag, last_throw, lines, top }
    }
}

/// Told of what happens; what it has no use for passes by.
pub trait Observer {
    /// A machine comes to its next instruction, and is told of as it stands before any line enters.
    fn coming(&mut self, _reach: Reach, _machine: &Machine, _memory: &[u8; MEMORY]) {}

    /// A machine is about to try an instruction, and is told of as it stands before, a line having entered or not.
    fn trying(&mut self, _reach: Reach, _machine: &Machine, _memory: &[u8; MEMORY]) {}

    /// The instruction was completed.
    fn completed(&mut self, _code: u8, _before: Seen, _after: Seen) {}

    /// The instruction was not carried out, and the machine stands as before.
    fn refused(&mut self, _code: u8, _before: Seen, _answer: Answer) {}

    /// The turn of the task of this number is over; it might have taken the quantum, or what was left of the budget.
    fn turn_over(&mut self, _number: usize, _turn: Turn, _quantum: u64, _left: u64) {}
}

/// Nobody is watching.
impl Observer for () {}

/// Both are told.
impl<A: Observer, B: Observer> Observer for (&mut A, &mut B) {
    fn coming(&mut self, reach: Reach, machine: &Machine, memory: &[u8; MEMORY]) {
        self.0.coming(reach, machine, memory);
        self.1.coming(reach, machine, memory);
    }

    fn trying(&mut self, reach: Reach, machine: &Machine, memory: &[u8; MEMORY]) {
        self.0.trying(reach, machine, memory);
        self.1.trying(reach, machine, memory);
    }

    fn completed(&mut self, code: u8, before: Seen, after: Seen) {
        self.0.completed(code, before, after);
        self.1.completed(code, before, after);
    }

    fn refused(&mut self, code: u8, before: Seen, answer: Answer) {
        self.0.refused(code, before, answer);
        self.1.refused(code, before, answer);
    }

    fn turn_over(&mut self, number: usize, turn: Turn, quantum: u64, left: u64) {
        self.0.turn_over(number, turn, quantum, left);
        self.1.turn_over(number, turn, quantum, left);
    }
}
