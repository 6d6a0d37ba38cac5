//! The program of the speed table that lines interrupt. Only a host raises them, so that it is run in slices: before each
//! the host raises every second line, and the routines take more than half of the steps.

use crate::assembler::assemble;
use crate::boundary::Foreign;
use crate::line_calls::LineCall;
use crate::model::run;
use crate::model::state::{Machine, MEMORY};
use crate::model::sum::sum_of;
use crate::state_bytes::{numbers_in, spell, spell_result, take_lines, RESULT_BYTES};

const SLICE: u64 = 100;
const SLICES: u64 = 1000;
const MASK: LineCall = LineCall::SetMask(0xFFFE);

pub struct SpeedLines {
    pub name: &'static str,
    memory: Vec<u8>,
    /// Steps of all slices together: the program does not end before.
    pub steps: u64,
}

pub fn speed_lines() -> SpeedLines {
    let vectors = "BRA work NOP NOP ".repeat(15);
    let work = "work: LOAD.W $4000 FETCH.L 1+ LOAD.W $4000 STORE.L RTI";
    let mut memory = assemble(&format!("BRA main NOP NOP {vectors} {work} main: ZERO next: 1+ BRA next"));
    memory.resize(MEMORY, 0);
    SpeedLines { name: "lines", memory, steps: SLICE * SLICES }
}

fn raised() -> impl Iterator<Item = LineCall> {
    (1..=15).step_by(2).map(LineCall::Raise)
}

/// What a host holds of a foreign machine from slice to slice.
pub struct Held {
    state: Vec<u8>,
    memory: Vec<u8>,
    result: Vec<u8>,
}

impl SpeedLines {
    pub fn held(&self) -> Held {
        Held { state: spell(&Machine::fresh()), memory: self.memory.clone(), result: vec![0; RESULT_BYTES] }
    }
}

impl Held {
    /// All slices.
    pub fn run(&mut self, machine: Foreign) {
        let mut sum = sum_of(&self.memory);
        MASK.by(machine, &mut self.state);
        for _ in 0..SLICES {
            raised().for_each(|call| {
                call.by(machine, &mut self.state);
            });
            machine.run_state(&mut self.state, &mut self.memory, SLICE, sum, &mut self.result);
            [_, _, _, sum] = numbers_in(&self.result);
        }
    }

    /// The state, the memory and the last result.
    pub fn left(self) -> Vec<u8> {
        [self.state, self.memory, self.result].concat()
    }
}

/// The same by the model; gives what a host would hold.
pub fn run_by_model(work: &SpeedLines) -> Held {
    let (mut machine, mut memory) = (Machine::fresh(), work.memory.clone());
    let mut outcome = run::Outcome::bad_input(sum_of(&memory));
    call_on_model(&mut machine, [MASK].into_iter());
    for _ in 0..SLICES {
        call_on_model(&mut machine, raised());
        outcome = run::run(&mut machine, &mut memory, SLICE, outcome.sum, &mut ());
    }
    Held { state: spell(&machine), memory, result: spell_result(outcome) }
}

fn call_on_model(machine: &mut Machine, calls: impl Iterator<Item = LineCall>) {
    let mut state = spell(machine);
    calls.for_each(|call| {
        call.by_model(&mut state);
    });
    take_lines(machine, &state);
}

#[cfg(test)]
mod tests {
    use super::*;
    use crate::boundary::PLAIN_C;

    #[test]
    fn every_raised_line_is_served_in_its_slice() {
        let work = speed_lines();
        let left = run_by_model(&work);
        let [answer, steps, _, sum] = numbers_in(&left.result);
        assert_eq!((answer, steps, sum), (1, SLICE, sum_of(&left.memory)));
        // A word of memory counts the routines.
        let served = raised().count() as u32 * SLICES as u32;
        assert_eq!(left.memory[0x4000..0x4004], served.to_be_bytes());
        let mut held = work.held();
        held.run(PLAIN_C);
        assert!(held.left() == left.left());
    }
}
