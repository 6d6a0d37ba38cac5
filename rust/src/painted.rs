//! The exported functions on a painted stack: how often each was called, and the deepest seen.

use std::convert::Infallible;

use crate::boundary::{
    painted_bench, painted_raise_line, painted_read_image, painted_run_state, painted_run_tasks, painted_set_mask,
    Painted,
};
use crate::chains::{Lengths, Runner};
use crate::comparison::{filled, Room, OUT};
use crate::line_calls::LineCall;
use crate::memories::Memory;
use crate::model::reach::{Reach, TASKS};
use crate::model::run::run;
use crate::model::state::Machine;
use crate::model::tasks::{run_tasks, Task};
use crate::state_bytes::{numbers_in, spell, spell_tasks, take_lines, READ_RESULT_BYTES, RESULT_BYTES, STATE_BYTES};
use crate::task_chains::Pace;

/// No byte has the colour of both: what is written in the one is seen on the other.
const PAINTS: [u8; 2] = [0xA5, 0x5A];

/// Calls for lines have few ways: of so many of each kind the stack is looked at, and the model makes the others.
const ENOUGH: u64 = 12_000;

/// What has been seen of one function.
#[derive(Default)]
pub struct Depth {
    pub calls: u64,
    pub deepest: u64,
}

impl Depth {
    /// Makes a call once on each paint; gives its answer.
    fn seen(&mut self, mut call: impl FnMut(u8) -> Painted) -> u64 {
        let made = PAINTS.map(&mut call);
        self.calls += 1;
        self.deepest = made.iter().map(|made| made.stack).fold(self.deepest, u64::max);
        made[0].answer
    }
}

#[derive(Default)]
pub struct Depths {
    pub bench: Depth,
    pub read_image: Depth,
    pub run_state: Depth,
    pub run_tasks: Depth,
    pub raise_line: Depth,
    pub set_mask: Depth,
}

impl Depths {
    /// Runs an image, and reads it; where it is read, its state is run too.
    pub fn image(&mut self, file: &[u8], memory_length: usize, room: Room) {
        let mut memory = vec![0; memory_length];
        let text = self.run_image(file, &mut memory, OUT);
        if !matches!(room, Room::Plenty) {
            self.run_image(file, &mut memory, room.bytes(text as usize));
        }
        let mut state = [0; STATE_BYTES];
        let mut result = [0; READ_RESULT_BYTES];
        let answer =
            self.read_image.seen(|paint| painted_read_image(paint, file, &mut memory, &mut state, &mut result));
        if answer == 0 {
            self.run_bytes(&state, &memory, numbers_in(&result), RESULT_BYTES);
        }
    }

    fn run_image(&mut self, file: &[u8], memory: &mut [u8], out_length: usize) -> u64 {
        let mut out = vec![0; out_length];
        self.bench.seen(|paint| painted_bench(paint, file, memory, &mut out))
    }

    /// With a budget and a sum.
    fn run_bytes(&mut self, state: &[u8], memory: &[u8], with: [u64; 2], result_length: usize) {
        let mut result = vec![0; result_length];
        self.run_state.seen(|paint| {
            let (mut state, mut memory) = (state.to_vec(), memory.to_vec());
            painted_run_state(paint, &mut state, &mut memory, with, &mut result)
        });
    }
}

impl Runner for Depths {
    type Failure = Infallible;

    /// The model takes machine, memory and sum on to the next run.
    fn state(
        &mut self,
        _kind: &'static str,
        machine: &mut Machine,
        Memory { bytes, sum }: &mut Memory,
        budget: u64,
        lengths: Lengths,
    ) -> Result<(), Infallible> {
        let state = filled(spell(machine), lengths.machines);
        self.run_bytes(&state, &filled(bytes.clone(), lengths.memory), [budget, *sum], lengths.result);
        if lengths == Lengths::OF_STATE {
            *sum = run(machine, bytes, budget, *sum, &mut ()).sum;
        }
        Ok(())
    }

    /// As above, with the tasks.
    fn tasks(
        &mut self,
        _kind: &'static str,
        tasks: &mut [Task; TASKS],
        Memory { bytes, sum }: &mut Memory,
        Pace { quantum, budget }: Pace,
        lengths: Lengths,
    ) -> Result<(), Infallible> {
        let spelled = filled(spell_tasks(tasks), lengths.machines);
        let lent = filled(bytes.clone(), lengths.memory);
        let mut result = vec![0; lengths.result];
        self.run_tasks.seen(|paint| {
            let (mut spelled, mut lent) = (spelled.clone(), lent.clone());
            painted_run_tasks(paint, &mut spelled, &mut lent, [quantum, budget, *sum], &mut result)
        });
        if lengths == Lengths::OF_TASKS {
            *sum = run_tasks(tasks, bytes, quantum, budget, *sum, &mut ()).sum;
        }
        Ok(())
    }

    /// The lines are then as the call left them.
    fn lines(&mut self, _reach: Reach, machine: &mut Machine, call: LineCall, length: usize) -> Result<(), Infallible> {
        let mut state = filled(spell(machine), length);
        let depth = match call {
            LineCall::Raise(_) => &mut self.raise_line,
            LineCall::SetMask(_) => &mut self.set_mask,
        };
        if depth.calls < ENOUGH {
            depth.seen(|paint| match call {
                LineCall::Raise(line) => painted_raise_line(paint, &mut state, line),
                LineCall::SetMask(mask) => painted_set_mask(paint, &mut state, mask),
            });
        } else {
            call.by_model(&mut state);
        }
        if length == STATE_BYTES {
            take_lines(machine, &state);
        }
        Ok(())
    }
}

#[cfg(test)]
mod tests {
    use super::*;
    use crate::random::Random;
    use crate::task_chains::any_tasks;

    #[test]
    fn runs_of_four_tasks_are_seen() {
        let mut depths = Depths::default();
        let mut random = Random::new(1);
        let Ok(runs) = any_tasks(&mut depths, &mut random);
        assert_eq!(depths.run_tasks.calls, runs);
        assert!(depths.run_tasks.deepest > 0);
    }

    #[test]
    fn calls_for_lines_are_seen_and_change_the_lines() {
        let mut depths = Depths::default();
        let mut machine = Machine::fresh();
        for (call, length) in [
            (LineCall::Raise(5), STATE_BYTES),
            (LineCall::SetMask(3), STATE_BYTES),
            (LineCall::SetMask(7), STATE_BYTES - 1),
        ] {
            let Ok(()) = depths.lines(Reach::Alone, &mut machine, call, length);
        }
        assert_eq!((machine.lines.waiting, machine.lines.mask), (1 << 5, 3));
        assert_eq!((depths.raise_line.calls, depths.set_mask.calls), (1, 2));
    }
}
