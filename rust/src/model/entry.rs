//! The entry of a line's routine, which comes before an instruction and is none itself: no step, no cycle.

use super::state::{Machine, CELLS, FRAMES};

/// Line n has its routine at address 4n.
const APART: u32 = 4;

/// The lowest line that waits and is let in; nothing where there is none.
pub fn due(machine: &Machine) -> Option<u32> {
    let both = machine.lines.waiting & machine.lines.mask;
    (1..=15).find(|line| both >> line & 1 == 1)
}

/// Lets the line in that is due, if no routine is in progress and both stacks have room; else it waits on. The routine
/// returns to the instruction that was about to be done.
pub fn enter(machine: &mut Machine) {
    let has_room = machine.r < CELLS && machine.s < FRAMES;
    if let Some(line) = due(machine).filter(|_| machine.lines.block == 0 && has_room) {
        machine.call(APART * line, machine.program_counter);
        machine.lines.waiting &= !(1 << line);
        machine.lines.block = 1;
    }
}
