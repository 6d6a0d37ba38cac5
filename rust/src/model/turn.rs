//! The instructions of one machine, one after another.

use super::codes::PAUSE_CODE;
use super::entry::enter;
use super::observer::{Observer, Seen};
use super::reach::Reach;
use super::state::{Answer, Machine, MEMORY};
use super::step::step;

/// How far a machine came.
#[derive(Clone, Copy, Debug, PartialEq, Eq)]
pub struct Turn {
    /// The answer that the next instruction gave; nothing where it was not asked.
    pub left: Option<Answer>,
    pub steps: u64,
    pub cycles: u64,
}

/// Carries out instructions, at most so many, before each of which a line may enter. PAUSE ends the turn of one task among four; alone there is nobody to pass
/// it to.
pub fn turn(
    machine: &mut Machine,
    memory: &mut [u8; MEMORY],
    reach: Reach,
    most: u64,
    observer: &mut impl Observer,
) -> Turn {
    let mut turn = Turn { left: None, steps: 0, cycles: 0 };
    while turn.steps < most {
        observer.coming(reach, machine, memory);
        if reach.has_lines() {
            enter(machine);
        }
        // A step may store over its own code, so the code is noted first; outside memory there is no step to tell of.
        let code = memory.get(machine.program_counter as usize).copied().unwrap_or(0);
        let before = Seen::of(machine);
        observer.trying(reach, machine, memory);
        match step(machine, memory, reach) {
            Ok(cycles) => {
                turn.steps += 1;
                turn.cycles += cycles;
                observer.completed(code, before, Seen::of(machine));
            }
            Err(answer) => {
                observer.refused(code, before, answer);
                turn.left = Some(answer);
                break;
            }
        }
        if code == PAUSE_CODE && reach != Reach::Alone {
            break;
        }
    }
    turn
}
