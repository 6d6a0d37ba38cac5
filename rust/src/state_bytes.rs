//! A whole state, and four tasks, as bytes, big endian, in the order in which the boundary passes it.

use crate::model::host::{MASK, WAITING};
use crate::model::image::Loaded;
use crate::model::reach::TASKS;
use crate::model::run::Outcome;
use crate::model::state::{LastThrow, Lines, Machine, CATCHES, CATCH_CELLS, CELLS, FRAMES, LOCALS};
use crate::model::tasks::Task;

const POINTER: usize = 8;
const CELL: usize = 4;
const FRAME: usize = LOCALS * CELL + POINTER + CELL;
const CATCH: usize = CATCH_CELLS * CELL + 2 * POINTER + CELL;

pub const STATE_BYTES: usize =
    2 * (CELLS * CELL + POINTER) + (FRAMES + 1) * FRAME + POINTER + (CATCHES + 1) * CATCH + POINTER + 7 * CELL;
pub const TASKS_BYTES: usize = TASKS * (STATE_BYTES + POINTER);
pub const RESULT_BYTES: usize = 4 * POINTER;
pub const READ_RESULT_BYTES: usize = 2 * POINTER;

const _: () = assert!(STATE_BYTES == 3548 && TASKS_BYTES == 14_224);

pub fn spell(machine: &Machine) -> Vec<u8> {
    let mut bytes = Vec::with_capacity(STATE_BYTES);
    put_cells(&mut bytes, &machine.parameters);
    put_pointer(&mut bytes, machine.p);
    put_cells(&mut bytes, &machine.returns);
    put_pointer(&mut bytes, machine.r);
    for frame in &machine.frames {
        put_cells(&mut bytes, &frame.locals);
        put_pointer(&mut bytes, frame.copy_of_r);
        put_cells(&mut bytes, &[frame.return_address]);
    }
    put_pointer(&mut bytes, machine.s);
    for catch in &machine.catches {
        put_cells(&mut bytes, &catch.cells);
        put_pointer(&mut bytes, catch.copy_of_s);
        put_pointer(&mut bytes, catch.copy_of_p);
        put_cells(&mut bytes, &[catch.throw_address]);
    }
    put_pointer(&mut bytes, machine.e);
    let LastThrow { address, code } = machine.last_throw;
    let Lines { mask, waiting, block } = machine.lines;
    put_cells(&mut bytes, &[machine.program_counter, machine.flag, address, code, mask, waiting, block]);
    bytes
}

/// Gives the machine the mask and the waiting lines of its bytes, which is all that a host changes there.
pub fn take_lines(machine: &mut Machine, bytes: &[u8]) {
    machine.lines.mask = cell_in(&bytes[MASK]);
    machine.lines.waiting = cell_in(&bytes[WAITING]);
}

fn cell_in(bytes: &[u8]) -> u32 {
    bytes.iter().fold(0, |number, &byte| number << 8 | u32::from(byte))
}

/// Each task is its state and its kept number.
pub fn spell_tasks(tasks: &[Task; TASKS]) -> Vec<u8> {
    tasks.each_ref().map(|task| [spell(&task.machine), task.kept.to_be_bytes().to_vec()].concat()).concat()
}

pub fn spell_result(outcome: Outcome) -> Vec<u8> {
    spell_numbers(&[outcome.answer.number(), outcome.steps, outcome.cycles, outcome.sum])
}

/// What the reader writes beside memory and state.
pub fn spell_read_result(loaded: &Loaded) -> Vec<u8> {
    spell_numbers(&[loaded.budget, loaded.sum])
}

fn spell_numbers(numbers: &[u64]) -> Vec<u8> {
    numbers.iter().flat_map(|number| number.to_be_bytes()).collect()
}

/// The numbers that a result spells, as many as it has.
pub fn numbers_in<const COUNT: usize>(result: &[u8]) -> [u64; COUNT] {
    assert_eq!(result.len(), COUNT * POINTER);
    std::array::from_fn(|i| {
        result[POINTER * i..][..POINTER].iter().fold(0, |number, &byte| number << 8 | u64::from(byte))
    })
}

fn put_cells(bytes: &mut Vec<u8>, cells: &[u32]) {
    bytes.extend(cells.iter().flat_map(|cell| cell.to_be_bytes()));
}

fn put_pointer(bytes: &mut Vec<u8>, pointer: usize) {
    bytes.extend((pointer as u64).to_be_bytes());
}

#[cfg(test)]
mod tests {
    use super::*;

    #[test]
    fn the_lines_end_a_state_and_a_kept_number_a_task() {
        let last_throw = LastThrow { address: 0x0102_0304, code: 0x0506_0708 };
        let lines = Lines { mask: 0x090A_0B0C, waiting: 0x0D0E_0F10, block: 0x1112_1314 };
        let task = Task { machine: Machine { last_throw, lines, ..Machine::fresh() }, kept: 21 };
        let bytes = spell_tasks(&[(); TASKS].map(|()| task.clone()));
        assert_eq!(bytes.len(), TASKS_BYTES);
        assert_eq!(bytes[3528..3548], std::array::from_fn::<u8, 20, _>(|at| at as u8 + 1));
        assert_eq!(bytes[3548..3556], [0, 0, 0, 0, 0, 0, 0, 21]);
    }

    #[test]
    fn what_a_host_changed_is_taken_back() {
        let lines = Lines { mask: 0x090A_0B0C, waiting: 0x0D0E_0F10, block: 1 };
        let mut machine = Machine { lines: Lines { block: 1, ..Lines::default() }, ..Machine::fresh() };
        take_lines(&mut machine, &spell(&Machine { lines, ..Machine::fresh() }));
        assert_eq!(machine.lines, lines);
    }
}
