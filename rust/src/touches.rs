//! What an instruction tries to touch.

use std::ops::Range;

use crate::model::codes::{fetch, row_of};
use crate::model::place::width;
use crate::model::reach::Reach;
use crate::model::state::{Machine, MEMORY};

pub struct Touches {
    pub number: usize,
    /// The instruction's bytes, as far as they are tested.
    pub code: Range<usize>,
    /// Its data, and whether that is read or written; nothing where it has none or is refused before.
    pub data: Option<(Range<usize>, &'static str)>,
    /// What is at fault where a byte is refused.
    pub refused: &'static str,
}

impl Touches {
    /// Of the next instruction of the task of this number.
    pub fn of(number: usize, machine: &Machine, memory: &[u8; MEMORY]) -> Touches {
        let start = machine.program_counter as usize;
        let is_reached = |at: usize| at < MEMORY && Reach::Task(number).allows(at..at + 1);
        let row = if is_reached(start) { row_of(memory[start]) } else { None };
        let length = row.map_or(1, |row| row.bytes as usize);
        let reached = (start..start + length).take_while(|&at| is_reached(at)).count();
        let data = data_of(Reach::Task(number), machine, memory).map(|(code, bytes)| {
            (bytes, if row_of(code).is_some_and(|row| row.takes == 2) { "write" } else { "read" })
        });
        let refused = match reached {
            0 => "first byte",
            _ if reached < length => "further byte",
            _ => data.as_ref().map_or("", |(_, touch)| touch),
        };
        Touches { number, code: start..start + length.min(reached + 1), data, refused }
    }
}

/// The code of a machine's next instruction and the bytes of its data; nothing where it has none or is refused before.
pub fn data_of(reach: Reach, machine: &Machine, memory: &[u8; MEMORY]) -> Option<(u8, Range<usize>)> {
    let row = fetch(memory, reach, machine.program_counter).ok()?.row;
    if width(row.op) == 0 || machine.p < row.takes {
        return None;
    }
    let address = machine.parameters[machine.p - 1] as usize;
    Some((memory[machine.program_counter as usize], address..address + width(row.op)))
}
