//! What an address means to a fetch or a store.

use super::codes::Op;
use super::reach::Reach;
use super::state::{Machine, CATCH_CELLS, LOCALS, MEMORY};

/// The address of the first byte of the cells in view.
pub const VIEW: usize = 0x10000;
/// The cells in view are the locals of level S and then the cells of exception level E, four bytes each.
pub const VIEW_BYTES: usize = 4 * (LOCALS + CATCH_CELLS);

/// Where the first byte of an access lies.
pub enum Place {
    Memory(usize),
    /// Counted from the first byte of the cells in view.
    InView(usize),
}

impl Place {
    /// Whether so many bytes here are clear of other tasks' parts. The cells are the machine's own.
    pub fn is_within(&self, reach: Reach, width: usize) -> bool {
        match *self {
            Place::Memory(start) => reach.allows(start..start + width),
            Place::InView(_) => true,
        }
    }
}

/// Bytes that a fetch or a store moves; 0 for any other instruction.
pub fn width(op: Op) -> usize {
    match op {
        Op::FetchL | Op::StoreL => 4,
        Op::FetchW | Op::StoreW => 2,
        Op::FetchB | Op::StoreB => 1,
        _ => 0,
    }
}

/// The place of so many bytes at an address, or nothing where the access is refused.
pub fn place(width: usize, address: u32) -> Option<Place> {
    let start = address as usize;
    if start + width <= MEMORY {
        return Some(Place::Memory(start));
    }
    let in_view = start.checked_sub(VIEW)?;
    (in_view + width <= VIEW_BYTES).then_some(Place::InView(in_view))
}

pub fn load(machine: &Machine, memory: &[u8; MEMORY], width: usize, place: Place) -> u32 {
    match place {
        Place::Memory(start) => number(&memory[start..start + width]),
        Place::InView(start) => number(&bytes_in_view(machine)[start..start + width]),
    }
}

pub fn store(machine: &mut Machine, memory: &mut [u8; MEMORY], width: usize, place: Place, value: u32) {
    match place {
        Place::Memory(start) => write_number(&mut memory[start..start + width], value),
        Place::InView(start) => {
            let mut bytes = bytes_in_view(machine);
            write_number(&mut bytes[start..start + width], value);
            set_bytes_in_view(machine, &bytes);
        }
    }
}

/// The number that some bytes spell, the highest first.
fn number(bytes: &[u8]) -> u32 {
    bytes.iter().fold(0, |value, &byte| value << 8 | u32::from(byte))
}

/// Spells as much of a value as there are bytes: its low bytes are the last of its four.
fn write_number(bytes: &mut [u8], value: u32) {
    bytes.copy_from_slice(&value.to_be_bytes()[4 - bytes.len()..]);
}

fn bytes_in_view(machine: &Machine) -> Vec<u8> {
    let cells = machine.frames[machine.s].locals.iter().chain(&machine.catches[machine.e].cells);
    cells.flat_map(|cell| cell.to_be_bytes()).collect()
}

fn set_bytes_in_view(machine: &mut Machine, bytes: &[u8]) {
    let cells = machine.frames[machine.s].locals.iter_mut().chain(&mut machine.catches[machine.e].cells);
    for (cell, bytes) in cells.zip(bytes.chunks(4)) {
        *cell = number(bytes);
    }
}
