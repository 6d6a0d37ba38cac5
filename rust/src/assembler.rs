//! A two-pass assembler for the programs in tests and in the speed table.
//!
//! Words are separated by white space. `name:` marks a place; the instructions have the names of the model's table;
//! `LOAD.B`, `LOAD.W`, `LOAD.L`, `JSL`, `BEQ` and `BRA` are followed by a number (decimal, or hexadecimal after `$`) or
//! by the name of a place.

use std::collections::HashMap;

use crate::model::codes::{known_codes, row_of, Op, Row};

pub fn assemble(source: &str) -> Vec<u8> {
    let places = places(source);
    let mut code = Vec::new();
    let mut words = source.split_whitespace();
    while let Some(word) = words.next() {
        if word.ends_with(':') {
            continue;
        }
        let (first, row) = instruction(word);
        let next = code.len() as u32 + row.bytes;
        if row.bytes == 1 {
            code.push(first);
            continue;
        }
        let operand = number(words.next().expect("an operand"), &places);
        if matches!(row.op, Op::Beq | Op::Bra) {
            let offset = operand.wrapping_sub(next) & 0x3FFF;
            code.extend([first | (offset >> 8) as u8, offset as u8]);
        } else {
            code.push(first);
            code.extend(&operand.to_be_bytes()[5 - row.bytes as usize..]);
        }
    }
    code
}

/// An image file with this memory, these parameter cells and, if given, this budget.
pub fn image(memory: &[u8], parameters: &[u32], budget: Option<u32>) -> Vec<u8> {
    let mut file = (memory.len() as u32).to_be_bytes().to_vec();
    file.extend(memory);
    for section in [parameters, budget.as_slice()] {
        file.extend((section.len() as u32).to_be_bytes());
        file.extend(section.iter().flat_map(|cell| cell.to_be_bytes()));
    }
    file
}

fn places(source: &str) -> HashMap<&str, u32> {
    let mut places = HashMap::new();
    let mut address = 0;
    let mut words = source.split_whitespace();
    while let Some(word) = words.next() {
        if let Some(name) = word.strip_suffix(':') {
            places.insert(name, address);
            continue;
        }
        let (_, row) = instruction(word);
        address += row.bytes;
        if row.bytes > 1 {
            words.next();
        }
    }
    places
}

fn instruction(name: &str) -> (u8, &'static Row) {
    known_codes()
        .filter_map(|code| row_of(code).map(|row| (code, row)))
        .find(|(_, row)| row.name == name)
        .unwrap_or_else(|| panic!("no instruction is called {name}"))
}

fn number(word: &str, places: &HashMap<&str, u32>) -> u32 {
    let parsed = match word.strip_prefix('$') {
        Some(digits) => u32::from_str_radix(digits, 16).ok(),
        None => places.get(word).copied().or_else(|| word.parse().ok()),
    };
    parsed.unwrap_or_else(|| panic!("{word} is neither a number nor a place"))
}
