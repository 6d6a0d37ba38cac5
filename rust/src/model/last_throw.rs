//! The last throw: what sets it, and that nothing else does.

use super::bench::bench;
use super::codes::{known_codes, PAUSE_CODE};
use super::image::load_image;
use super::reach::Reach;
use super::state::{Answer, Frame, LastThrow, Lines, Machine, MEMORY};
use super::step::step;
use crate::assembler::{assemble, image};

const THROW: u8 = 0x0D;
const BEFORE: LastThrow = LastThrow { address: 0x1234_5678, code: 0x9ABC_DEF0 };

/// In a word that was called from a caught one, with some cells, as a routine of a line.
fn in_a_caught_word(cells: &[u32]) -> Machine {
    let lines = Lines { block: 1, ..Lines::default() };
    let mut machine = Machine { r: 2, s: 2, e: 1, last_throw: BEFORE, lines, ..Machine::fresh() };
    machine.frames[2] = Frame { copy_of_r: 1, ..Frame::default() };
    cells.iter().for_each(|&cell| machine.push(cell));
    assert!(machine.is_well_formed());
    machine
}

/// The last throw after one instruction at an address, or the answer, which leaves it.
fn after(code: u8, address: usize, mut machine: Machine) -> Result<LastThrow, Answer> {
    let mut memory = [PAUSE_CODE; MEMORY];
    memory[address] = code;
    machine.program_counter = address as u32;
    let before = machine.last_throw;
    let stepped = step(&mut machine, &mut memory, Reach::Alone);
    if stepped.is_err() {
        assert_eq!(machine.last_throw, before);
    }
    stepped.map(|_| machine.last_throw)
}

#[test]
fn throw_sets_its_own_address_and_its_code() {
    for address in [0, 1, 255, 256, 16_384, MEMORY - 1] {
        for code in [1, 0x80, 0xFF, 0x1_0000, 0x8000_0000, u32::MAX] {
            let expected = LastThrow { address: address as u32, code };
            assert_eq!(after(THROW, address, in_a_caught_word(&[7, code])), Ok(expected));
        }
    }
}

#[test]
fn throw_of_0_leaves_it() {
    assert_eq!(after(THROW, 5, in_a_caught_word(&[7, 0])), Ok(BEFORE));
    assert_eq!(after(THROW, 5, Machine { e: 0, ..in_a_caught_word(&[0]) }), Ok(BEFORE));
}

#[test]
fn a_refused_throw_leaves_it() {
    assert_eq!(after(THROW, 5, in_a_caught_word(&[])), Err(Answer::TooFewParameters));
    assert_eq!(after(THROW, 5, Machine { e: 0, ..in_a_caught_word(&[7]) }), Err(Answer::NothingCatches));
}

#[test]
fn every_other_instruction_leaves_it() {
    for code in known_codes().filter(|&code| code != THROW) {
        assert_eq!(after(code, 100, in_a_caught_word(&[7, 8, 9])), Ok(BEFORE), "{code:02X}");
    }
}

#[test]
fn any_two_numbers_are_well_formed() {
    for (address, code) in [(0, 0), (0, 1), (1, 0), (u32::MAX, u32::MAX)] {
        assert!(Machine { last_throw: LastThrow { address, code }, ..Machine::fresh() }.is_well_formed());
    }
}

#[test]
fn an_image_begins_with_zeros() {
    let loaded = load_image(&image(&[THROW], &[1], None), &mut vec![0xAA; MEMORY]).expect("a good image");
    assert_eq!(loaded.machine.last_throw, LastThrow { address: 0, code: 0 });
}

/// The last two numbers of a program's line.
fn printed(source: &str) -> String {
    let text = bench(&image(&assemble(source), &[], None), &mut vec![0; MEMORY], &mut ()).text;
    let line = text.lines().next().unwrap_or_default();
    line.split(' ').skip(8).collect::<Vec<_>>().join(" ")
}

#[test]
fn the_last_of_two_counts() {
    let words = "first: LOAD.B 7 THROW second: LOAD.B 5 THROW";
    let caught = |first, second| format!("LOAD.B {first} CATCH ZERO DROP LOAD.B {second} CATCH ZERO EXIT {words}");
    assert_eq!(printed(&caught("first", "second")), "15 5");
    assert_eq!(printed(&caught("second", "first")), "12 7");
    // One that is caught and thrown on was thrown last by the outer word.
    assert_eq!(
        printed("LOAD.B outer CATCH ZERO EXIT outer: LOAD.B inner CATCH ZERO THROW inner: LOAD.B 9 THROW"),
        "9 9"
    );
}

#[test]
fn no_level_that_is_lost_brings_an_earlier_one_back() {
    for (lost, address) in [("EXIT", 12), ("R> EXIT", 13), ("RESETSP EXIT", 13)] {
        let outer = format!("outer: LOAD.B inner CATCH ZERO {lost}");
        let source = format!("LOAD.B outer CATCH ZERO EXIT {outer} inner: LOAD.B 9 THROW");
        assert_eq!(printed(&source), format!("{address} 9"), "{lost}");
    }
}

#[test]
fn a_throw_that_nothing_catches_is_not_printed() {
    assert_eq!(printed("LOAD.B 9 THROW"), "0 0");
    assert_eq!(printed("LOAD.B word CATCH ZERO THROW word: LOAD.B 9 THROW"), "7 9");
}
