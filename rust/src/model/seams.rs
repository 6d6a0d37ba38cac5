//! Where one part of memory meets the next: what a task may still touch, and what it may not.

use super::place::{VIEW, VIEW_BYTES};
use super::reach::{Reach, PART, SHARED, TASKS};
use super::state::{Answer, Machine, MEMORY};
use super::step::step;
use crate::assembler::assemble;

/// First address of a task's part.
fn part(number: usize) -> usize {
    SHARED + PART * number
}

/// The answer to one instruction that stands at an address, with some cells; nothing where it is carried out.
fn answer_at(address: usize, instruction: &[u8], cells: &[u32], reach: Reach) -> Option<u64> {
    let mut memory = [0; MEMORY];
    for (at, &byte) in (address..MEMORY).zip(instruction) {
        memory[at] = byte;
    }
    let mut machine = Machine { program_counter: address as u32, ..Machine::fresh() };
    cells.iter().for_each(|&cell| machine.push(cell));
    step(&mut machine, &mut memory, reach).err().map(Answer::number)
}

/// The answer to an access of shared code.
fn access(source: &str, address: usize, reach: Reach) -> Option<u64> {
    answer_at(0, &assemble(source), &[7, address as u32], reach)
}

#[test]
fn every_byte_is_shared_or_one_tasks_own() {
    for address in 0..MEMORY {
        let may = (0..TASKS).filter(|&number| access("FETCH.B", address, Reach::Task(number)).is_none());
        let expected: Vec<_> = match address {
            0..=16_383 => (0..TASKS).collect(),
            16_384..=20_479 => vec![0],
            20_480..=24_575 => vec![1],
            24_576..=28_671 => vec![2],
            _ => vec![3],
        };
        assert_eq!(may.collect::<Vec<_>>(), expected, "{address}");
    }
}

#[test]
fn an_access_ends_where_the_part_ends() {
    for (source, width) in [("FETCH.L", 4), ("STORE.L", 4), ("FETCH.W", 2), ("STORE.W", 2), ("STORE.B", 1)] {
        for number in 0..TASKS {
            let reach = Reach::Task(number);
            let end = part(number + 1);
            let past = if end == MEMORY { 12 } else { 17 };
            assert_eq!(access(source, end - width, reach), None, "{source} of task {number}");
            assert_eq!(access(source, end - width + 1, reach), Some(past), "{source} of task {number}");
            let before = if number == 0 { None } else { Some(17) };
            assert_eq!(access(source, part(number), reach), None, "{source} of task {number}");
            assert_eq!(access(source, part(number) - 1, reach), before, "{source} of task {number}");
        }
    }
}

#[test]
fn task_0_alone_crosses_from_shared_memory_to_its_own() {
    for source in ["FETCH.L", "STORE.L", "FETCH.W", "STORE.W"] {
        let answers = [0, 1, 2, 3].map(|number| access(source, 16_383, Reach::Task(number)));
        assert_eq!(answers, [None, Some(17), Some(17), Some(17)], "{source}");
    }
}

#[test]
fn an_access_partly_outside_memory_is_12_also_in_anothers_part() {
    for number in 0..TASKS {
        assert_eq!(access("FETCH.L", 32_765, Reach::Task(number)), Some(12));
        assert_eq!(access("STORE.W", 32_767, Reach::Task(number)), Some(12));
    }
}

#[test]
fn cells_are_every_tasks_own() {
    for (source, width) in
        [("FETCH.L", 4), ("STORE.L", 4), ("FETCH.W", 2), ("STORE.W", 2), ("FETCH.B", 1), ("STORE.B", 1)]
    {
        for number in 0..TASKS {
            for address in VIEW - 4..VIEW + VIEW_BYTES + 4 {
                let expected = if address >= VIEW && address + width <= VIEW + VIEW_BYTES { None } else { Some(12) };
                assert_eq!(access(source, address, Reach::Task(number)), expected, "{source} at {address:X}");
            }
        }
    }
}

#[test]
fn first_byte_in_anothers_part_comes_before_what_it_says() {
    for code in [0x3D, 0x3F, 0x01, 0x3E] {
        assert_eq!(answer_at(part(1), &[code], &[], Reach::Task(0)), Some(17));
    }
    assert_eq!(answer_at(part(1), &[0x3D], &[], Reach::Task(1)), Some(0));
}

#[test]
fn further_bytes_come_before_cells_and_after_an_unknown_code() {
    let end = part(2) - 1;
    for (code, expected) in [(0x80, 17), (0x34, 17), (0x38, 17), (0x3F, 4), (0x01, 5)] {
        assert_eq!(answer_at(end, &[code], &[], Reach::Task(1)), Some(expected), "{code:02X}");
    }
    // The second byte of the last is outside memory, and comes before a byte of another's part that there is none of.
    assert_eq!(answer_at(MEMORY - 1, &[0x34], &[], Reach::Task(3)), Some(3));
}

#[test]
fn an_instruction_crosses_like_an_access() {
    let literal = assemble("LOAD.L 1");
    let answers = [0, 1, 2, 3].map(|number| answer_at(SHARED - 1, &literal, &[], Reach::Task(number)));
    assert_eq!(answers, [None, Some(17), Some(17), Some(17)]);
}

#[test]
fn another_answer_comes_before_that_of_the_data() {
    assert_eq!(answer_at(0, &assemble("STORE.L"), &[part(1) as u32], Reach::Task(0)), Some(5));
}

#[test]
fn alone_all_of_memory_is_in_reach() {
    for address in [16_383, 16_384, 20_479, 28_671, 32_764] {
        assert_eq!(access("FETCH.L", address, Reach::Alone), None);
        assert_eq!(access("STORE.L", address, Reach::Alone), None);
        assert_eq!(answer_at(address, &[0x00], &[], Reach::Alone), None);
    }
}
