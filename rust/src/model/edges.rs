//! Cases between the lines of the bench sheet, where a quick reading goes wrong.

use super::bench::bench;
use super::state::MEMORY;
use crate::assembler::{assemble, image};

fn text(file: &[u8]) -> String {
    bench(file, &mut vec![0xAA; MEMORY], &mut ()).text
}

/// The answer of a program that jumps to the last byte of memory and finds this code there.
fn answer_at_the_end(code: u8, cells: &[u32]) -> String {
    let mut memory = vec![0; MEMORY];
    memory[..4].copy_from_slice(&assemble("LOAD.W 32767 JMP"));
    memory[MEMORY - 1] = code;
    text(&image(&memory, cells, None)).split(' ').next().unwrap_or_default().to_string()
}

#[test]
fn bytes_come_before_cells() {
    assert_eq!(answer_at_the_end(0x34, &[0; 63]), "3");
    assert_eq!(answer_at_the_end(0x80, &[]), "3");
    assert_eq!(answer_at_the_end(0x7F, &[]), "4");
    assert_eq!(answer_at_the_end(0x0E, &[]), "5");
}

#[test]
fn lowest_answer_is_given() {
    assert!(text(&image(&assemble("R>"), &[0; 64], None)).starts_with("6 "));
    assert!(text(&image(&assemble("THROW"), &[1; 64], None)).starts_with("7 "));
    assert!(text(&image(&assemble("STORE.L"), &[u32::MAX], None)).starts_with("5 "));
}

#[test]
fn depth_is_judged_after_the_instruction() {
    let full = [0; 64];
    for source in ["?DUP EXIT", "THROW EXIT", "MULTU EXIT", "FETCH.B EXIT"] {
        assert!(text(&image(&assemble(source), &full, None)).starts_with("0 1 "), "{source}");
    }
    assert!(text(&image(&assemble("?DUP"), &[1; 64], None)).starts_with("8 0 "));
}

#[test]
fn budget_is_tested_before_the_end() {
    assert_eq!(text(&image(&assemble("EXIT"), &[], Some(0))), "1 0 0 0 0 0 0 0 0 0\n");
    assert_eq!(text(&image(&assemble("NOP EXIT"), &[], Some(1))), "1 1 1 1 0 0 0 0 0 0\n");
}

#[test]
fn borrow_needs_a_33rd_bit() {
    // 0 - 1 borrows and leaves FFFFFFFF; x - FFFFFFFF - 1 then borrows again and leaves x.
    let program = assemble("- SUBX ZERO ZERO ADDX EXIT");
    assert_eq!(text(&image(&program, &[5, 0, 1], None)), "0 5 5 5 2 0 0 0 0 0\n00000005\n00000001\n");
}

#[test]
fn reset_keeps_the_flag() {
    let program = assemble("+ RESETSP ZERO ZERO ADDX EXIT");
    assert_eq!(text(&image(&program, &[u32::MAX, 1], None)), "0 5 5 5 1 0 0 0 0 0\n00000001\n");
}

#[test]
fn refused_file_touches_nothing() {
    let good = image(&[0x3D], &[1], Some(1_000_000));
    let surplus = [&good[..], &[0]].concat();
    let over_budget = image(&[0x3D], &[1], Some(1_000_001));
    let wrapping_count = [&good[..5], &[0x40, 0, 0, 1], &good[9..]].concat();
    for file in [&good[..good.len() - 1], &surplus, &over_budget, &wrapping_count, &image(&[], &[], None), &[]] {
        let mut memory = vec![0xAA; MEMORY];
        assert_eq!(bench(file, &mut memory, &mut ()).text, "14\n");
        assert!(memory.iter().all(|&byte| byte == 0xAA));
    }
}

#[test]
fn memory_of_another_length_is_refused_first() {
    let mut memory = vec![0xAA; MEMORY + 1];
    assert_eq!(bench(&[], &mut memory, &mut ()).text, "2\n");
    assert!(memory.iter().all(|&byte| byte == 0xAA));
}
