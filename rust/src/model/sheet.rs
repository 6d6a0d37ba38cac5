//! The bench sheet, line by line, every image of the folders, and the readings that must not be taken.

use std::fs;

use super::bench::bench;
use super::run::run;
use super::state::{Answer, Frame, Machine, MEMORY};
use crate::assembler::{assemble, image};

fn text_of(image: &[u8]) -> String {
    let mut memory = vec![0xAA; MEMORY];
    bench(image, &mut memory, &mut ()).text
}

/// The text of a program with some cells, under the budget that a file without one gets.
fn text(code: &[u8], cells: &[u32]) -> String {
    text_of(&image(code, cells, None))
}

fn lines(source: &str, cells: &[u32]) -> Vec<String> {
    text(&assemble(source), cells).lines().map(str::to_string).collect()
}

/// The first number of the text.
fn answer(source: &str, cells: &[u32]) -> u64 {
    let lines = lines(source, cells);
    lines[0].split(' ').next().unwrap().parse().unwrap()
}

fn cells_after(source: &str, cells: &[u32]) -> Vec<String> {
    lines(source, cells)[1..].to_vec()
}

const CAUGHT: [u8; 11] = [0x36, 0, 0, 0, 8, 0x0B, 0x20, 0x3D, 0x34, 0xFF, 0x0D];

fn caught_with(at_8: &[u8]) -> Vec<u8> {
    [&CAUGHT[..8], at_8].concat()
}

#[test]
fn worked_input() {
    let file = [0, 0, 0, 6, 0x34, 5, 0x34, 7, 0x0E, 0x3D, 0, 0, 0, 0, 0, 0, 0, 1, 0, 0, 3, 0xE8];
    assert_eq!(text_of(&file), "0 3 5 5 1 0 0 0 0 0\n0000000C\n");
}

#[test]
fn every_image_gives_its_expected_text() {
    let mut seen = 0;
    for folder in ["../sheet", "../samples"] {
        for entry in fs::read_dir(folder).expect("a folder of images") {
            let file = entry.expect("a file of the folder").path();
            if file.extension().is_some_and(|ending| ending == "image") {
                let expected = fs::read_to_string(file.with_extension("expected")).expect("a text beside the image");
                assert_eq!(text_of(&fs::read(&file).expect("an image")), expected, "{}", file.display());
                seen += 1;
            }
        }
    }
    assert!(seen >= 350, "{seen} images");
}

#[test]
fn caught_throw() {
    assert_eq!(text(&CAUGHT, &[]), "0 4 9 7 1 0 0 0 10 255\n000000FF\n");
}

#[test]
fn catch_left_by_exit() {
    assert_eq!(text(&caught_with(&[0x3D]), &[]), "0 4 7 7 1 0 0 0 0 0\n00000000\n");
}

#[test]
fn catch_left_by_r_from() {
    assert_eq!(text(&caught_with(&[0x09, 0x3D]), &[]), "0 3 5 9 1 0 0 0 0 0\n00000006\n");
}

#[test]
fn branch_to_itself() {
    assert_eq!(text_of(&image(&[0xFF, 0xFE], &[], Some(5))), "1 5 10 0 0 0 0 0 0 0\n");
}

#[test]
fn one_plus_leaves_the_flag_to_addx() {
    assert_eq!(cells_after("1+ ZERO ADDX EXIT", &[u32::MAX]), ["00000000"]);
    assert_eq!(cells_after("1+ EXIT", &[u32::MAX]), ["00000000"]);
}

#[test]
fn signed_division_cuts_toward_zero() {
    assert_eq!(cells_after("DIVS EXIT", &[-7i32 as u32, 2]), ["FFFFFFFF", "FFFFFFFD"]);
    assert_eq!(cells_after("DIVS EXIT", &[1 << 31, u32::MAX]), ["00000000", "80000000"]);
}

#[test]
fn products_of_all_ones() {
    assert_eq!(cells_after("MULTU EXIT", &[u32::MAX; 2]), ["00000001", "FFFFFFFE"]);
    assert_eq!(cells_after("MULTS EXIT", &[u32::MAX; 2]), ["00000001", "00000000"]);
}

#[test]
fn shift_and_extension_keep_the_sign() {
    assert_eq!(cells_after("2/ EXIT", &[0x8000_0001]), ["C0000000"]);
    assert_eq!(cells_after("XBYTE EXIT", &[0x80]), ["FFFFFF80"]);
}

#[test]
fn edges_of_a_long_fetch() {
    let edges = [(32_764, 0), (32_765, 12), (0x10002, 0), (0x1005C, 0), (0x1005D, 12), (0x10060, 12)];
    for (address, expected) in edges {
        assert_eq!(answer("FETCH.L EXIT", &[address]), expected, "at {address:X}");
    }
}

#[test]
fn jump_out_of_memory_is_a_step() {
    assert_eq!(text(&assemble("JMP"), &[32_768]), "3 1 2 32768 0 0 0 0 0 0\n");
}

#[test]
fn empty_and_full_parameter_stack() {
    assert_eq!(answer("DUP", &[]), 5);
    assert_eq!(answer("DUP", &[1; 64]), 8);
    assert_eq!(answer("DIVU", &[0, 0]), 13);
}

#[test]
fn ninth_catch_and_33rd_call() {
    let nine = lines("ZERO CATCH", &[]);
    assert!(nine[0].starts_with("11 17 "), "{}", nine[0]);
    assert!(nine[0].ends_with(" 8 8 8 0 0"), "{}", nine[0]);
    assert_eq!(lines("JSL 0", &[])[0], "10 32 64 0 0 32 32 0 0 0");
}

#[test]
fn exit_asks_the_level_and_not_the_return_stack() {
    // R> then >R drops the level: the EXIT that follows finds no level and the run is finished there.
    assert_eq!(text(&assemble("JSL word EXIT word: R> >R EXIT"), &[]), "0 3 4 7 0 1 0 0 0 0\n");
    // A host's state in which level and return cell differ tells the two directly.
    let mut machine = Machine { r: 1, s: 1, ..Machine::fresh() };
    machine.returns[0] = 100;
    machine.frames[1] = Frame { return_address: 200, ..Frame::default() };
    let mut memory = vec![0x3D; MEMORY];
    let outcome = run(&mut machine, &mut memory, 1, 0, &mut ());
    assert_eq!((outcome.answer, machine.program_counter), (Answer::BudgetSpent, 200));
}

#[test]
fn throw_takes_r_from_the_level_of_the_catch() {
    // One cell lies on the return stack before CATCH; inside, a call two levels deep throws.
    let source = "ZERO >R LOAD.B caught CATCH ZERO EXIT caught: ZERO >R JSL deeper deeper: LOAD.B 9 THROW";
    let first = &lines(source, &[])[0];
    assert!(first.starts_with("0 "), "{first}");
    assert!(first.ends_with(" 1 1 0 0 15 9"), "{first}");
}

#[test]
fn throw_restores_the_depth_without_the_caught_address() {
    let source = "LOAD.B caught CATCH ZERO EXIT caught: LOAD.B 9 THROW";
    assert_eq!(cells_after(source, &[1, 2]), ["00000001", "00000002", "00000009"]);
    // A pop leaves the old value, and the raised depth shows it again.
    let dropped = "LOAD.B caught CATCH ZERO EXIT caught: DROP DROP LOAD.B 7 THROW";
    assert_eq!(cells_after(dropped, &[1, 2]), ["00000007", "00000002", "00000007"]);
}

#[test]
fn a_refused_call_writes_no_return_cell() {
    let mut machine = Machine::fresh();
    let mut memory = vec![0; MEMORY];
    memory[..4].copy_from_slice(&assemble("JSL 0"));
    let outcome = run(&mut machine, &mut memory, 33, 0, &mut ());
    assert_eq!((outcome.answer, outcome.steps, machine.r), (Answer::FramesFull, 32, 32));
    assert_eq!(machine.returns[32], 0);
}
