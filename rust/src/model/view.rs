//! The cells in view, byte by byte: what a fetch finds, what a store alters and what it leaves alone.

use super::bench::bench;
use super::place::{VIEW, VIEW_BYTES};
use super::reach::Reach;
use super::state::{Answer, Catch, Frame, Machine, CATCHES, FRAMES, MEMORY};
use super::step::step;
use crate::assembler::{assemble, image};

const FETCHES: [(&str, usize); 3] = [("FETCH.L", 4), ("FETCH.W", 2), ("FETCH.B", 1)];
const STORES: [(&str, usize); 3] = [("STORE.L", 4), ("STORE.W", 2), ("STORE.B", 1)];
/// Pairs of S and E.
const LEVELS: [(usize, usize); 4] = [(0, 0), (1, 0), (3, 2), (FRAMES, CATCHES)];

/// At these levels byte k in view holds k, and every cell of the other levels all ones.
fn numbered(s: usize, e: usize) -> Machine {
    let mut machine = Machine { s, e, ..Machine::fresh() };
    machine.frames = [Frame { locals: [u32::MAX; 16], ..Frame::default() }; FRAMES + 1];
    machine.catches = [Catch { cells: [u32::MAX; 8], ..Catch::default() }; CATCHES + 1];
    set_view(&mut machine, |at| at);
    machine
}

/// Gives each cell in view the four numbers that its bytes are to hold.
fn set_view(machine: &mut Machine, byte: impl Fn(u32) -> u32) {
    let (s, e) = (machine.s, machine.e);
    let cell = |i: u32| byte(4 * i) << 24 | byte(4 * i + 1) << 16 | byte(4 * i + 2) << 8 | byte(4 * i + 3);
    for i in 0..16 {
        machine.frames[s].locals[i as usize] = cell(i);
    }
    for i in 0..8 {
        machine.catches[e].cells[i as usize] = cell(16 + i);
    }
}

/// One instruction at address 0 with some cells; the machine after it, or the answer.
fn after(source: &str, cells: &[u32], machine: &Machine) -> Result<Machine, Answer> {
    let mut machine = machine.clone();
    let mut memory = [0; MEMORY];
    memory[0] = assemble(source)[0];
    cells.iter().for_each(|&cell| machine.push(cell));
    let cycles = step(&mut machine, &mut memory, Reach::Alone)?;
    assert_eq!(cycles, 2);
    Ok(machine)
}

fn fetched(source: &str, address: usize, machine: &Machine) -> Result<u32, Answer> {
    after(source, &[address as u32], machine).map(|machine| machine.parameters[0])
}

#[test]
fn a_fetch_reads_its_bytes_the_highest_first() {
    for (s, e) in LEVELS {
        let machine = numbered(s, e);
        for (source, width) in FETCHES {
            for start in 0..=VIEW_BYTES - width {
                let expected = (start..start + width).fold(0, |value, at| value * 256 + at as u32);
                assert_eq!(fetched(source, VIEW + start, &machine), Ok(expected), "{source} at {start} of the view");
            }
        }
    }
}

#[test]
fn a_store_alters_its_bytes_and_no_other() {
    let value = [0xA1, 0xB2, 0xC3, 0xD4];
    for (s, e) in LEVELS {
        for (source, width) in STORES {
            for start in 0..=VIEW_BYTES - width {
                let mut expected = numbered(s, e);
                set_view(&mut expected, |at| match (at as usize).checked_sub(start) {
                    Some(i) if i < width => value[4 - width + i],
                    _ => at,
                });
                let cells = [u32::from_be_bytes(value.map(|byte| byte as u8)), (VIEW + start) as u32];
                let stored = after(source, &cells, &numbered(s, e)).expect("a store in view");
                assert_eq!(stored.p, 0);
                assert!(stored.frames == expected.frames, "{source} at {start} of the view, S = {s}");
                assert!(stored.catches == expected.catches, "{source} at {start} of the view, E = {e}");
            }
        }
    }
}

#[test]
fn longwords_words_and_bytes_of_neighbours() {
    let mut machine = Machine::fresh();
    machine.frames[0].locals[0] = 0x1122_3344;
    machine.frames[0].locals[1] = 0x5566_7788;
    machine.frames[0].locals[15] = 0x99AA_BBCC;
    machine.catches[0].cells[0] = 0xDDEE_FF01;
    for (source, address, expected) in [
        ("FETCH.B", 0x10000, 0x11),
        ("FETCH.B", 0x10003, 0x44),
        ("FETCH.W", 0x10001, 0x2233),
        ("FETCH.W", 0x10003, 0x4455),
        ("FETCH.L", 0x10002, 0x3344_5566),
        ("FETCH.W", 0x1003F, 0xCCDD),
        ("FETCH.L", 0x1003E, 0xBBCC_DDEE),
        ("FETCH.B", 0x10040, 0xDD),
    ] {
        assert_eq!(fetched(source, address, &machine), Ok(expected), "{source} at {address:X}");
    }
}

#[test]
fn an_access_partly_out_of_view_is_12() {
    let machine = numbered(1, 1);
    for (source, width) in FETCHES.into_iter().chain(STORES) {
        let end = VIEW + VIEW_BYTES;
        for address in (VIEW - width..VIEW).chain(end - width + 1..=end) {
            let cells = [5, address as u32];
            assert_eq!(after(source, &cells, &machine).err(), Some(Answer::BadAddress), "{source} at {address:X}");
        }
    }
}

#[test]
fn too_few_cells_come_before_the_address() {
    for (source, _) in STORES {
        assert_eq!(after(source, &[0x1005F], &numbered(0, 0)).err(), Some(Answer::TooFewParameters));
    }
}

/// The cells that a program leaves.
fn cells_after(source: &str) -> Vec<String> {
    let text = bench(&image(&assemble(source), &[], None), &mut vec![0; MEMORY], &mut ()).text;
    assert!(text.starts_with("0 "), "{text}");
    text.lines().skip(1).map(str::to_string).collect()
}

#[test]
fn catch_copies_bytes_and_brings_them_back() {
    let source = "LOAD.L $AABBCCDD LOAD.L $10040 STORE.L  LOAD.B word CATCH ZERO  LOAD.L $10040 FETCH.L EXIT
        word: LOAD.L $10041 FETCH.B  LOAD.B 1 LOAD.L $10041 STORE.B  LOAD.L $10040 FETCH.L EXIT";
    assert_eq!(cells_after(source), ["000000BB", "AA01CCDD", "00000000", "AABBCCDD"]);
}

#[test]
fn a_straddling_store_under_a_catch_leaves_both_levels_below() {
    let source = "LOAD.B word CATCH ZERO  LOAD.L $1003C FETCH.L  LOAD.L $10040 FETCH.L EXIT
        word: LOAD.L $A1B2C3D4 LOAD.L $1003E STORE.L  LOAD.L $1003C FETCH.L  LOAD.L $10040 FETCH.L EXIT";
    assert_eq!(cells_after(source), ["0000A1B2", "C3D40000", "00000000", "00000000", "00000000"]);
}
