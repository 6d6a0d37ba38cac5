//! The memory sum through runs: one that is true stays true, and one that is false stays false by as much.

use super::image::load_image;
use super::place::VIEW;
use super::reach::{PART, SHARED, TASKS};
use super::run::{run, Outcome, MAX_BUDGET};
use super::state::{Answer, Machine, MEMORY};
use super::sum::{sum_of, MOST_SUM};
use super::tasks::{run_tasks, Task};
use crate::assembler::{assemble, image};

const STORES: [(&str, usize); 3] = [("STORE.L EXIT", 4), ("STORE.W EXIT", 2), ("STORE.B EXIT", 1)];
/// Sums that no run takes.
const TOO_GREAT: [u64; 4] = [8_355_841, 1 << 32, (1 << 32) + 5, u64::MAX];

/// A program, and behind it a memory in which neighbours differ.
fn memory_with(source: &str) -> Vec<u8> {
    let mut memory = assemble(source);
    memory.extend((memory.len()..MEMORY).map(|at| (at * 7 % 251) as u8));
    memory
}

fn machine_with(cells: &[u32]) -> Machine {
    let mut machine = Machine::fresh();
    cells.iter().for_each(|&cell| machine.push(cell));
    machine
}

/// Runs a program at address 0 with some cells and the true sum, which must be true afterwards; gives how far it moved.
fn moves(source: &str, cells: &[u32], expected: Answer) -> i64 {
    let mut memory = memory_with(source);
    let before = sum_of(&memory);
    let Outcome { answer, sum, .. } = run(&mut machine_with(cells), &mut memory, 100, before, &mut ());
    assert_eq!((answer, sum), (expected, sum_of(&memory)), "{source} with {cells:X?}");
    sum as i64 - before as i64
}

#[test]
fn bytes_are_added_up() {
    assert_eq!(sum_of(&[1, 2, 3, 0xFF]), 261);
    assert_eq!(sum_of(&[0; MEMORY]), 0);
    assert_eq!(sum_of(&[0xFF; MEMORY]), 8_355_840);
    assert_eq!(MOST_SUM, 8_355_840);
}

#[test]
fn a_store_moves_a_true_sum_by_its_bytes() {
    let bytes = [0xA1, 0x02, 0xFF, 0x40];
    for (source, width) in STORES {
        for start in [100, 255, 16_381, 16_382, 16_383, 16_384, 20_479, MEMORY - width] {
            let old: i64 = (start..start + width).map(|at| (at * 7 % 251) as i64).sum();
            let new: i64 = bytes[4 - width..].iter().map(|&byte| i64::from(byte)).sum();
            let cells = [u32::from_be_bytes(bytes), start as u32];
            assert_eq!(moves(source, &cells, Answer::Finished), new - old, "{source} at {start}");
        }
    }
}

#[test]
fn a_program_may_store_over_itself() {
    // Its own code and the EXIT behind it become NOP, 2E + 3D less; the run goes on to what it can't carry out.
    assert_eq!(moves("STORE.L EXIT NOP NOP DROP", &[0, 0], Answer::TooFewParameters), -(0x2E + 0x3D));
}

#[test]
fn stores_in_view_leave_it() {
    for (source, width) in STORES {
        for start in [VIEW, VIEW + 3, VIEW + 0x3F, VIEW + 0x60 - width] {
            assert_eq!(moves(source, &[u32::MAX, start as u32], Answer::Finished), 0, "{source} at {start:X}");
        }
    }
}

#[test]
fn refused_stores_leave_it() {
    for (source, width) in STORES {
        for start in [MEMORY - width + 1, MEMORY, VIEW - 1, VIEW + 0x60, u32::MAX as usize] {
            assert_eq!(moves(source, &[u32::MAX, start as u32], Answer::BadAddress), 0, "{source} at {start:X}");
        }
        assert_eq!(moves(source, &[100], Answer::TooFewParameters), 0, "{source}");
    }
}

/// Counts up in the bytes from 1000 on, each from what it was.
const ENDLESS: &str = "LOAD.W 1000  next: DUP FETCH.B 1+ OVER STORE.B 1+ BRA next";

#[test]
fn a_true_sum_stays_true_from_run_to_run() {
    let mut memory = memory_with(ENDLESS);
    let mut machine = Machine::fresh();
    let mut sum = sum_of(&memory);
    for budget in [1, 5, 0, 7, 100, 1000, 3] {
        let before = memory.clone();
        let outcome = run(&mut machine, &mut memory, budget, sum, &mut ());
        assert_eq!((outcome.answer, outcome.sum), (Answer::BudgetSpent, sum_of(&memory)));
        assert_eq!(memory != before, budget >= 5, "{budget} steps");
        sum = outcome.sum;
    }
}

#[test]
fn a_false_sum_stays_false_by_as_much() {
    let mut memory = memory_with(ENDLESS);
    let truth = sum_of(&memory);
    for off_by in [-1, 1, -100_000, 100_000, -(truth as i64), (MOST_SUM - truth) as i64] {
        let handed = truth.checked_add_signed(off_by).expect("a sum");
        let mut memory = memory.clone();
        let outcome = run(&mut Machine::fresh(), &mut memory, 500, handed, &mut ());
        let moved = sum_of(&memory) as i64 - truth as i64;
        assert!(moved > 0, "{moved}");
        assert_eq!(outcome.sum, handed + moved as u64, "off by {off_by}");
    }
    // With no step there is nothing to mend.
    assert_eq!(run(&mut Machine::fresh(), &mut memory, 0, truth + 1, &mut ()).sum, truth + 1);
}

#[test]
fn a_false_sum_wraps_below_0_and_passes_the_greatest() {
    let mut memory = vec![0; MEMORY];
    memory[..2].copy_from_slice(&assemble("STORE.B EXIT"));
    memory[100] = 50;
    let handed_back = |sum, byte| run(&mut machine_with(&[byte, 100]), &mut memory.clone(), 9, sum, &mut ()).sum;
    assert_eq!([50, 49, 0].map(|sum| handed_back(sum, 0)), [0, 0xFFFF_FFFF, 0xFFFF_FFCE]);
    assert_eq!(handed_back(MOST_SUM, 51), 8_355_841);
    assert_eq!(run(&mut Machine::fresh(), &mut memory, 9, 8_355_841, &mut ()).answer, Answer::BadInput);
}

#[test]
fn the_greatest_is_taken_and_a_greater_one_is_refused_and_handed_back() {
    let memory = memory_with(ENDLESS);
    let alone = |sum| {
        let (mut machine, mut after) = (Machine::fresh(), memory.clone());
        let outcome = run(&mut machine, &mut after, 20, sum, &mut ());
        (outcome, machine == Machine::fresh() && after == memory)
    };
    let in_turns = |sum| {
        let (mut tasks, mut after) = ([(); TASKS].map(|()| Task::fresh()), memory.clone());
        let outcome = run_tasks(&mut tasks, &mut after, 10, 20, sum, &mut ());
        (outcome, tasks.iter().all(|task| *task == Task::fresh()) && after == memory)
    };
    for sum in TOO_GREAT {
        let untouched = (Outcome { answer: Answer::BadInput, steps: 0, cycles: 0, sum }, true);
        assert_eq!(alone(sum), untouched);
        assert_eq!(in_turns(sum), untouched);
    }
    for (outcome, untouched) in [alone(8_355_840), in_turns(8_355_840)] {
        assert_eq!((outcome.answer, outcome.steps, untouched), (Answer::BudgetSpent, 20, false));
    }
}

#[test]
fn every_answer_2_hands_it_back() {
    let good = Machine::fresh;
    let broken = || Machine { p: 65, ..Machine::fresh() };
    for sum in [0, 7, MOST_SUM, 8_355_841, (1 << 32) + 5, u64::MAX] {
        let bad = Outcome { answer: Answer::BadInput, steps: 0, cycles: 0, sum };
        for (mut machine, bytes, budget) in
            [(good(), MEMORY - 1, 5), (good(), MEMORY, MAX_BUDGET + 1), (broken(), MEMORY, 5), (broken(), 0, u64::MAX)]
        {
            assert_eq!(run(&mut machine, &mut vec![1; bytes], budget, sum, &mut ()), bad);
            let mut tasks = [(); TASKS].map(|()| Task { machine: machine.clone(), kept: 0 });
            assert_eq!(run_tasks(&mut tasks, &mut vec![1; bytes], 5, budget, sum, &mut ()), bad);
        }
        let mut tasks = [(); TASKS].map(|()| Task::fresh());
        assert_eq!(run_tasks(&mut tasks, &mut vec![1; MEMORY], 0, 5, sum, &mut ()), bad);
    }
}

#[test]
fn one_sum_serves_four_tasks() {
    // Each stores in shared memory and in its part, task 0 across both, and leaves with a store in another's part.
    let source = |number: usize| {
        let own = SHARED + PART * number + 2_000;
        let shared = if number == 0 { SHARED - 2 } else { 1_000 * number };
        let other = SHARED + PART * ((number + 1) % TASKS) + 2_000;
        let stores = [(shared, "STORE.L"), (own, "STORE.W"), (own + 2, "STORE.B"), (other, "STORE.L")];
        stores.map(|(at, store)| format!("LOAD.L $FEDCBA98 LOAD.W {at} {store} ")).concat()
    };
    let mut memory = vec![3; MEMORY];
    let mut tasks = [(); TASKS].map(|()| Task::fresh());
    for (number, task) in tasks.iter_mut().enumerate() {
        let (start, code) = (SHARED + PART * number + 100, assemble(&source(number)));
        memory[start..start + code.len()].copy_from_slice(&code);
        task.machine.program_counter = start as u32;
    }
    let before = sum_of(&memory);
    let outcome = run_tasks(&mut tasks, &mut memory, 2, 1_000, before, &mut ());
    assert_eq!(tasks.each_ref().map(|task| task.kept), [17; TASKS]);
    // FEDCBA98, BA98 and 98 in the place of 3s; the refused store adds nothing.
    let each = 0xFE + 0xDC + 0xBA + 0x98 + 0xBA + 0x98 + 0x98 - 7 * 3;
    assert_eq!((outcome.answer, outcome.sum), (Answer::Finished, before + 4 * each));
    assert_eq!(outcome.sum, sum_of(&memory));
}

#[test]
fn the_reader_hands_out_the_sum_of_what_it_filled() {
    for (bytes, sum) in
        [(vec![0x3D], 0x3D), (vec![1, 2, 0, 0xFF], 258), (vec![0; 5], 0), (vec![0xFF; MEMORY], MOST_SUM)]
    {
        let mut memory = vec![0xAA; MEMORY];
        let loaded = load_image(&image(&bytes, &[u32::MAX; 3], None), &mut memory).expect("a good image");
        assert_eq!((loaded.sum, sum_of(&memory)), (sum, sum));
    }
}

#[test]
fn worked_sums_of_the_manual() {
    let source = "LOAD.B $C8 LOAD.B $14 STORE.B LOAD.W $102 LOAD.B $15 STORE.W LOAD.B 7 LOAD.L $10000 STORE.L EXIT";
    let file = image(&[assemble(source), vec![5, 10]].concat(), &[], None);
    for (steps_before, steps, sum, handed_back) in [
        (0, 3, 787, 982),
        (3, 3, 982, 975),
        (6, 3, 975, 975),
        (9, 1, 975, 975),
        (0, 9, 787, 975),
        (0, 9, 0, 188),
        (3, 3, 0, 4_294_967_289),
        (0, 3, 8_355_840, 8_356_035),
        (0, 9, 8_355_841, 8_355_841),
        (0, 9, 4_294_968_083, 4_294_968_083),
    ] {
        let mut memory = vec![0xAA; MEMORY];
        let mut loaded = load_image(&file, &mut memory).expect("a good image");
        assert_eq!(loaded.sum, 787);
        run(&mut loaded.machine, &mut memory, steps_before, 0, &mut ());
        let outcome = run(&mut loaded.machine, &mut memory, steps, sum, &mut ());
        assert_eq!(outcome.sum, handed_back, "{steps} steps after {steps_before} with {sum}");
        assert_eq!(outcome.answer == Answer::BadInput, sum > MOST_SUM, "{sum}");
    }
}

#[test]
fn worked_sum_of_four_tasks_in_the_manual() {
    let mut memory = assemble("STORE.W EXIT");
    memory.resize(MEMORY, 0);
    let mut tasks = [[0x0102, 0x3FFF], [0x0A0B, 0x5000], [0x0A0B, 0x5000], [0, 0x3FFE]]
        .map(|cells| Task { machine: machine_with(&cells), ..Task::fresh() });
    let outcome = run_tasks(&mut tasks, &mut memory, 1, 1_000, 109, &mut ());
    assert_eq!(outcome, Outcome { answer: Answer::Finished, steps: 3, cycles: 6, sum: 132 });
    assert_eq!(tasks.each_ref().map(|task| task.kept), [0, 0, 17, 0]);
}
