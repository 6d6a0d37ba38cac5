//! Lines: which enters, where and when; what RTI does, and what leaves the block; what a host may do; and task 0's turns.

use super::host::{raise, set_mask};
use super::reach::{Reach, PART, SHARED, TASKS};
use super::run::{run, Outcome};
use super::state::{Answer, Frame, Lines, Machine, CELLS, FRAMES, MEMORY};
use super::step::step;
use super::tasks::{run_tasks, Task, READY};
use crate::assembler::assemble;
use crate::state_bytes::{spell, take_lines};

const ALL: u32 = 0xFFFF;
/// Programs stand here, clear of the routines.
const START: usize = 100;

/// A machine alone, with its memory.
struct One {
    machine: Machine,
    memory: Vec<u8>,
}

impl One {
    /// At a program, with routines of some lines, which waits for nothing and lets all in.
    fn new(program: &str, routines: &[(usize, &str)]) -> One {
        let mut memory = vec![0; MEMORY];
        for (at, source) in routines.iter().map(|&(line, source)| (4 * line, source)).chain([(START, program)]) {
            let code = assemble(source);
            memory[at..at + code.len()].copy_from_slice(&code);
        }
        let lines = Lines { mask: ALL, ..Lines::default() };
        One { machine: Machine { program_counter: START as u32, lines, ..Machine::fresh() }, memory }
    }

    fn raised(mut self, lines: &[u32]) -> One {
        lines.iter().for_each(|line| self.machine.lines.waiting |= 1 << line);
        self
    }

    /// Answer and steps. No program here stores to memory.
    fn run(&mut self, budget: u64) -> (u64, u64) {
        let Outcome { answer, steps, .. } = run(&mut self.machine, &mut self.memory, budget, 0, &mut ());
        (answer.number(), steps)
    }

    /// Counter, waiting lines and block.
    fn unit(&self) -> (u32, u32, u32) {
        let Machine { program_counter, lines: Lines { waiting, block, .. }, .. } = self.machine;
        (program_counter, waiting, block)
    }

    fn cells(&self) -> &[u32] {
        &self.machine.parameters[..self.machine.p]
    }

    /// With so many return cells and levels in use, all of which return to 200.
    fn at_depth(mut self, r: usize, s: usize) -> One {
        (self.machine.r, self.machine.s) = (r, s);
        for level in 1..=s {
            self.machine.frames[level] = Frame { copy_of_r: level - 1, return_address: 200, ..Frame::default() };
        }
        assert!(self.machine.is_well_formed());
        self
    }
}

#[test]
fn every_line_has_its_routine_at_four_times_its_number() {
    for line in 1..=15 {
        let mut one = One::new("NOP", &[]).raised(&[line]);
        assert_eq!(one.run(1), (1, 1));
        assert_eq!(one.unit(), (4 * line + 1, 0, 1), "line {line}");
    }
}

#[test]
fn the_lowest_line_comes_first() {
    let routines = [(3, "LOAD.B 3 RTI"), (7, "LOAD.B 7 RTI"), (15, "LOAD.B 15 RTI")];
    let mut one = One::new("EXIT", &routines).raised(&[15, 3, 7]);
    assert_eq!(one.run(100), (0, 6));
    assert_eq!(one.cells(), [3, 7, 15]);
    assert_eq!(one.unit(), (START as u32, 0, 0));
}

#[test]
fn a_masked_line_waits_and_holds_back_no_higher_one() {
    let mut one = One::new("EXIT", &[(2, "LOAD.B 2 RTI"), (9, "LOAD.B 9 RTI")]).raised(&[2, 9]);
    one.machine.lines.mask = !(1 << 2) & ALL;
    assert_eq!(one.run(100), (0, 2));
    assert_eq!((one.cells(), one.unit()), (&[9][..], (START as u32, 1 << 2, 0)));
    one.machine.lines.mask = 1 << 2;
    assert_eq!(one.run(100), (0, 2));
    assert_eq!((one.cells(), one.unit()), (&[9, 2][..], (START as u32, 0, 0)));
}

#[test]
fn bit_0_of_the_mask_lets_nobody_in() {
    for mask in [0, 1] {
        let mut one = One::new("NOP EXIT", &[]).raised(&[1, 15]);
        one.machine.lines.mask = mask;
        assert_eq!(one.run(100), (0, 1));
        assert_eq!(one.unit(), (START as u32 + 1, 1 << 1 | 1 << 15, 0));
    }
}

#[test]
fn an_entry_is_a_call_that_returns_to_the_instruction_about_to_be_done() {
    let mut one = One::new("NOP NOP", &[]).at_depth(5, 2).raised(&[4]);
    one.machine.frames[3] = Frame { locals: [7; 16], copy_of_r: 9, return_address: 9 };
    let mut called = one.machine.clone();
    called.call(16, START as u32);
    called.lines = Lines { mask: ALL, waiting: 0, block: 1 };
    called.program_counter += 1;
    assert_eq!(one.run(1), (1, 1));
    assert_eq!(one.machine, called);
    assert_eq!((one.machine.returns[5], one.machine.frames[3].return_address), (START as u32, START as u32));
    assert_eq!((one.machine.frames[3].copy_of_r, one.machine.frames[3].locals), (5, [0; 16]));
}

#[test]
fn an_entry_is_no_step_and_takes_no_cycle() {
    let mut one = One::new("EXIT", &[(1, "RTI")]).raised(&[1]);
    let outcome = run(&mut one.machine, &mut one.memory, 100, 0, &mut ());
    assert_eq!(outcome, Outcome { answer: Answer::Finished, steps: 1, cycles: 2, sum: 0 });
}

#[test]
fn an_entry_stays_where_the_routines_first_instruction_is_refused() {
    for (code, answer) in [(0x01, 5), (0x3F, 4), (0x0D, 5), (0x2C, 5)] {
        let mut one = One::new("NOP", &[]).raised(&[6, 8]);
        one.memory[24] = code;
        let mut entered = one.machine.clone();
        entered.call(24, START as u32);
        entered.lines = Lines { mask: ALL, waiting: 1 << 8, block: 1 };
        // A run of no steps has then changed the state, and the next one changes nothing.
        assert_eq!(one.run(100), (answer, 0));
        assert_eq!(one.machine, entered);
        assert_eq!(one.run(100), (answer, 0));
        assert_eq!(one.machine, entered);
    }
}

#[test]
fn nothing_enters_once_the_budget_is_spent() {
    let mut one = One::new("NOP NOP", &[]).raised(&[6]);
    let before = one.machine.clone();
    assert_eq!(one.run(0), (1, 0));
    assert_eq!(one.machine, before);
    // RTI as the last step lets in nobody else.
    let mut one = One::new("NOP NOP", &[(1, "RTI"), (2, "RTI")]).raised(&[1, 2]);
    assert_eq!(one.run(1), (1, 1));
    assert_eq!(one.unit(), (START as u32, 1 << 2, 0));
}

#[test]
fn without_room_the_instruction_goes_on_and_the_line_is_tried_anew() {
    // R> makes room for a return cell, and the next instruction is preceded by the entry.
    let mut one = One::new("NOP R> NOP", &[(5, "NOP")]).at_depth(CELLS, 2).raised(&[5]);
    assert_eq!(one.run(2), (1, 2));
    assert_eq!(one.unit(), (START as u32 + 2, 1 << 5, 0));
    assert_eq!(one.run(1), (1, 1));
    assert_eq!(one.unit(), (21, 0, 1));
    assert_eq!(one.machine.returns[CELLS - 1], START as u32 + 2);
    // EXIT makes room for a level.
    let mut one = One::new("NOP EXIT", &[(5, "NOP")]).at_depth(FRAMES + 1, FRAMES).raised(&[5]);
    assert_eq!(one.run(2), (1, 2));
    assert_eq!(one.unit(), (200, 1 << 5, 0));
    assert_eq!(one.run(1), (1, 1));
    assert_eq!((one.unit(), one.machine.frames[FRAMES].return_address), ((21, 0, 1), 200));
}

#[test]
fn one_cell_or_level_less_is_room_enough() {
    for (r, s) in [(CELLS - 1, 3), (FRAMES, FRAMES - 1)] {
        let mut one = One::new("NOP", &[]).at_depth(r, s).raised(&[5]);
        assert_eq!(one.run(1), (1, 1));
        assert_eq!((one.unit(), one.machine.r, one.machine.s), ((21, 0, 1), r + 1, s + 1));
    }
}

#[test]
fn at_the_last_exit_the_routine_comes_first() {
    let mut one = One::new("EXIT", &[(1, "LOAD.B 9 RTI")]).raised(&[1]);
    assert_eq!(one.run(100), (0, 2));
    assert_eq!((one.cells(), one.unit()), (&[9][..], (START as u32, 0, 0)));
    // With no room for a return cell the run is finished, and the line waits on.
    let mut one = One::new("EXIT", &[(1, "RTI")]).at_depth(CELLS, 0).raised(&[1]);
    let before = one.machine.clone();
    assert_eq!(one.run(100), (0, 0));
    assert_eq!(one.machine, before);
}

#[test]
fn no_line_enters_while_a_routine_is_in_progress() {
    let mut one = One::new("EXIT", &[(1, "NOP NOP RTI"), (4, "LOAD.B 4 RTI")]).raised(&[4]);
    one.machine.lines.waiting |= 1 << 1;
    assert_eq!(one.run(2), (1, 2));
    assert_eq!(one.unit(), (6, 1 << 4, 1));
    // Not even the same one, which is raised anew: it is served again after RTI, before a higher one.
    one.machine.lines.waiting |= 1 << 1;
    assert_eq!(one.run(2), (1, 2));
    assert_eq!(one.unit(), (5, 1 << 4, 1));
    assert_eq!(one.run(100), (0, 4));
    assert_eq!((one.cells(), one.unit()), (&[4][..], (START as u32, 0, 0)));
}

#[test]
fn rti_does_what_exit_does_and_lets_the_next_one_in() {
    let mut one = One::new("", &[]).at_depth(7, 3);
    one.machine.e = 1;
    one.machine.catches[1].copy_of_s = 2;
    one.machine.lines.block = 1;
    one.memory[START] = 0x3C;
    let mut left = one.machine.clone();
    left.exit();
    left.lines.block = 0;
    let outcome = run(&mut one.machine, &mut one.memory, 1, 0, &mut ());
    assert_eq!(outcome, Outcome { answer: Answer::BudgetSpent, steps: 1, cycles: 2, sum: 0 });
    assert_eq!(one.machine, left);
    // The exception level went with the level that it was made in.
    assert_eq!((one.unit(), one.machine.s, one.machine.r, one.machine.e), ((200, 0, 0), 2, 2, 0));
}

#[test]
fn rti_ends_whatever_word_it_stands_in() {
    let mut one = One::new("NOP EXIT", &[(1, "JSL 64")]).raised(&[1]);
    one.memory[64] = 0x3C;
    one.memory[8] = 0x3D;
    assert_eq!(one.run(2), (1, 2));
    assert_eq!((one.unit(), one.machine.s), ((8, 0, 0), 1));
    assert_eq!(one.run(100), (0, 2));
}

#[test]
fn rti_without_a_routine_is_16() {
    for (block, s, expected) in [(0, 0, 16), (0, 3, 16), (1, 0, 16), (1, 3, 1)] {
        let mut one = One::new("RTI", &[]).at_depth(5, s);
        one.machine.lines.block = block;
        let before = one.machine.clone();
        assert_eq!(one.run(1), (expected, u64::from(expected == 1)), "block {block}, S {s}");
        assert_eq!(one.machine == before, expected == 16);
    }
    // RESETSP in a routine leaves the block, and no RTI releases it there.
    let mut one = One::new("EXIT", &[(1, "RESETSP RTI")]).raised(&[1, 2]);
    assert_eq!(one.run(100), (16, 1));
    assert_eq!(one.unit(), (5, 1 << 2, 1));
}

#[test]
fn sixteen_comes_after_3_and_4() {
    let memory = [0x3C; MEMORY];
    let at = |program_counter| Machine { program_counter, ..Machine::fresh() };
    let answer = |program_counter, reach| step(&mut at(program_counter), &mut memory.clone(), reach);
    assert_eq!(answer(MEMORY as u32 - 1, Reach::Alone), Err(Answer::NoRoutine));
    assert_eq!(answer(MEMORY as u32, Reach::Alone), Err(Answer::CodeOutsideMemory));
    assert_eq!(answer(SHARED as u32, Reach::Task(1)), Err(Answer::InAnothersPart));
}

#[test]
fn only_rti_releases_the_block() {
    for (routine, steps, then) in [
        ("EXIT", 1, (START as u32, 1)),
        ("R> DROP", 2, (6, 1)),
        ("RESETSP NOP", 2, (6, 1)),
        ("RTI", 1, (START as u32, 0)),
        ("NOP RTI", 2, (START as u32, 0)),
    ] {
        let mut one = One::new("NOP", &[(1, routine)]).raised(&[1]);
        assert_eq!(one.run(steps), (1, steps), "{routine}");
        assert_eq!((one.unit().0, one.unit().2), then, "{routine}");
    }
}

#[test]
fn a_throw_out_of_a_routine_leaves_the_block() {
    let mut one = One::new("LOAD.B 120 CATCH ZERO NOP NOP", &[(1, "LOAD.B 9 THROW"), (2, "RTI")]);
    one.memory[120] = 0x00;
    assert_eq!(one.run(3), (1, 3));
    let mut one = one.raised(&[1, 2]);
    assert_eq!(one.run(2), (1, 2));
    // Behind the CATCH, with line 2 kept out for as long as nothing returns.
    assert_eq!((one.cells(), one.unit()), (&[9][..], (START as u32 + 4, 1 << 2, 1)));
    assert_eq!((one.machine.s, one.machine.e), (0, 0));
    assert_eq!(one.run(1), (1, 1));
    assert_eq!(one.unit(), (START as u32 + 5, 1 << 2, 1));
}

#[test]
fn raised_twice_is_once() {
    let mut one = One::new("NOP EXIT", &[(3, "LOAD.B 3 RTI")]);
    for _ in 0..2 {
        let mut state = spell(&one.machine);
        assert_eq!(raise(&mut state, 3), 0);
        take_lines(&mut one.machine, &state);
    }
    assert_eq!(one.machine.lines.waiting, 1 << 3);
    assert_eq!(one.run(100), (0, 3));
    assert_eq!(one.cells(), [3]);
}

#[test]
fn the_numbers_are_well_formed_in_16_bits_and_one() {
    let good = |mask, waiting, block| {
        let machine = Machine { lines: Lines { mask, waiting, block }, ..Machine::fresh() };
        let mut left = machine.clone();
        let answer = run(&mut left, &mut [0; MEMORY], 0, 0, &mut ()).answer;
        assert_eq!(left, machine);
        answer == Answer::BudgetSpent
    };
    assert!([(0, 0, 0), (1, 0, 1), (ALL, 0xFFFE, 0), (ALL, 0xFFFE, 1)].iter().all(|&(m, w, b)| good(m, w, b)));
    for (mask, waiting, block) in
        [(0x1_0000, 0, 0), (u32::MAX, 0, 0), (0, 0x1_0000, 0), (0, 1, 0), (0, 0xFFFF, 0), (0, 0, 2), (0, 0, u32::MAX)]
    {
        assert!(!good(mask, waiting, block), "{mask:X} {waiting:X} {block:X}");
    }
}

#[test]
fn a_host_raises_lines_1_to_15_alone() {
    for waiting in [0, 0x8000, 0xFFFE, 0xFFFF_0001] {
        let lines = Lines { mask: 0x1234, waiting, block: 7 };
        let machine = Machine { lines, ..Machine::fresh() };
        for line in (0..=300).chain([1 << 16, 1 << 32, (1 << 32) + 3, 1 << 63, u64::MAX]) {
            let mut state = spell(&machine);
            let is_line = (1..=15).contains(&line);
            assert_eq!(raise(&mut state, line), if is_line { 0 } else { 2 });
            let waiting = if is_line { waiting | 1 << line } else { waiting };
            assert_eq!(state, spell(&Machine { lines: Lines { waiting, ..lines }, ..Machine::fresh() }), "{line}");
        }
    }
}

#[test]
fn a_host_sets_masks_of_16_bits_alone() {
    let lines = Lines { mask: 0xFFFF_FFFF, waiting: 0x5555, block: 7 };
    let machine = Machine { lines, ..Machine::fresh() };
    for mask in [0, 1, 0x1234, 0xFFFF, 0x1_0000, 0x1_0001, 1 << 32, (1 << 32) + 5, u64::MAX] {
        let mut state = spell(&machine);
        let is_mask = mask < 0x1_0000;
        assert_eq!(set_mask(&mut state, mask), if is_mask { 0 } else { 2 });
        let mask = if is_mask { mask as u32 } else { lines.mask };
        assert_eq!(state, spell(&Machine { lines: Lines { mask, ..lines }, ..Machine::fresh() }), "{mask:X}");
    }
}

#[test]
fn a_state_of_another_length_is_refused() {
    for length in [0, 1, 3536, 3547, 3549, 3556, 14_224] {
        let mut state = vec![0xA5; length];
        assert_eq!((raise(&mut state, 1), set_mask(&mut state, 1)), (2, 2));
        assert!(state.iter().all(|&byte| byte == 0xA5));
    }
}

/// Four endless tasks, each at the start of its part, in which all lines are let in.
fn four(sources: [&str; TASKS]) -> ([Task; TASKS], Vec<u8>) {
    let mut memory = vec![0; MEMORY];
    let tasks = std::array::from_fn(|number| {
        let (start, code) = (SHARED + PART * number, assemble(sources[number]));
        memory[start..start + code.len()].copy_from_slice(&code);
        let lines = Lines { mask: ALL, ..Lines::default() };
        Task { machine: Machine { program_counter: start as u32, lines, ..Machine::fresh() }, kept: READY }
    });
    (tasks, memory)
}

const ENDLESS: &str = "here: NOP BRA here";

#[test]
fn lines_enter_task_0_in_its_turns_also_within_one() {
    let (mut tasks, mut memory) = four([ENDLESS; TASKS]);
    memory[4..6].copy_from_slice(&assemble("NOP RTI"));
    memory[8] = 0x3C;
    tasks.iter_mut().for_each(|task| task.machine.lines.waiting = 1 << 1 | 1 << 2);
    // Two steps and one of the routines, and then its own first.
    run_tasks(&mut tasks, &mut memory, 4, 6, 0, &mut ());
    assert_eq!(tasks[0].machine.lines, Lines { mask: ALL, waiting: 0, block: 0 });
    assert_eq!(tasks[0].machine.program_counter, SHARED as u32 + 1);
    // The others carry theirs, and nothing enters them.
    for (number, task) in tasks.iter().enumerate().skip(1) {
        assert_eq!(task.machine.lines, Lines { mask: ALL, waiting: 1 << 1 | 1 << 2, block: 0 }, "task {number}");
        assert_eq!((task.machine.r, task.machine.s), (0, 0));
    }
    assert_eq!(tasks[1].machine.program_counter, (SHARED + PART) as u32);
}

#[test]
fn an_entry_takes_nothing_of_the_quantum() {
    let (mut tasks, mut memory) = four([ENDLESS; TASKS]);
    memory[4] = 0x3C;
    tasks[0].machine.lines.waiting = 1 << 1;
    run_tasks(&mut tasks, &mut memory, 1, 1, 0, &mut ());
    assert_eq!((tasks[0].machine.program_counter, tasks[0].machine.lines.block), (SHARED as u32, 0));
}

#[test]
fn lines_wait_while_task_0_is_not_ready() {
    let (mut tasks, mut memory) = four([ENDLESS; TASKS]);
    tasks[0].machine.lines.waiting = 1 << 1;
    tasks[0].kept = 16;
    let before = tasks[0].clone();
    assert_eq!(run_tasks(&mut tasks, &mut memory, 3, 30, 0, &mut ()).steps, 30);
    assert_eq!(tasks[0], before);
    tasks[0].kept = READY;
    run_tasks(&mut tasks, &mut memory, 3, 1, 0, &mut ());
    assert_eq!(tasks[0].machine.lines.block, 1);
}

#[test]
fn rti_in_another_task_needs_its_own_block() {
    for number in 0..TASKS {
        for (block, kept) in [(0, 16), (1, READY)] {
            let mut sources = [ENDLESS; TASKS];
            sources[number] = "RTI";
            let (mut tasks, mut memory) = four(sources);
            tasks.iter_mut().for_each(|task| task.machine.lines.block = 1 - block);
            let machine = &mut tasks[number].machine;
            (machine.r, machine.s, machine.lines.block) = (1, 1, block);
            machine.frames[1].return_address = 200;
            run_tasks(&mut tasks, &mut memory, 1, 4, 0, &mut ());
            assert_eq!((tasks[number].kept, tasks[number].machine.lines.block), (kept, 0), "task {number}");
            let others = tasks.iter().enumerate().filter(|(other, _)| *other != number);
            assert!(others.into_iter().all(|(_, task)| task.machine.lines.block == 1 - block));
        }
    }
}
