//! States as a host could hand them in: well formed with anything in the cells that are not in use, or broken in one clause.

use crate::model::state::{Catch, Frame, LastThrow, Lines, Machine, CATCHES, CELLS, FRAMES};
use crate::operands::cell;
use crate::random::Random;

/// A well-formed state. Everything that may be anything is random.
pub fn well_formed(random: &mut Random) -> Machine {
    let r = depth(random, CELLS);
    let s = depth(random, FRAMES.min(r));
    let e = depth(random, CATCHES.min(s));
    let mut machine = Machine {
        parameters: [0; CELLS].map(|_| cell(random)),
        p: depth(random, CELLS),
        returns: [0; CELLS].map(|_| random.u32()),
        r,
        frames: [(); FRAMES + 1].map(|()| stale_frame(random)),
        s,
        catches: [(); CATCHES + 1].map(|()| stale_catch(random)),
        e,
        program_counter: 0,
        flag: random.below(2) as u32,
        last_throw: LastThrow { address: cell(random), code: cell(random) },
        lines: any_lines(random),
    };
    for (level, copy) in rising(random, s, r).into_iter().enumerate() {
        machine.frames[level + 1].copy_of_r = copy;
    }
    for (level, copy) in rising(random, e, s).into_iter().enumerate() {
        machine.catches[level + 1].copy_of_s = copy;
        machine.catches[level + 1].copy_of_p = depth(random, CELLS - 1);
    }
    // Mostly the code addresses lie where code can be, so that runs go on after a return.
    if random.percent(80) {
        machine.frames.iter_mut().for_each(|frame| frame.return_address %= 4096);
        machine.catches.iter_mut().for_each(|catch| catch.throw_address %= 4096);
    }
    machine
}

/// A well-formed state in which lines are due or a routine is in progress, often with no room, or at the lowest level.
pub fn with_lines(random: &mut Random) -> Machine {
    let mut machine = well_formed(random);
    let waiting = some_lines(random);
    let let_in = if random.percent(80) { 1 << random.between(1, 15) } else { 0 };
    let mask = any_mask(random) | let_in;
    machine.lines = Lines { mask, waiting: waiting | let_in, block: u32::from(random.percent(40)) };
    match random.below(10) {
        0 => machine.r = CELLS,
        1 => {
            (machine.r, machine.s) = (random.between(FRAMES, CELLS - 1), FRAMES);
            (1..=FRAMES).for_each(|level| machine.frames[level].copy_of_r = level - 1);
        }
        2 | 3 => (machine.s, machine.e) = (0, 0),
        4 | 5 => (machine.r, machine.s, machine.e) = (CELLS, 0, 0),
        _ => {}
    }
    machine
}

/// Often none waits, or a routine is in progress, so that many a state begins with its own instruction.
fn any_lines(random: &mut Random) -> Lines {
    let waiting = if random.percent(50) { 0 } else { some_lines(random) };
    Lines { mask: any_mask(random), waiting, block: u32::from(random.percent(40)) }
}

/// One line, any, or all.
pub fn some_lines(random: &mut Random) -> u32 {
    match random.below(4) {
        0 => 0xFFFE,
        1 | 2 => 1 << random.between(1, 15),
        _ => random.below(0x8000) as u32 * 2,
    }
}

/// Lets all in, none, all but some, or any; bit 0 is as it comes.
pub fn any_mask(random: &mut Random) -> u32 {
    match random.below(8) {
        0 | 1 => 0xFFFF,
        2 => 0xFFFE,
        3 => random.below(2) as u32,
        4 | 5 => 0xFFFF & !some_lines(random),
        _ => random.below(0x1_0000) as u32,
    }
}

/// From 0 to the limit, with the ends more often than the middle.
fn depth(random: &mut Random, limit: usize) -> usize {
    match random.below(4) {
        0 => random.between(0, limit.min(3)),
        1 => limit - random.between(0, limit.min(3)),
        _ => random.between(0, limit),
    }
}

/// So many numbers below the end, each below the next.
fn rising(random: &mut Random, count: usize, end: usize) -> Vec<usize> {
    let mut numbers: Vec<usize> = (0..end).collect();
    while numbers.len() > count {
        numbers.remove(random.below(numbers.len()));
    }
    numbers
}

fn stale_frame(random: &mut Random) -> Frame {
    Frame { locals: [0; 16].map(|_| random.u32()), copy_of_r: stale_copy(random), return_address: random.u32() }
}

fn stale_catch(random: &mut Random) -> Catch {
    Catch {
        cells: [0; 8].map(|_| random.u32()),
        copy_of_s: stale_copy(random),
        copy_of_p: stale_copy(random),
        throw_address: random.u32(),
    }
}

/// What a copy above its pointer may hold: all 64 bits are free.
fn stale_copy(random: &mut Random) -> usize {
    if random.percent(50) {
        random.below(70)
    } else {
        random.u64() as usize
    }
}

/// The clauses of well-formedness, each broken alone.
#[rustfmt::skip]
pub const CLAUSES: [&str; 16] = [
    "broken: P", "broken: R", "broken: S", "broken: E", "broken: flag",
    "broken: copies of R equal", "broken: copies of R fall", "broken: last copy of R",
    "broken: copies of S equal", "broken: copies of S fall", "broken: last copy of S", "broken: copy of P",
    "broken: mask", "broken: lines that wait", "broken: line 0 waits", "broken: block",
];

/// A state that breaks the clause of that index and no other.
pub fn broken(random: &mut Random, clause: usize) -> Machine {
    let mut machine = with_levels(random);
    let (s, e) = (machine.s, machine.e);
    // Two neighbouring levels in use, and one level in use.
    let (frame, catch, any) = (random.between(2, s), random.between(2, e), random.between(1, e));
    match clause {
        0 => machine.p = beyond(random, CELLS + 1),
        1 => machine.r = beyond(random, CELLS + 1),
        2 => machine.s = beyond(random, FRAMES + 1),
        3 => machine.e = beyond(random, CATCHES + 1),
        4 => machine.flag = random.pick(&[2, 3, 0x100, 0x8000_0000, u32::MAX]),
        5 => machine.frames[frame - 1].copy_of_r = machine.frames[frame].copy_of_r,
        6 => machine.frames[frame - 1].copy_of_r = beyond(random, machine.frames[frame].copy_of_r + 1),
        7 => machine.frames[s].copy_of_r = beyond(random, machine.r),
        8 => machine.catches[catch - 1].copy_of_s = machine.catches[catch].copy_of_s,
        9 => machine.catches[catch - 1].copy_of_s = beyond(random, machine.catches[catch].copy_of_s + 1),
        10 => machine.catches[e].copy_of_s = beyond(random, machine.s),
        11 => machine.catches[any].copy_of_p = beyond(random, CELLS),
        12 => machine.lines.mask = too_many_bits(random),
        13 => machine.lines.waiting = too_many_bits(random) & !1,
        14 => machine.lines.waiting |= 1,
        _ => machine.lines.block = random.pick(&[2, 3, 0x100, 0x1_0000, 0x8000_0000, u32::MAX]),
    }
    machine
}

/// A well-formed state with at least two levels on both linked stacks.
fn with_levels(random: &mut Random) -> Machine {
    loop {
        let machine = well_formed(random);
        if machine.s >= 2 && machine.e >= 2 {
            return machine;
        }
    }
}

/// More than 16 bits: in 16 some of these would be taken.
fn too_many_bits(random: &mut Random) -> u32 {
    match random.below(3) {
        0 => 0x1_0000,
        1 => random.between(0x1_0000, u32::MAX as usize) as u32,
        _ => random.pick(&[0x1_FFFE, 0x8000_0000, u32::MAX]),
    }
}

/// The bound or more: just so, or so large that narrower arithmetic would lose it.
fn beyond(random: &mut Random, bound: usize) -> usize {
    match random.below(4) {
        0 | 1 => bound,
        2 => bound + (random.below(8) << random.pick(&[0, 8, 16, 32, 56])),
        _ => random.pick(&[1 << 32, 1 << 63, usize::MAX]),
    }
}

#[cfg(test)]
mod tests {
    use super::*;

    #[test]
    fn states_are_what_their_names_say() {
        let mut random = Random::new(1);
        for _ in 0..2000 {
            assert!(well_formed(&mut random).is_well_formed());
            assert!(with_lines(&mut random).is_well_formed());
            for (clause, name) in CLAUSES.iter().enumerate() {
                assert!(!broken(&mut random, clause).is_well_formed(), "{name}");
            }
        }
    }
}
