//! Images of programs, and the buffers they are run in.

use crate::assembler::image;
use crate::budgets::{stopped, GIVEN_BUDGET};
use crate::chains::Lengths;
use crate::comparison::Room;
use crate::damage::damaged;
use crate::fragments::{Arena, Taste, STYLES};
use crate::grower::{Grower, Grown};
use crate::model::reach::Reach;
use crate::model::state::{Machine, MEMORY};
use crate::operands::cell;
use crate::random::Random;

/// An image of a random kind, with the kind's name.
pub fn any_image(random: &mut Random) -> (&'static str, Vec<u8>) {
    let (kind, file) = match random.below(100) {
        0..=3 => ("image: random bytes", random_bytes(random)),
        4..=7 => ("image: random codes", random_codes(random)),
        8..=15 => {
            let (_, good) = program(random);
            ("image: damaged", damaged(random, good))
        }
        _ => program(random),
    };
    (kind, stopped(file))
}

fn random_bytes(random: &mut Random) -> Vec<u8> {
    let length = random.between(1, 400);
    let code = random.bytes(length);
    image(&code, &cells(random), Some(random.below(2000) as u32))
}

/// Codes that are all known, so that such a program runs a little longer.
fn random_codes(random: &mut Random) -> Vec<u8> {
    let length = random.between(16, 400);
    let code: Vec<u8> = (0..length)
        .map(|_| match random.below(40) {
            0 => 0x3D,
            1 => random.byte() | 0x80,
            _ => random.below(0x3A) as u8,
        })
        .collect();
    image(&code, &cells(random), Some(random.below(2000) as u32))
}

/// A program grown from a fresh machine, in one of the styles.
fn program(random: &mut Random) -> (&'static str, Vec<u8>) {
    let (name, style) = random.pick(&STYLES);
    let cells = cells(random);
    let mut machine = Machine::fresh();
    cells.iter().for_each(|&cell| machine.push(cell));
    let taste = Taste { style, arena: arena(random), reach: Reach::Alone };
    let target = random.between(30, 250) as u64;
    let grown = Grower::new(random, Box::new([0; MEMORY]), target).grow(machine, &taste);

    let mut memory = vec![0; MEMORY];
    let mut end = 1;
    for &(address, byte) in &grown.chosen {
        memory[address] = byte;
        end = end.max(address + 1);
    }
    let budget = budget(random, &grown);
    (name, image(&memory[..end], &cells, budget))
}

/// Few, many or any number of cells.
fn cells(random: &mut Random) -> Vec<u32> {
    let count = match random.below(4) {
        0 => random.between(0, 3),
        1 => random.between(60, 64),
        _ => random.between(0, 64),
    };
    (0..count).map(|_| cell(random)).collect()
}

/// Mostly a small stretch at the bottom; sometimes all of memory, or its end.
fn arena(random: &mut Random) -> Arena {
    match random.below(20) {
        0 => Arena { start: 0, length: MEMORY },
        1 => Arena { start: MEMORY - 200, length: 200 },
        _ => Arena { start: 0, length: random.between(200, 2000) },
    }
}

/// A budget at which the run ends where it was grown to, a little before or after, or by itself.
fn budget(random: &mut Random, grown: &Grown) -> Option<u32> {
    let steps = grown.steps as u32;
    if grown.ended.is_some() && random.percent(70) {
        return random.pick(&[None, Some(1_000_000), Some(steps + 1), Some(GIVEN_BUDGET)]);
    }
    Some(match random.below(10) {
        0 => random.below(steps as usize + 1) as u32,
        1..=4 => steps.saturating_sub(random.below(3) as u32),
        5..=8 => steps + random.below(30) as u32,
        _ => steps,
    })
}

/// Mostly good buffers; now and then a memory or an output of a length that must be refused, or just need not be.
pub fn buffers(random: &mut Random) -> (usize, Room) {
    match random.below(50) {
        0 => (random.pick(&[0, 1, MEMORY - 1, MEMORY + 1, MEMORY / 2, 2 * MEMORY]), Room::Plenty),
        1 => (MEMORY, Room::Short(random.pick(&[1, 1, 2, 9, 40, usize::MAX]))),
        2..=4 => (MEMORY, Room::Exact),
        _ => (MEMORY, Room::Plenty),
    }
}

/// The same for the reader, which wants a state and a result besides.
pub fn lengths_of_read(random: &mut Random) -> Lengths {
    let right = Lengths::OF_READ;
    let wrong =
        |random: &mut Random, length: usize| random.pick(&[0, 1, length / 2, length - 1, length + 1, 2 * length]);
    match random.below(50) {
        0 => Lengths { memory: wrong(random, right.memory), ..right },
        1 => Lengths { machines: wrong(random, right.machines), ..right },
        2 => Lengths { result: wrong(random, right.result), ..right },
        _ => right,
    }
}
