//! The pieces that programs are grown from: one instruction, or one with the literals it needs.

use std::ops::RangeInclusive;

use crate::model::codes::{fetch, row_of, PAUSE_CODE};
use crate::model::place::width;
use crate::model::reach::Reach;
use crate::model::refusal::refusal;
use crate::model::state::{Machine, CATCHES, CELLS, FRAMES, MEMORY};
use crate::operands::{address, cell, in_view, over_an_end_of_view, seam};
use crate::random::Random;

/// How often each kind of fragment is picked.
#[derive(Clone, Copy)]
pub struct Style {
    pub push: usize,
    pub stack: usize,
    pub arithmetic: usize,
    pub returns: usize,
    /// Those of them in a hundred that are >R.
    pub to_r: usize,
    pub calls: usize,
    pub catches: usize,
    pub throws: usize,
    pub exits: usize,
    pub access: usize,
    /// Stores aimed at the code around the program counter.
    pub rewrite: usize,
    pub jumps: usize,
    /// Fragments in a thousand that are taken whether the state allows them or not.
    pub daring: usize,
}

#[rustfmt::skip]
pub const STYLES: [(&str, Style); 7] = [
    ("image: mixed",     Style { push: 20, stack: 15, arithmetic: 25, returns: 5, to_r: 40, calls: 5, catches: 3, throws: 2, exits: 6, access: 12, rewrite: 1, jumps: 6, daring: 5 }),
    ("image: nesting",   Style { push: 8, stack: 4, arithmetic: 3, returns: 20, to_r: 40, calls: 16, catches: 20, throws: 8, exits: 8, access: 6, rewrite: 0, jumps: 2, daring: 8 }),
    ("image: deep",      Style { push: 12, stack: 2, arithmetic: 2, returns: 12, to_r: 60, calls: 30, catches: 25, throws: 1, exits: 1, access: 6, rewrite: 0, jumps: 2, daring: 10 }),
    ("image: rewriting itself", Style { push: 14, stack: 8, arithmetic: 10, returns: 4, to_r: 40, calls: 4, catches: 3, throws: 2, exits: 4, access: 6, rewrite: 40, jumps: 8, daring: 5 }),
    ("image: edge addresses",     Style { push: 8, stack: 5, arithmetic: 6, returns: 3, to_r: 40, calls: 4, catches: 3, throws: 2, exits: 3, access: 60, rewrite: 2, jumps: 6, daring: 10 }),
    ("image: full stacks",      Style { push: 40, stack: 20, arithmetic: 4, returns: 25, to_r: 85, calls: 4, catches: 2, throws: 1, exits: 1, access: 6, rewrite: 0, jumps: 2, daring: 40 }),
    ("image: empty stacks",     Style { push: 4, stack: 30, arithmetic: 25, returns: 20, to_r: 25, calls: 4, catches: 4, throws: 6, exits: 6, access: 8, rewrite: 0, jumps: 4, daring: 10 }),
];

const RTI: u8 = 0x3C;
/// The routines of the lines begin here, four bytes apart.
const ROUTINES: RangeInclusive<u32> = 4..=60;

/// Where the program's code goes: jumps and calls aim at these addresses.
#[derive(Clone, Copy)]
pub struct Arena {
    pub start: usize,
    pub length: usize,
}

/// What code is to be like.
#[derive(Clone, Copy)]
pub struct Taste {
    pub style: Style,
    pub arena: Arena,
    pub reach: Reach,
}

impl Arena {
    pub fn address(self, random: &mut Random) -> u32 {
        (self.start + random.below(self.length)) as u32
    }
}

/// A fragment that the state allows, or after some tries whatever came last; where a line's routine begins, often one that
/// suits there.
pub fn fragment(random: &mut Random, taste: &Taste, machine: &Machine) -> Vec<u8> {
    if machine.lines.block == 1 && ROUTINES.contains(&machine.program_counter) && random.percent(60) {
        return routine(random, taste.arena);
    }
    let daring = random.below(1000) < taste.style.daring;
    let mut fragment = candidate(random, taste, machine, daring);
    for _ in 0..12 {
        // It is looked at by itself: where it is going to stand, some of its bytes may be out of reach.
        let first = fetch(&fragment, Reach::Alone, 0);
        if daring || first.is_ok_and(|instruction| refusal(machine, taste.reach, &instruction).is_none()) {
            break;
        }
        fragment = candidate(random, taste, machine, daring);
    }
    fragment
}

/// One fragment by the style's weights, out of the kinds that have a chance in this state.
fn candidate(random: &mut Random, taste: &Taste, machine: &Machine, daring: bool) -> Vec<u8> {
    let Taste { style, arena, reach } = *taste;
    let Machine { p, r, s, e, program_counter: here, .. } = *machine;
    let may_call = p < CELLS && r < CELLS && s < FRAMES;
    let kinds = [
        (style.push, p < CELLS),
        (style.stack, true),
        (style.arithmetic, p > 0),
        (style.returns, p > 0 || r > 0),
        (style.calls, may_call),
        (style.catches, may_call && e < CATCHES),
        (style.throws, e > 0 && p < CELLS),
        (style.exits, s > 0),
        (style.access, p > 0 && p < CELLS),
        (style.rewrite, p + 2 <= CELLS),
        (style.jumps, true),
        (if reach == Reach::Alone { 1 } else { 8 }, true),
        (6, machine.lines.block == 1 && s > 0),
    ];
    let weights = kinds.map(|(weight, suits)| if suits || daring { weight } else { 0 });
    match weighted(random, &weights) {
        0 => push(random),
        1 => vec![random.pick(&[0x00, 0x01, 0x02, 0x03, 0x04, 0x05, 0x06, 0x0A, 0x33])],
        2 => vec![random.between(0x0E, 0x2C) as u8],
        3 => vec![if random.percent(style.to_r) { 0x07 } else { random.pick(&[0x08, 0x09, 0x09]) }],
        4 => call(random, arena),
        5 => [literal(arena.address(random)), vec![0x0B, 0x20]].concat(),
        6 => throw(random),
        7 => vec![if random.percent(4) { 0x0C } else { 0x3D }],
        8 => access(random, reach),
        9 => rewrite(random, here),
        10 => jump(random, arena, here),
        11 => vec![PAUSE_CODE],
        _ => vec![RTI],
    }
}

/// What a line's routine can be in four bytes: mostly it returns, or calls a word.
pub fn routine(random: &mut Random, arena: Arena) -> Vec<u8> {
    match random.below(20) {
        0..=7 => vec![RTI],
        8 | 9 => vec![0x20, 0x01, RTI],
        10 => vec![0x08, 0x01, RTI],
        11..=13 => call(random, arena),
        14 => vec![0x3D],
        15 => vec![0x09, RTI],
        16 => vec![0x0C, RTI],
        17 => vec![0x34, random.byte(), 0x0D],
        18 => jump(random, arena, 0),
        _ => vec![random.byte()],
    }
}

/// An index, by weight.
fn weighted(random: &mut Random, weights: &[usize]) -> usize {
    let mut left = random.below(weights.iter().sum());
    weights
        .iter()
        .position(|&weight| {
            let here = left < weight;
            left = left.saturating_sub(weight);
            here
        })
        .unwrap_or(0)
}

fn push(random: &mut Random) -> Vec<u8> {
    match random.below(4) {
        0 => vec![0x20],
        1 => vec![0x34, random.byte()],
        2 => vec![0x35, random.byte(), random.byte()],
        _ => literal(cell(random)),
    }
}

fn call(random: &mut Random, arena: Arena) -> Vec<u8> {
    let target = arena.address(random);
    if random.percent(30) {
        return [literal(target), vec![0x39]].concat();
    }
    // Now and then a target where no code can be: the call is a step, the next fetch is refused.
    let target = if random.percent(1) { random.u32() } else { target };
    [&[0x38], &target.to_be_bytes()[1..]].concat()
}

fn throw(random: &mut Random) -> Vec<u8> {
    match random.below(8) {
        0 | 1 => vec![0x0D],
        2 | 3 => vec![0x20, 0x0D],
        4 => [literal(cell(random)), vec![0x0D]].concat(),
        _ => vec![0x34, random.byte(), 0x0D],
    }
}

/// The code of a fetch or a store, and the bytes that it moves.
pub fn any_access(random: &mut Random) -> (u8, usize) {
    let code = random.between(0x2D, 0x32) as u8;
    (code, row_of(code).map_or(0, |row| width(row.op)))
}

/// A fetch, or a store of what lies below the address. Most addresses are good, many of them just so.
fn access(random: &mut Random, reach: Reach) -> Vec<u8> {
    let (code, bytes) = any_access(random);
    let address = match random.below(32) {
        0 => address(random),
        1..=9 => edge(random, reach, bytes),
        10..=25 => in_view(random, bytes),
        _ => allowed(reach, bytes, || random.below(MEMORY - bytes)),
    };
    [literal(address), vec![code]].concat()
}

/// An address at which so many bytes are just in memory, or just in reach of a task.
fn edge(random: &mut Random, reach: Reach, bytes: usize) -> u32 {
    match reach {
        Reach::Alone => (MEMORY - bytes - random.below(3)) as u32,
        Reach::Task(_) => allowed(reach, bytes, || (seam(random) as usize).min(MEMORY - bytes)),
    }
}

/// The first of the addresses drawn at which so many bytes are in reach.
fn allowed(reach: Reach, bytes: usize, mut drawn: impl FnMut() -> usize) -> u32 {
    loop {
        let start = drawn();
        if reach.allows(start..start + bytes) {
            return start as u32;
        }
    }
}

/// A store of likely codes over what is run next or was run just now.
fn rewrite(random: &mut Random, here: u32) -> Vec<u8> {
    let target = here.wrapping_sub(16).wrapping_add(random.below(48) as u32);
    let codes = u32::from_be_bytes([(); 4].map(|()| random.below(0x3A) as u8));
    [literal(codes), literal(target), vec![random.pick(&[0x32, 0x32, 0x30, 0x2E])]].concat()
}

fn jump(random: &mut Random, arena: Arena, here: u32) -> Vec<u8> {
    let target = arena.address(random);
    if random.percent(12) {
        let target = if random.percent(4) { address(random) } else { target };
        return [literal(target), vec![0x37]].concat();
    }
    let code: u8 = random.pick(&[0x80, 0xC0]);
    let offset = target.wrapping_sub(here).wrapping_sub(2) & 0x3FFF;
    vec![code | (offset >> 8) as u8, offset as u8]
}

/// Something that is likely to end the run, in one of the ways that the answers list.
pub fn ending(random: &mut Random, reach: Reach) -> Vec<u8> {
    if reach != Reach::Alone && random.percent(30) {
        return over_a_seam(random);
    }
    match random.below(11) {
        0 => vec![random.between(0x3F, 0x7F) as u8],
        1 => vec![random.pick(&[0x3A, 0x3B, 0x3C])],
        2 => vec![0x0C, 0x3D],
        3 => vec![0x0C, random.pick(&[0x08, 0x09, 0x01, 0x0E, 0x06])],
        4 => vec![0x20, random.pick(&[0x2B, 0x2C])],
        5 => vec![0x34, 1, 0x0D],
        6 => vec![0x0C, 0x0D],
        7 => [literal(address(random)), vec![random.between(0x2D, 0x32) as u8]].concat(),
        8 | 9 => out_of_view(random),
        _ => vec![random.pick(&[0x3D, 0x20, 0x07, 0x0B, 0x39])],
    }
}

/// An access that is partly in view, or of one byte beside it.
fn out_of_view(random: &mut Random) -> Vec<u8> {
    let (code, bytes) = any_access(random);
    [literal(over_an_end_of_view(random, bytes)), vec![code]].concat()
}

/// An access around a seam, or a jump there.
fn over_a_seam(random: &mut Random) -> Vec<u8> {
    [literal(seam(random)), vec![random.pick(&[0x2D, 0x2E, 0x2F, 0x30, 0x31, 0x32, 0x37, 0x37, 0x37])]].concat()
}

fn literal(value: u32) -> Vec<u8> {
    [&[0x36], &value.to_be_bytes()[..]].concat()
}
