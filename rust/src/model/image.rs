//! The reader of image files.

use super::run::MAX_BUDGET;
use super::state::{Answer, Machine, CELLS, MEMORY};
use super::sum::sum_of;

/// The budget of a file that gives none.
pub const DEFAULT_BUDGET: u32 = 250_000;

/// What a good file spells.
struct Image<'a> {
    memory: &'a [u8],
    parameters: Vec<u32>,
    budget: u64,
}

/// What a good file gives besides the memory that it fills.
pub struct Loaded {
    pub machine: Machine,
    pub budget: u64,
    /// Of the memory.
    pub sum: u64,
}

/// Fills the memory from a file; a refusal touches nothing.
pub fn load_image(file: &[u8], memory: &mut [u8]) -> Result<Loaded, Answer> {
    if memory.len() != MEMORY {
        return Err(Answer::BadInput);
    }
    let image = parse(file).ok_or(Answer::BadImage)?;
    let (front, rest) = memory.split_at_mut(image.memory.len());
    front.copy_from_slice(image.memory);
    rest.fill(0);
    let mut machine = Machine::fresh();
    for cell in image.parameters {
        machine.push(cell);
    }
    Ok(Loaded { machine, budget: image.budget, sum: sum_of(memory) })
}

fn parse(file: &[u8]) -> Option<Image<'_>> {
    let (memory, file) = section(file, 1)?;
    let (parameters, file) = section(file, 4)?;
    let (budget, file) = section(file, 4)?;
    let (parameters, budget) = (cells(parameters), cells(budget));
    let good =
        file.is_empty() && (1..=MEMORY).contains(&memory.len()) && parameters.len() <= CELLS && budget.len() <= 1;
    let budget = u64::from(budget.first().copied().unwrap_or(DEFAULT_BUDGET));
    (good && budget <= MAX_BUDGET).then_some(Image { memory, parameters, budget })
}

/// Splits off a count and so many items of the given size.
fn section(file: &[u8], item: u64) -> Option<(&[u8], &[u8])> {
    let (count, rest) = file.split_at_checked(4)?;
    // A count has 32 bits, so four times it fits 64.
    let bytes = u64::from(big_endian(count)) * item;
    rest.split_at_checked(usize::try_from(bytes).ok()?)
}

fn cells(bytes: &[u8]) -> Vec<u32> {
    bytes.chunks_exact(4).map(big_endian).collect()
}

fn big_endian(bytes: &[u8]) -> u32 {
    bytes.iter().fold(0, |value, &byte| value << 8 | u32::from(byte))
}
