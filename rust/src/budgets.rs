//! Where generated images stop: a budget for those that would run on without one, and work that ends around a budget.

use crate::assembler::{assemble, image};
use crate::model::bench::bench;
use crate::model::image::DEFAULT_BUDGET;
use crate::model::state::{Answer, MEMORY};

/// Where a generated image stops that gives no budget and would run on.
pub const GIVEN_BUDGET: u32 = 10_000;

/// A file with an empty third section that would spend `GIVEN_BUDGET`, with that budget given; any other file as it is.
pub fn stopped(file: Vec<u8>) -> Vec<u8> {
    let Some((front, [0, 0, 0, 0])) = file.split_last_chunk() else {
        return file;
    };
    // Good only where the zeros were the third section: `GIVEN_BUDGET` at the end can be no count.
    let given = [front, &1u32.to_be_bytes(), &GIVEN_BUDGET.to_be_bytes()].concat();
    if spends(&given) {
        given
    } else {
        file
    }
}

/// Whether an image runs until its budget is spent.
fn spends(file: &[u8]) -> bool {
    bench(file, &mut vec![0; MEMORY], &mut ()).answer() == Answer::BudgetSpent
}

/// Work that ends just before, just at and just after each of two budgets, with that budget given and with none.
pub fn edges() -> impl Iterator<Item = Vec<u8>> {
    [GIVEN_BUDGET, DEFAULT_BUDGET].into_iter().flat_map(|budget| {
        (budget - 1..=budget + 1).flat_map(move |steps| [Some(budget), None].map(|given| work(steps, given)))
    })
}

/// An image that finishes after so many steps, three at least, if its budget lasts: a round takes four, the last one three.
fn work(steps: u32, budget: Option<u32>) -> Vec<u8> {
    let (rounds, spare) = ((steps + 1) / 4, (steps + 1) % 4);
    let source = "NOP ".repeat(spare as usize) + "round: 1- DUP BEQ done BRA round done: EXIT";
    image(&assemble(&source), &[rounds], budget)
}

#[cfg(test)]
mod tests {
    use super::*;

    /// Answer and steps.
    fn outcome(file: &[u8]) -> (u64, u64) {
        let outcome = bench(file, &mut vec![0; MEMORY], &mut ()).outcome.expect("a good image");
        (outcome.answer.number(), outcome.steps)
    }

    #[test]
    fn images_that_would_run_on_are_stopped() {
        let endless = assemble("here: BRA here");
        assert_eq!(stopped(image(&endless, &[7], None)), image(&endless, &[7], Some(GIVEN_BUDGET)));
        assert_eq!(stopped(work(10_000, None)), work(10_000, Some(GIVEN_BUDGET)));
    }

    #[test]
    fn other_files_stay() {
        let endless = assemble("here: BRA here");
        for file in
            [work(9_999, None), image(&endless, &[], Some(0)), image(&endless, &[0], None)[..10].to_vec(), vec![0; 3]]
        {
            assert_eq!(stopped(file.clone()), file);
        }
    }

    #[test]
    fn work_takes_its_steps() {
        for steps in [3, 4, 5, 6, 7, 999_999] {
            assert_eq!(outcome(&work(steps, Some(1_000_000))), (0, steps.into()));
        }
    }

    #[test]
    fn edges_lie_on_both_sides_of_each_budget() {
        let outcomes: Vec<_> = edges().map(|file| outcome(&file)).collect();
        let expected = [
            [(0, 9_999), (0, 9_999)],
            [(1, 10_000), (0, 10_000)],
            [(1, 10_000), (0, 10_001)],
            [(0, 249_999), (0, 249_999)],
            [(1, 250_000), (1, 250_000)],
            [(1, 250_000), (1, 250_000)],
        ];
        assert_eq!(outcomes, expected.concat());
    }
}
