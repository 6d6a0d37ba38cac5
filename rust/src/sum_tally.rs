//! The memory sums that runs were handed and handed back: true ones, also from run to run, false ones, and those that are
//! refused; and the stores of these runs.

use crate::counts::{stretch, Named, Stretch};
use crate::memories::Memory;
use crate::model::observer::{Observer, Seen};
use crate::model::reach::Reach;
use crate::model::run::Outcome;
use crate::model::state::{Answer, Machine, MEMORY};
use crate::model::sum::MOST_SUM;
use crate::store_tally::StoreTally;

#[rustfmt::skip]
const HANDED: [&str; 10] = [
    "true", "false", "false 0", "false 8,355,840",
    "8,355,841, refused", "up to 32 bits, refused", "past 32 bits, refused", "all ones, refused",
    "with another 2", "too great, with another 2",
];
const REFUSED: [Stretch; 4] = [
    (HANDED[4], MOST_SUM + 1..=MOST_SUM + 1),
    (HANDED[5], MOST_SUM + 2..=u32::MAX as u64),
    (HANDED[6], 1 << 32..=u64::MAX - 1),
    (HANDED[7], u64::MAX..=u64::MAX),
];
#[rustfmt::skip]
const BACK: [&str; 6] = [
    "true, moved", "true, moved by runs in a row", "true, moved around a refusal",
    "false, moved", "false, past 8,355,840", "false, below 0",
];
/// No run moves a sum by more than the greatest, so that what is past its double came from below 0.
const FALSE_BACK: [Stretch; 3] =
    [(BACK[3], 0..=MOST_SUM), (BACK[4], MOST_SUM + 1..=2 * MOST_SUM), (BACK[5], 2 * MOST_SUM + 1..=u32::MAX as u64)];

pub struct SumTally {
    handed: Named,
    back: Named,
    stores: StoreTally,
    row: Row,
}

/// Runs of which each was handed just what the one before handed back, all with true sums.
#[derive(Default)]
struct Row {
    left: Memory,
    /// Whether one of them moved the sum.
    moved: bool,
    /// Whether a call with this memory was refused after that.
    refused: bool,
}

impl SumTally {
    pub fn alone() -> SumTally {
        SumTally::with("memory sums handed in", "memory sums handed back", StoreTally::alone())
    }

    pub fn in_turns() -> SumTally {
        SumTally::with("in turns: memory sums handed in", "in turns: memory sums handed back", StoreTally::in_turns())
    }

    fn with(handed: &'static str, back: &'static str, stores: StoreTally) -> SumTally {
        SumTally { handed: Named::new(handed, HANDED), back: Named::new(back, BACK), stores, row: Row::default() }
    }

    /// A run was handed a memory and left these bytes. Where it was refused, it is asked whether the sum alone is at fault.
    pub fn ran(&mut self, handed: &Memory, outcome: Outcome, left: &[u8], sum_at_fault: impl FnOnce() -> bool) {
        if outcome.answer == Answer::BadInput {
            self.row.refused |= self.row.moved && handed.bytes == self.row.left.bytes;
            self.handed.saw(match handed.sum > MOST_SUM {
                true if sum_at_fault() => stretch(&REFUSED, handed.sum),
                true => "too great, with another 2",
                false => "with another 2",
            });
            return;
        }
        let is_true = handed.has_true_sum();
        self.handed.saw(match handed.sum {
            _ if is_true => "true",
            0 => "false 0",
            MOST_SUM => "false 8,355,840",
            _ => "false",
        });
        let moves = outcome.sum != handed.sum;
        if moves {
            self.back.saw(if is_true { "true, moved" } else { stretch(&FALSE_BACK, outcome.sum) });
        }
        if *handed != self.row.left {
            self.row = Row::default();
        }
        if is_true {
            match (self.row.moved && moves, self.row.refused) {
                (true, false) => self.back.saw("true, moved by runs in a row"),
                (true, true) => self.back.saw("true, moved around a refusal"),
                (false, _) => {}
            }
            self.row.moved |= moves;
            self.row.left = Memory { bytes: left.to_vec(), sum: outcome.sum };
        }
    }

    /// The lists, with the columns and the width of each.
    pub fn named(&self) -> [(&Named, usize, usize); 3] {
        [(&self.handed, 3, 26), (&self.back, 3, 30), (&self.stores.seen, 3, 30)]
    }
}

impl Observer for SumTally {
    fn trying(&mut self, reach: Reach, machine: &Machine, memory: &[u8; MEMORY]) {
        self.stores.trying(reach, machine, memory);
    }

    fn completed(&mut self, code: u8, before: Seen, after: Seen) {
        self.stores.completed(code, before, after);
    }

    fn refused(&mut self, code: u8, before: Seen, answer: Answer) {
        self.stores.refused(code, before, answer);
    }
}

#[cfg(test)]
mod tests {
    use super::*;

    /// Tells the tally of a run that sets a byte of a memory, and gives the memory as it is handed back.
    fn set(tally: &mut SumTally, handed: Memory, byte: u8) -> Memory {
        let mut bytes = handed.bytes.clone();
        let sum = (handed.sum + u64::from(byte)).wrapping_sub(bytes[0].into()) % (1 << 32);
        bytes[0] = byte;
        tally.ran(
            &handed,
            Outcome { answer: Answer::BudgetSpent, steps: 1, cycles: 1, sum },
            &bytes,
            || unreachable!(),
        );
        Memory { bytes, sum }
    }

    fn refuse(tally: &mut SumTally, handed: &Memory, sum_at_fault: bool) {
        tally.ran(handed, Outcome::bad_input(handed.sum), &handed.bytes, || sum_at_fault);
    }

    fn seen(tally: &SumTally) -> Vec<(String, u64)> {
        [tally.handed.counts(), tally.back.counts()].concat().into_iter().filter(|(_, count)| *count > 0).collect()
    }

    fn counts(names: &[(&str, u64)]) -> Vec<(String, u64)> {
        names.iter().map(|(name, count)| (name.to_string(), *count)).collect()
    }

    fn memory(byte: u8, sum: u64) -> Memory {
        Memory { bytes: vec![byte], sum }
    }

    #[test]
    fn a_row_is_what_is_handed_on() {
        let mut tally = SumTally::alone();
        let first = set(&mut tally, memory(5, 5), 6);
        let second = set(&mut tally, first, 7);
        let third = set(&mut tally, second, 7);
        set(&mut tally, third, 9);
        let expected = [("true", 4), ("true, moved", 3), ("true, moved by runs in a row", 2)];
        assert_eq!(seen(&tally), counts(&expected));
    }

    #[test]
    fn a_row_goes_on_around_a_refusal_of_the_same_memory() {
        for (refused, name) in [
            (memory(6, 6), "true, moved around a refusal"),
            (memory(6, 7), "true, moved around a refusal"),
            (memory(7, 6), "true, moved by runs in a row"),
        ] {
            let mut tally = SumTally::alone();
            let handed_back = set(&mut tally, memory(5, 5), 6);
            refuse(&mut tally, &refused, false);
            set(&mut tally, handed_back, 9);
            assert_eq!(seen(&tally), counts(&[("true", 2), ("with another 2", 1), ("true, moved", 2), (name, 1)]));
        }
    }

    #[test]
    fn a_memory_that_was_not_handed_back_begins_another_row() {
        let mut tally = SumTally::alone();
        for handed in [memory(5, 5), memory(7, 7), memory(5, 5)] {
            set(&mut tally, handed, 6);
        }
        // Nor does a false sum go on.
        set(&mut tally, memory(6, 7), 9);
        set(&mut tally, memory(9, 10), 8);
        assert_eq!(seen(&tally), counts(&[("true", 3), ("false", 2), ("true, moved", 3), ("false, moved", 2)]));
    }

    #[test]
    fn false_sums_are_told_apart() {
        let mut tally = SumTally::in_turns();
        for (sum, byte) in [(4, 6), (0, 6), (0, 4), (MOST_SUM, 6), (MOST_SUM, 4)] {
            set(&mut tally, memory(5, sum), byte);
        }
        let expected =
            [("false", 1), ("false 0", 2), ("false 8,355,840", 2), ("false, moved", 3), ("false, past 8,355,840", 1)];
        assert_eq!(seen(&tally), counts(&[&expected[..], &[("false, below 0", 1)]].concat()));
    }

    #[test]
    fn refused_sums_are_told_apart() {
        let mut tally = SumTally::alone();
        for sum in [MOST_SUM + 1, MOST_SUM + 2, u32::MAX.into(), 1 << 32, (1 << 32) + 5, u64::MAX] {
            refuse(&mut tally, &memory(5, sum), true);
        }
        refuse(&mut tally, &memory(5, MOST_SUM + 1), false);
        refuse(&mut tally, &memory(5, 5), false);
        let expected = [1, 2, 2, 1, 1, 1].into_iter().zip(&HANDED[4..]).map(|(count, name)| (*name, count));
        assert_eq!(seen(&tally), counts(&expected.collect::<Vec<_>>()));
    }
}
