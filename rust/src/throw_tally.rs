//! The last throw of machines that have one: how often it was set anew, and how often it was left.

use crate::counts::{Counted, Named};
use crate::model::codes::{row_of, Op};
use crate::model::observer::{Observer, Seen};
use crate::model::state::Answer;

#[rustfmt::skip]
const WHAT: [&str; 9] = [
    "last throw: new address", "last throw: new code", "last throw left by THROW of 0",
    "last throw left by THROW, 5", "last throw left by THROW, 7", "last throw left by RESETSP",
    "last throw left by CATCH", "last throw left by EXIT", "last throw left by R>",
];

pub struct ThrowTally(Named);

impl Default for ThrowTally {
    fn default() -> ThrowTally {
        ThrowTally(Named::new("last throws", WHAT))
    }
}

impl Observer for ThrowTally {
    fn completed(&mut self, code: u8, before: Seen, after: Seen) {
        let Some(row) = row_of(code) else { return };
        let (was, is) = (before.last_throw, after.last_throw);
        match row.op {
            Op::Throw if throws(code, before) => {
                if is.address != was.address {
                    self.saw(before, "last throw: new address");
                }
                if is.code != was.code {
                    self.saw(before, "last throw: new code");
                }
            }
            Op::Throw => self.saw(before, "last throw left by THROW of 0"),
            Op::ResetSp | Op::Catch | Op::Exit | Op::RFrom => {
                self.saw(before, &format!("last throw left by {}", row.name))
            }
            _ => {}
        }
    }

    fn refused(&mut self, code: u8, before: Seen, answer: Answer) {
        match answer {
            Answer::TooFewParameters if is_throw(code) => self.saw(before, "last throw left by THROW, 5"),
            Answer::NothingCatches => self.saw(before, "last throw left by THROW, 7"),
            _ => {}
        }
    }
}

impl ThrowTally {
    /// Where one of the two numbers is 0 already, one that is cleared would look like one that is left.
    fn saw(&mut self, before: Seen, what: &str) {
        if before.last_throw.address != 0 && before.last_throw.code != 0 {
            self.0.saw(what);
        }
    }

    pub fn counts(&self) -> Vec<Counted> {
        self.0.counts()
    }
}

/// Whether an instruction that was completed is a THROW of non-zero.
pub fn throws(code: u8, before: Seen) -> bool {
    is_throw(code) && before.top != 0
}

fn is_throw(code: u8) -> bool {
    row_of(code).is_some_and(|row| row.op == Op::Throw)
}

#[cfg(test)]
mod tests {
    use super::*;
    use crate::model::run::run;
    use crate::model::state::{LastThrow, Machine, MEMORY};

    /// What one instruction at address 5 of a machine with some cells and exception levels is seen as.
    fn seen(code: u8, cells: &[u32], e: usize, last_throw: LastThrow) -> Vec<String> {
        let mut machine = Machine { program_counter: 5, r: 1, s: 1, e, last_throw, ..Machine::fresh() };
        cells.iter().for_each(|&cell| machine.push(cell));
        let mut tally = ThrowTally::default();
        run(&mut machine, &mut vec![code; MEMORY], 1, 0, &mut tally);
        tally.counts().into_iter().filter(|(_, count)| *count > 0).map(|(name, _)| name).collect()
    }

    #[test]
    fn last_throws_have_the_right_names() {
        let last = LastThrow { address: 5, code: 6 };
        let cases: [(u8, &[u32], usize, &[&str]); 11] = [
            (0x0D, &[7], 1, &["last throw: new code"]),
            (0x0D, &[6], 1, &[]),
            (0x0D, &[0], 1, &["last throw left by THROW of 0"]),
            (0x0D, &[0], 0, &["last throw left by THROW of 0"]),
            (0x0D, &[], 1, &["last throw left by THROW, 5"]),
            (0x0D, &[7], 0, &["last throw left by THROW, 7"]),
            (0x0C, &[], 1, &["last throw left by RESETSP"]),
            (0x0B, &[7], 0, &["last throw left by CATCH"]),
            (0x3D, &[], 1, &["last throw left by EXIT"]),
            (0x09, &[], 1, &["last throw left by R>"]),
            (0x01, &[], 0, &[]),
        ];
        for (code, cells, e, names) in cases {
            assert_eq!(seen(code, cells, e, last), names, "{code:02X} with {cells:?}");
        }
        let elsewhere = LastThrow { address: 4, code: 6 };
        assert_eq!(seen(0x0D, &[7], 1, elsewhere), ["last throw: new address", "last throw: new code"]);
    }

    #[test]
    fn one_with_a_zero_in_it_is_not_counted() {
        for (address, code) in [(0, 0), (4, 0), (0, 6)] {
            for (throw, cells) in [(0x0D, &[7][..]), (0x0D, &[0]), (0x0D, &[]), (0x0C, &[])] {
                assert!(seen(throw, cells, 1, LastThrow { address, code }).is_empty());
            }
        }
    }
}
