//! The instructions that were completed, the levels they lost, the flags they found and left, and the last throws they set
//! and left; and what was tried on the cells in view.

use std::fmt;

use crate::counts::{columns, Counted};
use crate::model::codes::{known_codes, row_of, Op};
use crate::model::observer::{Observer, Seen};
use crate::model::reach::Reach;
use crate::model::state::{Answer, Machine, MEMORY};
use crate::throw_tally::ThrowTally;
use crate::view_tally::ViewTally;

const LOSERS: [&str; 4] = ["EXIT", "R>", "THROW", "RTI"];
/// The sums and differences, whether they move the flag or leave it.
const SUMS: [u8; 7] = [0x0E, 0x0F, 0x10, 0x11, 0x12, 0x14, 0x15];
/// Those that leave it, and whether they carry or borrow on a cell.
const LEAVERS: [(u8, fn(u32) -> bool); 3] =
    [(0x10, |cell| cell != 0), (0x11, |cell| cell == u32::MAX), (0x12, |cell| cell == 0)];

pub struct InstructionTally {
    /// By first byte.
    codes: [u64; 256],
    /// By the instruction that dropped the level, as `LOSERS`.
    frames_lost: [u64; LOSERS.len()],
    catches_lost: [u64; LOSERS.len()],
    /// By the flag before each of `SUMS`.
    flags: [[u64; 2]; SUMS.len()],
    /// How often each of `LEAVERS` left a flag that was not its own carry or borrow.
    left: [u64; LEAVERS.len()],
    throws: ThrowTally,
    view: ViewTally,
}

impl Default for InstructionTally {
    fn default() -> InstructionTally {
        InstructionTally {
            codes: [0; 256],
            frames_lost: [0; LOSERS.len()],
            catches_lost: [0; LOSERS.len()],
            flags: Default::default(),
            left: Default::default(),
            throws: ThrowTally::default(),
            view: ViewTally::default(),
        }
    }
}

impl Observer for InstructionTally {
    fn trying(&mut self, reach: Reach, machine: &Machine, memory: &[u8; MEMORY]) {
        self.view.trying(reach, machine, memory);
    }

    fn completed(&mut self, code: u8, before: Seen, after: Seen) {
        self.codes[usize::from(code)] += 1;
        self.throws.completed(code, before, after);
        if let Some(sum) = SUMS.iter().position(|&sum| sum == code) {
            self.flags[sum][before.flag as usize] += 1;
        }
        for (count, (leaver, carries)) in self.left.iter_mut().zip(LEAVERS) {
            *count += u64::from(leaver == code && carries(before.top) != (before.flag == 1));
        }
        let loser = match row_of(code).map(|row| row.op) {
            Some(Op::Exit) => 0,
            Some(Op::RFrom) => 1,
            Some(Op::Throw) => 2,
            Some(Op::Rti) => 3,
            _ => return,
        };
        self.frames_lost[loser] += u64::from(after.s < before.s);
        self.catches_lost[loser] += u64::from(after.e < before.e);
    }

    fn refused(&mut self, code: u8, before: Seen, answer: Answer) {
        self.throws.refused(code, before, answer);
    }
}

impl InstructionTally {
    pub fn all(&self) -> Vec<Counted> {
        [
            self.code_counts(),
            self.loss_counts(),
            self.flag_counts(),
            self.left_counts(),
            self.throws.counts(),
            self.view.counts(),
        ]
        .concat()
    }

    /// How often an instruction was completed, its codes taken together.
    fn completed(&self, code: u8) -> u64 {
        match code {
            0x80 | 0xC0 => self.codes[usize::from(code)..][..64].iter().sum(),
            _ => self.codes[usize::from(code)],
        }
    }

    fn code_counts(&self) -> Vec<Counted> {
        known_codes().map(|code| (format!("{code:02X} {}", name(code)), self.completed(code))).collect()
    }

    fn loss_counts(&self) -> Vec<Counted> {
        let named = |what: &'static str, counts: [u64; LOSERS.len()]| {
            LOSERS.into_iter().zip(counts).map(move |(loser, count)| (format!("{what} by {loser}"), count))
        };
        named("frame", self.frames_lost).chain(named("catch", self.catches_lost)).collect()
    }

    fn flag_counts(&self) -> Vec<Counted> {
        let named = |(code, counts): (u8, [u64; 2])| {
            counts
                .into_iter()
                .enumerate()
                .map(move |(flag, count)| (format!("flag {flag} before {}", name(code)), count))
        };
        SUMS.into_iter().zip(self.flags).flat_map(named).collect()
    }

    fn left_counts(&self) -> Vec<Counted> {
        LEAVERS
            .into_iter()
            .zip(self.left)
            .map(|((code, _), count)| (format!("flag left by {}", name(code)), count))
            .collect()
    }
}

impl fmt::Display for InstructionTally {
    fn fmt(&self, f: &mut fmt::Formatter<'_>) -> fmt::Result {
        columns(f, "instructions completed", 6, 10, self.code_counts())?;
        columns(f, "levels lost", 4, 22, self.loss_counts())?;
        columns(f, "flag before a sum or difference", 4, 22, self.flag_counts())?;
        columns(f, "flag other than their own carry or borrow", 3, 22, self.left_counts())?;
        columns(f, "last throws with no zero in them", 3, 30, self.throws.counts())?;
        columns(f, "accesses to the cells in view", 3, 26, self.view.counts())
    }
}

fn name(code: u8) -> &'static str {
    row_of(code).map_or("", |row| row.name)
}
