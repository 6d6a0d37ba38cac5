//! What a host does to the lines of a machine between its runs: it raises some and sets the mask, and now and then makes a
//! call that is refused.

use crate::boundary::Foreign;
use crate::chains::Runner;
use crate::model::host::{raise, set_mask};
use crate::model::reach::Reach;
use crate::model::state::Machine;
use crate::random::Random;
use crate::state_bytes::{STATE_BYTES, TASKS_BYTES};
use crate::states::{any_mask, some_lines};

#[derive(Clone, Copy, Debug)]
pub enum LineCall {
    Raise(u64),
    SetMask(u64),
}

impl LineCall {
    /// By the model, on the bytes of a state.
    pub fn by_model(self, state: &mut [u8]) -> u64 {
        match self {
            LineCall::Raise(line) => raise(state, line),
            LineCall::SetMask(mask) => set_mask(state, mask),
        }
    }

    pub fn by(self, foreign: Foreign, state: &mut [u8]) -> u64 {
        match self {
            LineCall::Raise(line) => foreign.raise_line(state, line),
            LineCall::SetMask(mask) => foreign.set_mask(state, mask),
        }
    }
}

/// Mostly some calls, of which some are refused.
pub fn some_calls<R: Runner>(
    runner: &mut R,
    random: &mut Random,
    reach: Reach,
    machine: &mut Machine,
) -> Result<(), R::Failure> {
    if random.percent(40) {
        let mask = any_mask(random);
        runner.lines(reach, machine, LineCall::SetMask(mask.into()), STATE_BYTES)?;
    }
    if random.percent(40) {
        let lines = one_or_two(random);
        for line in (1..=15).filter(|line| lines >> line & 1 == 1) {
            runner.lines(reach, machine, LineCall::Raise(line), STATE_BYTES)?;
        }
    }
    if random.percent(20) {
        wrong_call(runner, random, reach, machine)?;
    }
    Ok(())
}

/// Now and then many.
fn one_or_two(random: &mut Random) -> u32 {
    if random.percent(15) {
        return some_lines(random);
    }
    1 << random.between(1, 15) | 1 << random.between(1, 15)
}

/// A line or a mask that there is none of, or a state of another length.
fn wrong_call<R: Runner>(
    runner: &mut R,
    random: &mut Random,
    reach: Reach,
    machine: &mut Machine,
) -> Result<(), R::Failure> {
    let line = random.between(1, 15) as u64;
    let mask = random.below(0x1_0000) as u64;
    let length = random.pick(&[0, 1, 3536, STATE_BYTES - 1, STATE_BYTES + 1, STATE_BYTES + 8, TASKS_BYTES]);
    let (call, length) = match random.below(6) {
        0 => (LineCall::Raise(0), STATE_BYTES),
        1 => (LineCall::Raise(random.pick(&[16, 16, 17, 31, 32, 33, 47, 64])), STATE_BYTES),
        2 => (LineCall::Raise(random.pick(&[line << 32, (1 << 32) + line, 1 << 63, u64::MAX])), STATE_BYTES),
        3 => (
            LineCall::SetMask(random.pick(&[0x1_0000, 0x1_0000 + mask, 0x8000_0000, (1 << 32) + mask, u64::MAX])),
            STATE_BYTES,
        ),
        4 => (LineCall::Raise(line), length),
        _ => (LineCall::SetMask(mask), length),
    };
    runner.lines(reach, machine, call, length)
}
