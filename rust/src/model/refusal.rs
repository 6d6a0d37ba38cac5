//! Why an instruction that was fetched may not be carried out: answers 16, 5 to 13, and 17.

use super::codes::{Instruction, Op};
use super::place::{place, width};
use super::reach::Reach;
use super::state::{Answer, Machine, CATCHES, CELLS, FRAMES};

/// The lowest answer that applies, or nothing; 16 comes before 5.
pub fn refusal(machine: &Machine, reach: Reach, instruction: &Instruction) -> Option<Answer> {
    let row = instruction.row;
    if row.op == Op::Rti && (machine.lines.block == 0 || machine.s == 0) {
        return Some(Answer::NoRoutine);
    }
    if machine.p < row.takes {
        return Some(Answer::TooFewParameters);
    }
    // A code that takes nothing makes no use of the top cell.
    let top = if row.takes > 0 { machine.parameters[machine.p - 1] } else { 0 };
    let op = row.op;
    let calls = matches!(op, Op::Catch | Op::Jsr | Op::Jsl);
    let accesses = width(op) > 0;
    let place = place(width(op), top);

    let in_order = [
        (matches!(op, Op::RFrom | Op::RFetch) && machine.r == 0, Answer::ReturnStackEmpty),
        (op == Op::Throw && top != 0 && machine.e == 0, Answer::NothingCatches),
        (depth_after(machine, instruction, top) > CELLS, Answer::ParametersFull),
        ((calls || op == Op::ToR) && machine.r == CELLS, Answer::ReturnsFull),
        (calls && machine.s == FRAMES, Answer::FramesFull),
        (op == Op::Catch && machine.e == CATCHES, Answer::CatchesFull),
        (accesses && place.is_none(), Answer::BadAddress),
        (matches!(op, Op::DivS | Op::DivU) && top == 0, Answer::DivisorZero),
        (accesses && !place.is_some_and(|place| place.is_within(reach, width(op))), Answer::InAnothersPart),
    ];
    in_order.into_iter().find(|(applies, _)| *applies).map(|(_, answer)| answer)
}

/// P as the instruction would leave it. A THROW that is caught leaves at most 64, so its row may say what it likes.
fn depth_after(machine: &Machine, instruction: &Instruction, top: u32) -> usize {
    let row = instruction.row;
    let doubled = usize::from(row.op == Op::QDup && top != 0);
    machine.p - row.takes + row.leaves + doubled
}
