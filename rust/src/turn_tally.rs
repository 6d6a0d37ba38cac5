//! What the comparison has seen of four tasks: the runs, how turns ended, whose the next one was, and who touched the
//! seams between the parts of memory.

use std::fmt;
use std::ops::Range;

use crate::counts::{grouped, seldom, stretch, Named, Stretch};
use crate::instruction_tally::InstructionTally;
use crate::lines_tally::LinesTally;
use crate::model::codes::PAUSE_CODE;
use crate::model::observer::{Observer, Seen};
use crate::model::reach::{Reach, TASKS};
use crate::model::run::Outcome;
use crate::model::state::{Answer, LastThrow, Machine, MEMORY};
use crate::model::tasks::Task;
use crate::model::turn::Turn;
use crate::sum_tally::SumTally;
use crate::task_chains::{Pace, ANSWERS_KEPT, KINDS};
use crate::throw_tally::throws;
use crate::touches::Touches;

/// Everything here is to be seen at least so often.
const LEAST: u64 = 300;

/// The addresses on both sides of each seam.
const SEAMS: [usize; 13] =
    [16_383, 16_384, 20_479, 20_480, 24_575, 24_576, 28_671, 28_672, 32_764, 32_765, 32_766, 32_767, 32_768];
/// Shared memory ends with the first and task 0's part begins with the other.
const CROSSING: [usize; 2] = [SEAMS[0], SEAMS[1]];
const TOUCHES: [&str; 3] = ["instruction", "read", "write"];
const TOUCHERS: [&str; 2] = ["task 0", "another task"];

#[rustfmt::skip]
const ENDS: [&str; 24] = [
    "PAUSE", "PAUSE, quantum spent", "PAUSE, budget spent", "quantum spent", "budget spent", "quantum and budget spent",
    "0", "3 by a first byte", "3 by a further byte", "4", "5", "6", "7", "8", "9", "10", "11", "12", "13", "16",
    "17 by a first byte", "17 by a further byte", "17 by a read", "17 by a write",
];
#[rustfmt::skip]
const NEXT: [&str; 7] = [
    "first: task 0", "first: task 1", "first: task 2", "first: task 3",
    "the one after", "over others not ready", "the same again",
];

const QUANTA: [Stretch; 7] = [
    ("0", 0..=0),
    ("1", 1..=1),
    ("2", 2..=2),
    ("3 to 999", 3..=999),
    ("1,000", 1_000..=1_000),
    ("1,001", 1_001..=1_001),
    ("greater", 1_002..=u64::MAX),
];
const BUDGETS: [Stretch; 6] = [
    ("0", 0..=0),
    ("1 to 20", 1..=20),
    ("21 to 999,999", 21..=999_999),
    ("1,000,000", 1_000_000..=1_000_000),
    ("1,000,001", 1_000_001..=1_000_001),
    ("past 32 bits", 1 << 32..=u64::MAX),
];

pub struct TurnTally {
    kinds: Named,
    answers: Named,
    kept: Named,
    quanta: Named,
    budgets: Named,
    ends: Named,
    next: Named,
    seams: Named,
    crossings: Named,
    throwers: Named,
    instructions: InstructionTally,
    pub sums: SumTally,
    pub lines: LinesTally,
    /// Of the instruction that is being tried.
    touches: Option<Touches>,
    last_code: u8,
    /// Who had the turn before.
    before: Option<usize>,
    /// Who has a last throw.
    has_thrown: [bool; TASKS],
}

impl Default for TurnTally {
    fn default() -> TurnTally {
        TurnTally {
            kinds: Named::new("runs of four tasks compared", KINDS),
            answers: Named::new("their answers", [0, 1, 2]),
            kept: Named::new("tasks that keep an answer from before, by its number", ANSWERS_KEPT),
            quanta: Named::new("quanta", QUANTA.map(|(name, _)| name)),
            budgets: Named::new("budgets", BUDGETS.map(|(name, _)| name)),
            ends: Named::new("turns that ended with", ENDS),
            next: Named::new("next turn", NEXT),
            seams: Named::new(
                "seams touched",
                SEAMS.into_iter().flat_map(|at| TOUCHES.map(|touch| touched(at, touch))),
            ),
            crossings: Named::new(
                "16,383 and 16,384 touched at once",
                TOUCHERS.into_iter().flat_map(|toucher| TOUCHES.map(|touch| crossed(touch, toucher))),
            ),
            throwers: Named::new("THROW while another has a last throw, by the task's number", 0..TASKS),
            instructions: InstructionTally::default(),
            sums: SumTally::in_turns(),
            lines: LinesTally::in_turns(),
            touches: None,
            last_code: 0,
            before: None,
            has_thrown: [false; TASKS],
        }
    }
}

fn touched(address: usize, touch: &str) -> String {
    format!("{} by {touch}", grouped(address as u64))
}

fn crossed(touch: &str, toucher: &str) -> String {
    format!("{touch} of {toucher}")
}

impl TurnTally {
    pub fn kind(&mut self, kind: &str) {
        self.kinds.saw(kind);
    }

    /// A run is about to begin.
    pub fn begins(&mut self, tasks: &[Task; TASKS], pace: Pace) {
        tasks.iter().filter(|task| ANSWERS_KEPT.contains(&task.kept)).for_each(|task| self.kept.saw(task.kept));
        self.quanta.saw(stretch(&QUANTA, pace.quantum));
        self.budgets.saw(stretch(&BUDGETS, pace.budget));
        self.before = None;
        self.lines.begins();
        self.has_thrown = tasks.each_ref().map(|task| task.machine.last_throw != LastThrow::default());
    }

    pub fn answer(&mut self, answer: Answer) {
        self.answers.saw(answer.number());
    }

    /// A run is over that was handed some tasks and left others.
    pub fn ran(&mut self, handed: &[Task; TASKS], left: &[Task; TASKS], outcome: Outcome) {
        self.lines.ran(&left[0].machine, outcome);
        self.lines.ran_tasks(handed, outcome);
    }

    fn saw_touch(&mut self, number: usize, bytes: &Range<usize>, touch: &str) {
        for address in SEAMS.into_iter().filter(|address| bytes.contains(address)) {
            self.seams.saw(touched(address, touch));
        }
        if CROSSING.iter().all(|address| bytes.contains(address)) {
            self.crossings.saw(crossed(touch, TOUCHERS[number.min(1)]));
        }
    }

    /// The data of the instruction that was tried was touched, or refused.
    fn saw_data(&mut self) {
        if let Some(Touches { number, data: Some((bytes, touch)), .. }) = self.touches.take() {
            self.saw_touch(number, &bytes, touch);
        }
    }

    /// The instruction that was tried is a THROW of non-zero, and was carried out.
    fn saw_throw(&mut self) {
        let Some(Touches { number, .. }) = self.touches else { return };
        if (0..TASKS).any(|other| other != number && self.has_thrown[other]) {
            self.throwers.saw(number);
        }
        self.has_thrown[number] = true;
    }

    fn saw_end(&mut self, turn: Turn, quantum: u64, left: u64) {
        let refused = self.touches.as_ref().map_or("", |touches| touches.refused);
        let paused = self.last_code == PAUSE_CODE;
        match turn.left {
            Some(answer @ (Answer::CodeOutsideMemory | Answer::InAnothersPart)) => {
                self.ends.saw(format!("{} by a {refused}", answer.number()));
            }
            Some(answer) => self.ends.saw(answer.number()),
            None => self.ends.saw(match (paused, turn.steps == quantum, turn.steps == left) {
                (true, true, _) => "PAUSE, quantum spent",
                (true, false, true) => "PAUSE, budget spent",
                (true, false, false) => "PAUSE",
                (false, true, true) => "quantum and budget spent",
                (false, true, false) => "quantum spent",
                (false, false, _) => "budget spent",
            }),
        }
    }

    fn saw_next(&mut self, number: usize) {
        self.next.saw(match self.before.replace(number) {
            None => NEXT[number],
            Some(before) if before == number => "the same again",
            Some(before) if (before + 1) % TASKS == number => "the one after",
            Some(_) => "over others not ready",
        });
    }

    /// What was seen too seldom.
    pub fn shortfalls(&self) -> Vec<String> {
        let named = self.named().into_iter().flat_map(|(named, _, _)| named.seldom(LEAST));
        let instructions = seldom(self.instructions.all(), LEAST).into_iter();
        named.chain(instructions.map(|short| format!("in turns: {short}"))).collect()
    }

    /// The lists, with the columns and the width of each.
    fn named(&self) -> Vec<(&Named, usize, usize)> {
        let of_turns = [
            (&self.kinds, 3, 26),
            (&self.answers, 6, 10),
            (&self.kept, 6, 10),
            (&self.quanta, 6, 10),
            (&self.budgets, 3, 26),
            (&self.ends, 3, 26),
            (&self.next, 3, 26),
            (&self.seams, 3, 26),
            (&self.crossings, 3, 27),
            (&self.throwers, 6, 10),
        ];
        [&of_turns[..], &self.sums.named(), &self.lines.named()].concat()
    }
}

impl Observer for TurnTally {
    fn coming(&mut self, reach: Reach, machine: &Machine, memory: &[u8; MEMORY]) {
        self.lines.coming(reach, machine, memory);
    }

    fn trying(&mut self, reach: Reach, machine: &Machine, memory: &[u8; MEMORY]) {
        let Reach::Task(number) = reach else { return };
        self.instructions.trying(reach, machine, memory);
        self.sums.trying(reach, machine, memory);
        self.lines.trying(reach, machine, memory);
        let touches = Touches::of(number, machine, memory);
        self.saw_touch(number, &touches.code, "instruction");
        self.touches = Some(touches);
    }

    fn completed(&mut self, code: u8, before: Seen, after: Seen) {
        self.instructions.completed(code, before, after);
        self.sums.completed(code, before, after);
        self.lines.completed(code, before, after);
        if throws(code, before) {
            self.saw_throw();
        }
        self.saw_data();
        self.last_code = code;
    }

    fn refused(&mut self, code: u8, before: Seen, answer: Answer) {
        self.instructions.refused(code, before, answer);
        self.sums.refused(code, before, answer);
        self.lines.refused(code, before, answer);
    }

    fn turn_over(&mut self, number: usize, turn: Turn, quantum: u64, left: u64) {
        self.saw_end(turn, quantum, left);
        self.saw_next(number);
        self.saw_data();
        self.lines.turn_over(number, turn, quantum, left);
    }
}

impl fmt::Display for TurnTally {
    fn fmt(&self, f: &mut fmt::Formatter<'_>) -> fmt::Result {
        self.named().iter().try_for_each(|(named, across, width)| named.print(f, *across, *width))?;
        write!(f, "in turns: {}", self.instructions)
    }
}
