//! What the comparison has seen, so that it cannot pass by having looked at little.

use std::collections::BTreeMap;
use std::fmt;

use crate::chains::Lengths;
use crate::counts::{columns, grouped, seldom, Counted, Named};
use crate::instruction_tally::InstructionTally;
use crate::line_calls::LineCall;
use crate::lines_tally::LinesTally;
use crate::model::reach::Reach;
use crate::model::state::{Answer, Machine};
use crate::sum_tally::SumTally;
use crate::turn_tally::TurnTally;

/// Each code, answer, way of losing a level, flag before a sum or difference, last throw that is set or left, access to
/// the cells, answer of the reader, memory sum that is handed in or back, store that moves or leaves one, entry of a line,
/// instruction that has to do with one and call of the host is to be seen at least so often.
const LEAST: u64 = 500;
/// Half of the programs run for at least so many steps.
const LEAST_MEDIAN: u64 = 20;

/// What the reader answers, and which buffer a 2 is for.
const READS: [&str; 5] = ["0", "14", "2 for the memory", "2 for the state", "2 for the result"];

pub struct Tally {
    /// Of runs of one task.
    pub instructions: InstructionTally,
    answers: Named,
    /// Kinds of images, states and calls that were compared.
    kinds: BTreeMap<&'static str, u64>,
    /// Steps of each program.
    steps: Vec<u64>,
    reads: Named,
    /// Of runs of states: an image that is run hands out no sum.
    pub sums: SumTally,
    /// Of runs of states, and of what a host does between them.
    pub lines: LinesTally,
    /// Of runs of four tasks.
    pub turns: TurnTally,
}

impl Default for Tally {
    fn default() -> Tally {
        Tally {
            instructions: InstructionTally::default(),
            answers: Named::new("answers", (0..=14).chain([16])),
            kinds: BTreeMap::new(),
            steps: Vec::new(),
            reads: Named::new("images read, by the answer", READS),
            sums: SumTally::alone(),
            lines: LinesTally::alone(),
            turns: TurnTally::default(),
        }
    }
}

impl Tally {
    pub fn answer(&mut self, answer: Answer) {
        self.answers.saw(answer.number());
    }

    /// A host is about to make a call on a state of this length, of a machine alone or of a task.
    pub fn called(&mut self, reach: Reach, machine: &Machine, call: LineCall, length: usize) {
        let lines = if reach == Reach::Alone { &mut self.lines } else { &mut self.turns.lines };
        lines.called(machine, call, length);
    }

    pub fn kind(&mut self, kind: &'static str) {
        *self.kinds.entry(kind).or_default() += 1;
    }

    pub fn program(&mut self, steps: u64) {
        self.steps.push(steps);
    }

    /// An image was read into buffers of these lengths, or refused.
    pub fn read(&mut self, lengths: Lengths, refused: Option<&Answer>) {
        self.reads.saw(match refused {
            None => "0",
            Some(Answer::BadImage) => "14",
            Some(_) if lengths.memory != Lengths::OF_READ.memory => "2 for the memory",
            Some(_) if lengths.machines != Lengths::OF_READ.machines => "2 for the state",
            Some(_) => "2 for the result",
        });
    }

    fn median(&self) -> u64 {
        let mut steps = self.steps.clone();
        steps.sort_unstable();
        steps.get(steps.len() / 2).copied().unwrap_or(0)
    }

    fn kind_counts(&self) -> Vec<Counted> {
        self.kinds.iter().map(|(kind, &count)| (kind.to_string(), count)).collect()
    }

    /// The lists of names, with the columns and the width of each.
    fn named(&self) -> Vec<(&Named, usize, usize)> {
        [vec![(&self.reads, 3, 26)], self.sums.named().to_vec(), self.lines.named().to_vec()].concat()
    }

    /// What was seen too seldom; nothing where the comparison has looked at enough.
    pub fn shortfalls(&self) -> Vec<String> {
        let mut short = seldom(self.instructions.all(), LEAST);
        short.extend(self.answers.seldom(LEAST));
        if self.median() < LEAST_MEDIAN {
            short.push(format!("the median program takes {} steps, not {LEAST_MEDIAN}", self.median()));
        }
        short.extend(self.named().iter().flat_map(|(named, _, _)| named.seldom(LEAST)));
        short.extend(self.turns.shortfalls());
        short
    }
}

impl fmt::Display for Tally {
    fn fmt(&self, f: &mut fmt::Formatter<'_>) -> fmt::Result {
        columns(f, "compared", 3, 26, self.kind_counts())?;
        self.answers.print(f, 6, 10)?;
        write!(f, "{}", self.instructions)?;
        let most = self.steps.iter().max().copied().unwrap_or(0);
        writeln!(f, "steps of a program\n  median {}   most {}", grouped(self.median()), grouped(most))?;
        self.named().iter().try_for_each(|(named, across, width)| named.print(f, *across, *width))?;
        write!(f, "{}", self.turns)
    }
}
