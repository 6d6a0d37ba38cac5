//! The text of the bench program.

use std::fmt::Write;

use super::image::{load_image, Loaded};
use super::observer::Observer;
use super::run::{run, Outcome};
use super::state::{Answer, LastThrow, Machine};

/// What became of an image: the text, and the run's outcome where there was a run.
pub struct Bench {
    pub text: String,
    pub outcome: Result<Outcome, Answer>,
}

impl Bench {
    /// The run's answer, or the one that kept it from running.
    pub fn answer(&self) -> Answer {
        self.outcome.map_or_else(|refused| refused, |outcome| outcome.answer)
    }
}

/// Reads the image, runs it and writes the report.
pub fn bench(image: &[u8], memory: &mut [u8], observer: &mut impl Observer) -> Bench {
    match load_image(image, memory) {
        Ok(Loaded { mut machine, budget, sum }) => {
            let outcome = run(&mut machine, memory, budget, sum, observer);
            Bench { text: report(&machine, outcome), outcome: Ok(outcome) }
        }
        Err(answer) => Bench { text: format!("{}\n", answer.number()), outcome: Err(answer) },
    }
}

/// The sum is not told.
fn report(machine: &Machine, outcome: Outcome) -> String {
    let Outcome { answer, steps, cycles, .. } = outcome;
    let Machine { program_counter, p, r, s, e, last_throw: LastThrow { address, code }, .. } = machine;
    let mut text = format!("{} {steps} {cycles} {program_counter} {p} {r} {s} {e} {address} {code}\n", answer.number());
    for cell in &machine.parameters[..machine.p] {
        // Writing to a string cannot fail.
        let _ = writeln!(text, "{cell:08X}");
    }
    text
}
