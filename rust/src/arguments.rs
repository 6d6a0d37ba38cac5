//! Command line options of the programs: `--name` and `--name word`. The scripts `compare`, `speed` and `stack` look at what a
//! user gave before anything is built; what reaches the programs otherwise is refused here.

use std::process::ExitCode;

use crate::boundary::STAND_IN;

/// The words after the program's name that nothing has asked for yet.
pub struct Arguments {
    words: Vec<String>,
}

/// How a program ends that can't go on.
pub fn refuse(why: &str) -> ExitCode {
    eprintln!("{why}");
    ExitCode::from(2)
}

impl Arguments {
    /// The words of this program; refused where nothing proved is linked and no stand-in was asked for.
    pub fn of_program() -> Result<Arguments, ExitCode> {
        let mut arguments = Arguments { words: std::env::args().skip(1).collect() };
        let stand_in_will_do = arguments.flag("--stand-in");
        if STAND_IN && !stand_in_will_do {
            return Err(refuse(
                "the proved library is not linked; --stand-in tries the plain C interpreter in its place",
            ));
        }
        Ok(arguments)
    }

    pub fn flag(&mut self, name: &str) -> bool {
        let at = self.words.iter().position(|word| word == name);
        at.map(|at| self.words.remove(at)).is_some()
    }

    /// The word after the name, empty where the name is the last.
    pub fn value(&mut self, name: &str) -> Option<String> {
        let at = self.words.iter().position(|word| word == name)?;
        let taken = self.words.drain(at..self.words.len().min(at + 2));
        Some(taken.skip(1).collect())
    }

    /// The number after the name, or the default where the name is not given.
    pub fn number(&mut self, name: &str, default: u64) -> Result<u64, ExitCode> {
        let Some(word) = self.value(name) else { return Ok(default) };
        word.parse().map_err(|_| refuse(&format!("{name} takes a number, not {word}")))
    }

    /// Refuses what nothing has asked for.
    pub fn end(self) -> Result<(), ExitCode> {
        self.words.first().map_or(Ok(()), |word| Err(refuse(&format!("there is no option {word}"))))
    }
}
