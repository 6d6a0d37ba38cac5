//! The rules of the machine, as a reader of the rules would write them down.
//!
//! Clarity decides here, not speed: what an instruction needs is tested first, in one list in the order of the answer
//! numbers, and only then is it carried out, with no test left to make.

pub mod bench;
pub mod codes;
#[cfg(test)]
mod edges;
pub mod entry;
pub mod host;
pub mod image;
#[cfg(test)]
mod last_throw;
#[cfg(test)]
mod lines;
pub mod links;
pub mod observer;
pub mod place;
pub mod reach;
pub mod refusal;
pub mod run;
#[cfg(test)]
mod seams;
#[cfg(test)]
mod sheet;
pub mod state;
pub mod step;
pub mod sum;
#[cfg(test)]
mod sums;
pub mod tasks;
pub mod turn;
#[cfg(test)]
mod turns;
#[cfg(test)]
mod view;
pub mod word;
