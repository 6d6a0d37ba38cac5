//! A second opinion on the machine.
//!
//! `model` is written from the rules alone; `boundary` is the door to the proved libraries and to the plain C
//! interpreter; the rest makes images and states, compares what the two machines do, and measures their speed and
//! their stack.

pub mod arguments;
pub mod assembler;
pub mod boundary;
pub mod budgets;
pub mod chains;
pub mod comparison;
pub mod counts;
pub mod damage;
pub mod fragments;
pub mod frames;
pub mod grower;
pub mod instruction_tally;
pub mod line_calls;
pub mod lines_tally;
pub mod memories;
pub mod model;
pub mod operands;
pub mod painted;
pub mod programs;
pub mod progress;
pub mod random;
pub mod speed_images;
pub mod speed_lines;
pub mod speed_states;
pub mod speed_tasks;
pub mod speed_work;
pub mod state_bytes;
pub mod states;
pub mod store_tally;
pub mod sum_tally;
pub mod tally;
pub mod task_chains;
pub mod throw_tally;
pub mod touches;
pub mod turn_tally;
pub mod view_tally;
