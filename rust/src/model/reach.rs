//! Who may touch which byte of memory.

use std::ops::Range;

pub const TASKS: usize = 4;
/// Memory below this is every task's; the private parts stand above it, task 0's first.
pub const SHARED: usize = 16_384;
/// Bytes of one task's private part.
pub const PART: usize = 4_096;

#[derive(Clone, Copy, Debug, PartialEq, Eq)]
pub enum Reach {
    /// The one task of a run of one: all of memory.
    Alone,
    /// The task of this number among four: what is shared, and its own part.
    Task(usize),
}

impl Reach {
    /// Lines enter one machine: that which is alone, or task 0.
    pub fn has_lines(self) -> bool {
        matches!(self, Reach::Alone | Reach::Task(0))
    }

    /// Whether none of these bytes of memory is in another task's part.
    pub fn allows(self, mut bytes: Range<usize>) -> bool {
        match self {
            Reach::Alone => true,
            Reach::Task(number) => bytes.all(|address| owner(address).is_none_or(|owner| owner == number)),
        }
    }
}

/// The task in whose part a byte of memory lies.
fn owner(address: usize) -> Option<usize> {
    address.checked_sub(SHARED).map(|above| above / PART)
}
