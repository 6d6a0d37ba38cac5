//! A sign of life on standard error while there is much to do.

use std::time::{Duration, Instant};

use crate::counts::grouped;

const EVERY: Duration = Duration::from_secs(5);

pub struct Progress {
    what: &'static str,
    all: u64,
    told: Instant,
}

impl Progress {
    pub fn new(what: &'static str, all: u64) -> Progress {
        Progress { what, all, told: Instant::now() }
    }

    /// Tells how many are done, unless it was told just now.
    pub fn done(&mut self, count: u64) {
        if self.told.elapsed() >= EVERY {
            eprintln!("{} of {} {}", grouped(count), grouped(self.all), self.what);
            self.told = Instant::now();
        }
    }
}
