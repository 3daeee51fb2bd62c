//! How far a long comparison is.

use std::time::{Duration, Instant};

/// The time after which a line says that it goes on.
const QUIET: Duration = Duration::from_secs(5);

/// Tells on standard error how many steps are compared; nothing of a run that is short.
pub struct Progress {
    all: u16,
    last: Instant,
    has_said: bool,
}

impl Progress {
    /// Of so many steps at most.
    pub fn of(all: u16) -> Progress {
        Progress { all, last: Instant::now(), has_said: false }
    }

    /// So many steps are the same.
    pub fn at(&mut self, made: u16) {
        if self.last.elapsed() >= QUIET {
            eprintln!("  {made} of at most {} steps are the same", self.all);
            (self.last, self.has_said) = (Instant::now(), true);
        }
    }

    /// All are, and what is left takes about as long.
    pub fn all_at_once(&self) {
        if self.has_said {
            eprintln!("  step by step all is the same; now in one call");
        }
    }
}
