//! How far the measuring is.

use crate::models::Measured;

/// Tells on standard error what is being measured: each takes seconds, and the tables may go to a file.
pub struct Progress {
    done: usize,
    all: usize,
}

impl Progress {
    /// Of so many in all.
    pub fn of(all: usize) -> Progress {
        Progress { done: 0, all }
    }

    /// The next begins, which is of a model.
    pub fn next(&mut self, what: &str, model: &Measured) {
        self.tell(&format!("{what}, {}", model.name));
    }

    /// The next begins.
    pub fn tell(&mut self, what: &str) {
        self.done += 1;
        eprintln!("{} of {}: {what}", self.done, self.all);
    }
}
