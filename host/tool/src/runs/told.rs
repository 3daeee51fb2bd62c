//! What a call that makes steps tells.

use jirvuntsag_proved::{Chunk, Event, Number, State};

/// What a call answered and left.
pub struct Told {
    /// Why it made no more steps.
    pub number: Number,
    /// The state after the steps made.
    pub state: State,
    /// The steps made.
    pub count: u16,
    /// What each step did, if it was asked for.
    pub events: Vec<Event>,
    /// What is learned after them, in the order learned.
    pub learned: Vec<Chunk>,
}

/// What makes steps, from where it stands.
pub trait Steps {
    /// Makes at most so many steps.
    fn run(&mut self, steps: u16) -> Told;

    /// The same, and tells each of them.
    fn trace(&mut self, steps: u16) -> Told;
}
