//! The proved library, by either of its engines.

use jirvuntsag_proved::{calls, Event, Number, Refusal, Store};
pub use jirvuntsag_proved::{Buffer, State, Step};
use jirvuntsag_text::Model;

use super::told::{Steps, Told};
use crate::arguments::Arguments;
use crate::failure::Failure;

/// Words of a rule's entry in the table; the first is 1 if the rule matches.
const ENTRY: usize = 9;

/// Which of the two engines makes the steps.
#[derive(Clone, Copy)]
pub enum Engine {
    /// The one that keeps the matches of all rules in a table.
    Kept,
    /// The one that keeps nothing, and matches every rule afresh at each step.
    Fresh,
}

impl Engine {
    /// The engine that is asked for: by `--fresh` the one that keeps nothing.
    pub fn asked(arguments: &Arguments) -> Engine {
        if arguments.flag("--fresh") {
            Engine::Fresh
        } else {
            Engine::Kept
        }
    }
}

/// A run under way. It begins with an empty store, as a printed run does, and learns.
#[derive(Clone)]
pub struct Run {
    image: Vec<u8>,
    buffers: usize,
    rules: usize,
    /// The kept table, if the engine keeps one.
    table: Option<Vec<u16>>,
    /// The state after the steps made.
    pub state: State,
    /// What they learned.
    pub store: Store,
}

impl Run {
    /// Opens a model for an engine.
    pub fn open(model: &Model, engine: Engine) -> Result<Run, Failure> {
        let (image, buffers, rules) = (model.image(), model.spec().opening.len(), model.spec().rules.len());
        // it is a model, so its image is one that opens
        let refused = |refusal: Refusal| Failure::refused(format!("the library refuses the image: {refusal}"));
        let mut table = vec![0; calls::table_length(&image).map_err(refused)?];
        let (number, state) = calls::open(&image, &mut table);
        number.ended().map_err(refused)?;
        let table = matches!(engine, Engine::Kept).then_some(table);
        Ok(Run { image, buffers, rules, table, state, store: Store::new() })
    }

    /// Makes a step and says what it was, or gives the number with which none is made.
    pub fn step(&mut self) -> Result<Step, Number> {
        let Told { number, events, .. } = self.trace(1);
        events.first().map(|event: &Event| event.step).ok_or(number)
    }

    /// Whether each rule matches now: by the kept table, or, where none is kept, by one that is made for this answer alone.
    pub fn matching(&self) -> Vec<bool> {
        let table = self.table.clone().unwrap_or_else(|| self.fresh_table());
        table.chunks_exact(ENTRY).map(|entry| entry[0] == 1).collect()
    }

    /// The fresh table of the state: every rule tests or queries a buffer, and all are marked.
    fn fresh_table(&self) -> Vec<u16> {
        let mut table = vec![0; ENTRY * self.rules];
        calls::refresh(&self.image, &self.state, (1 << self.buffers) - 1, &mut table);
        table
    }
}

impl Steps for Run {
    fn run(&mut self, steps: u16) -> Told {
        let store = Some(self.store.words_mut());
        let (number, state, count) = match &mut self.table {
            Some(table) => calls::run_lent(&self.image, &self.state, table, steps, store),
            None => calls::run_fresh_lent(&self.image, &self.state, steps, store),
        };
        self.state = state;
        Told { number, state, count, events: Vec::new(), learned: self.store.facts().collect() }
    }

    fn trace(&mut self, steps: u16) -> Told {
        let store = Some(self.store.words_mut());
        let (number, state, events) = match &mut self.table {
            Some(table) => calls::trace_lent(&self.image, &self.state, table, steps, store),
            None => calls::trace_fresh_lent(&self.image, &self.state, steps, store),
        };
        self.state = state;
        Told { number, state, count: events.len() as u16, events, learned: self.store.facts().collect() }
    }
}
