//! The run that keeps nothing (request 2026-02): it takes no table, and matches every rule afresh at each step.
//!
//! With the kept run it has the decoded image and the checks of a state and a store in common, and nothing else: steps, matches,
//! choice, firings, retrieval, waits and what is learned are its own, on the state as it was handed in.

mod firing;
mod learning;
mod matching;

use crate::calls::{Event, Kind};
use crate::decode::decode_parts;
use crate::model::Model;
use crate::parts::Parts;
use crate::refusal::Refusal;
use crate::state::State;
use crate::store;
use crate::FIRING;
use learning::Learning;

/// The state is not well formed.
const UNFIT: u8 = 6;
/// The clock would pass its largest value.
const CLOCK_FULL: u8 = 8;
/// No rule matches, and nothing is pending.
const HALTED: u8 = 9;

/// Runs up to `steps` steps without a table: the number, the position, the state and the steps made.
pub fn run_fresh(image: &[u8], state: State, steps: u16) -> (u8, u32, State, u16) {
    run_fresh_lent(image, state, steps, None)
}

/// The same, where a store may be lent.
pub fn run_fresh_lent(image: &[u8], state: State, steps: u16, store: Option<&mut [u16]>) -> (u8, u32, State, u16) {
    match decode_parts(image) {
        Ok(parts) => {
            let (number, after, made) = run_telling(&parts, state, steps, store, |_| ());
            (number, 0, after, made)
        }
        Err(Refusal { number, at }) => (number, at, state, 0),
    }
}

/// A run without a table that also tells each step.
pub fn trace_fresh(image: &[u8], state: State, steps: u16) -> (u8, u32, State, Vec<Event>) {
    trace_fresh_lent(image, state, steps, None)
}

/// The same, where a store may be lent.
pub fn trace_fresh_lent(
    image: &[u8],
    state: State,
    steps: u16,
    store: Option<&mut [u16]>,
) -> (u8, u32, State, Vec<Event>) {
    match decode_parts(image) {
        Ok(parts) => {
            let (number, after, events) = trace_parts(&parts, state, steps, store);
            (number, 0, after, events)
        }
        Err(Refusal { number, at }) => (number, at, state, Vec::new()),
    }
}

impl Model {
    /// `run_fresh` on a decoded model.
    pub fn run_fresh(&self, state: State, steps: u16) -> (u8, State, u16) {
        self.run_fresh_lent(state, steps, None)
    }

    /// `run_fresh_lent` on a decoded model.
    pub fn run_fresh_lent(&self, state: State, steps: u16, store: Option<&mut [u16]>) -> (u8, State, u16) {
        run_telling(&self.parts, state, steps, store, |_| ())
    }

    /// `trace_fresh` on a decoded model.
    pub fn trace_fresh(&self, state: State, steps: u16) -> (u8, State, Vec<Event>) {
        self.trace_fresh_lent(state, steps, None)
    }

    /// `trace_fresh_lent` on a decoded model.
    pub fn trace_fresh_lent(&self, state: State, steps: u16, store: Option<&mut [u16]>) -> (u8, State, Vec<Event>) {
        trace_parts(&self.parts, state, steps, store)
    }
}

/// Runs, and gathers the steps.
fn trace_parts(parts: &Parts, state: State, steps: u16, store: Option<&mut [u16]>) -> (u8, State, Vec<Event>) {
    let mut events = Vec::new();
    let (number, state, _) = run_telling(parts, state, steps, store, |event| events.push(event));
    (number, state, events)
}

/// Steps until all are made or one cannot be; each step made is told.
fn run_telling(
    parts: &Parts,
    mut state: State,
    steps: u16,
    store: Option<&mut [u16]>,
    mut tell: impl FnMut(Event),
) -> (u8, State, u16) {
    if !parts.is_well_formed(&state) {
        return (UNFIT, state, 0);
    }
    let mut learning = Learning::default();
    if let Some(words) = store {
        match store::facts_in(&parts.types, words) {
            Some(chunks) => learning = Learning::new(words, chunks),
            None => return (store::UNFIT, state, 0),
        }
    }
    for made in 0..steps {
        match step(parts, &mut learning, &mut state) {
            Ok(kind) => tell(Event { clock: state.clock, kind }),
            Err(number) => return (number, state, made),
        }
    }
    (0, state, steps)
}

/// Fires the chosen rule or waits; or gives the number by which no step is made, and leaves state and store.
fn step(parts: &Parts, learning: &mut Learning, state: &mut State) -> Result<Kind, u8> {
    let Some(chosen) = matching::choose(parts, state) else {
        return wait(state);
    };
    // A full clock is told before a full store, and either leaves the state.
    state.clock.checked_add(u32::from(FIRING)).ok_or(CLOCK_FULL)?;
    let rule = &parts.rules[usize::from(chosen.number)];
    let brought = learning.brought(parts, parts.actions(rule), state)?;
    pass(state, FIRING)?;
    firing::act(parts, &learning.facts, &chosen, state);
    learning.learn(brought);
    Ok(Kind::Fire(chosen.number))
}

/// Waits for the smallest delay above 0.
fn wait(state: &mut State) -> Result<Kind, u8> {
    let pending = state.buffers.iter().map(|buffer| buffer.delay).filter(|&delay| delay > 0);
    let nearest = pending.min().ok_or(HALTED)?;
    pass(state, nearest)?;
    Ok(Kind::Wait(nearest))
}

/// Lets ms pass: the clock rises, and delays fall, not below 0.
fn pass(state: &mut State, ms: u16) -> Result<(), u8> {
    state.clock = state.clock.checked_add(u32::from(ms)).ok_or(CLOCK_FULL)?;
    for buffer in &mut state.buffers {
        buffer.delay = buffer.delay.saturating_sub(ms);
    }
    Ok(())
}
