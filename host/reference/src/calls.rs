//! The calls with their numbers, on images and on decoded models.

use crate::board::Board;
use crate::decode::decode_parts;
use crate::learning::Learner;
use crate::matching::Known;
use crate::model::Model;
use crate::refusal::Refusal;
use crate::state::{Buffer, State};
use crate::step::{Runner, Step};
use crate::store::{facts_in, UNFIT};
use crate::WORDS;

/// A step that was made and the clock after it.
#[derive(Clone, Copy, PartialEq, Eq, Debug)]
pub struct Event {
    /// The clock after the step.
    pub clock: u32,
    /// What was done.
    pub kind: Kind,
}

/// The kinds of steps that are made.
#[derive(Clone, Copy, PartialEq, Eq, Debug)]
pub enum Kind {
    /// The rule with this number fired.
    Fire(u16),
    /// This many ms were waited.
    Wait(u16),
}

/// The words that the table of an image needs, 9 for each rule: the number, the position and the words, none if refused.
pub fn table_len(image: &[u8]) -> (u8, u32, usize) {
    match decode_parts(image) {
        Ok(parts) => (0, 0, WORDS * parts.rules.len()),
        Err(Refusal { number, at }) => (number, at, 0),
    }
}

/// Opens an image: the number, the position, the opening state, and the fresh table if accepted.
pub fn open(image: &[u8], table: &mut [u16]) -> (u8, u32, State) {
    match Model::decode(image) {
        Ok(model) => {
            let (number, state) = model.open(table);
            (number, 0, state)
        }
        Err(Refusal { number, at }) => (number, at, State::default()),
    }
}

/// Runs up to `steps` steps: the number, the position, the state and the steps made.
pub fn run(image: &[u8], state: State, table: &mut [u16], steps: u16) -> (u8, u32, State, u16) {
    run_lent(image, state, table, steps, None)
}

/// The same, where a store may be lent.
pub fn run_lent(
    image: &[u8],
    state: State,
    table: &mut [u16],
    steps: u16,
    store: Option<&mut [u16]>,
) -> (u8, u32, State, u16) {
    match Model::decode(image) {
        Ok(model) => {
            let (number, after, made) = model.run_lent(state, table, steps, store);
            (number, 0, after, made)
        }
        Err(Refusal { number, at }) => (number, at, state, 0),
    }
}

/// Refreshes the entries of rules that test or query a marked buffer: the number, the position and how many these are.
pub fn refresh(image: &[u8], state: &State, mark: u16, table: &mut [u16]) -> (u8, u32, u16) {
    match Model::decode(image) {
        Ok(model) => {
            let (number, count) = model.refresh(state, mark, table);
            (number, 0, count)
        }
        Err(Refusal { number, at }) => (number, at, 0),
    }
}

/// A run that also tells each step.
pub fn trace(image: &[u8], state: State, table: &mut [u16], steps: u16) -> (u8, u32, State, Vec<Event>) {
    trace_lent(image, state, table, steps, None)
}

/// The same, where a store may be lent.
pub fn trace_lent(
    image: &[u8],
    state: State,
    table: &mut [u16],
    steps: u16,
    store: Option<&mut [u16]>,
) -> (u8, u32, State, Vec<Event>) {
    match Model::decode(image) {
        Ok(model) => {
            let (number, after, events) = model.trace_lent(state, table, steps, store);
            (number, 0, after, events)
        }
        Err(Refusal { number, at }) => (number, at, state, Vec::new()),
    }
}

impl Model {
    /// The opening chunks, all visible, with clear error flags, at clock 0.
    pub fn open_state(&self) -> State {
        let mut state = State::default();
        for (buffer, chunk) in state.buffers.iter_mut().zip(self.opening()) {
            *buffer = Buffer { isa: u16::from(chunk.isa), slots: chunk.slots, ..Buffer::default() };
        }
        state
    }

    /// Whether a state is well formed for this model.
    pub fn is_well_formed(&self, state: &State) -> bool {
        self.parts.is_well_formed(state)
    }

    /// `open` on a decoded model.
    pub fn open(&self, table: &mut [u16]) -> (u8, State) {
        if table.len() != self.table_len() {
            return (5, State::default());
        }
        let state = self.open_state();
        self.write_fresh(&state, table);
        (0, state)
    }

    /// `run` on a decoded model.
    pub fn run(&self, state: State, table: &mut [u16], steps: u16) -> (u8, State, u16) {
        self.run_lent(state, table, steps, None)
    }

    /// `run_lent` on a decoded model.
    pub fn run_lent(&self, state: State, table: &mut [u16], steps: u16, store: Option<&mut [u16]>) -> (u8, State, u16) {
        self.run_telling(state, table, steps, store, |_| ())
    }

    /// `trace` on a decoded model.
    pub fn trace(&self, state: State, table: &mut [u16], steps: u16) -> (u8, State, Vec<Event>) {
        self.trace_lent(state, table, steps, None)
    }

    /// `trace_lent` on a decoded model.
    pub fn trace_lent(
        &self,
        state: State,
        table: &mut [u16],
        steps: u16,
        store: Option<&mut [u16]>,
    ) -> (u8, State, Vec<Event>) {
        let mut events = Vec::new();
        let (number, state, _) = self.run_telling(state, table, steps, store, |event| events.push(event));
        (number, state, events)
    }

    /// `refresh` on a decoded model.
    pub fn refresh(&self, state: &State, mark: u16, table: &mut [u16]) -> (u8, u16) {
        if let Some(number) = self.refusal(state, table) {
            return (number, 0);
        }
        if mark >> self.buffers() != 0 {
            return (10, 0);
        }
        let (entries, _) = table.as_chunks_mut::<WORDS>();
        let board = Board::new(&self.plan, state);
        (0, self.plan.refresh(&board, mark as u8, entries, &mut Known::default()))
    }

    /// The number with which a table or a state is refused, 5 before 6.
    fn refusal(&self, state: &State, table: &[u16]) -> Option<u8> {
        if table.len() != self.table_len() {
            Some(5)
        } else if !self.is_well_formed(state) {
            Some(6)
        } else {
            None
        }
    }

    /// The loop of every run; each step made is told.
    #[inline]
    fn run_telling(
        &self,
        state: State,
        table: &mut [u16],
        steps: u16,
        store: Option<&mut [u16]>,
        mut tell: impl FnMut(Event),
    ) -> (u8, State, u16) {
        if let Some(number) = self.refusal(&state, table) {
            return (number, state, 0);
        }
        let learner = match store {
            None => None,
            Some(words) => match facts_in(&self.parts.types, words) {
                Some(facts) => Some(Learner::new(words, &facts)),
                None => return (UNFIT, state, 0),
            },
        };
        let mut runner = Runner::new(self, &state, table, learner);
        for made in 0..steps {
            let kind = match runner.step() {
                Step::Fire(rule) => Kind::Fire(rule),
                Step::Wait(ms) => Kind::Wait(ms),
                Step::Stop(number) => return (number, runner.state(), made),
            };
            tell(Event { clock: runner.clock(), kind });
        }
        (0, runner.state(), steps)
    }
}
