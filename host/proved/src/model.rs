//! A model that was opened, and its runs.

use crate::calls;
use crate::number::{End, Number, Refusal};
use crate::state::{Event, State};
use crate::store::Store;
use crate::table::Table;

/// A model: an image that was accepted.
#[derive(Clone, Copy, PartialEq, Eq, Debug)]
pub struct Model<'a> {
    image: &'a [u8],
}

/// A run that was made.
#[derive(Clone, Copy, PartialEq, Eq, Debug)]
pub struct Ran {
    /// Why it made no more steps.
    pub end: End,
    /// The state after the steps made.
    pub state: State,
    /// The steps made.
    pub made: u16,
}

impl<'a> Model<'a> {
    /// Opens an image: the model, its opening state and the fresh table of that state.
    pub fn open(image: &'a [u8]) -> Result<(Model<'a>, State, Table), Refusal> {
        let mut table = Table::from_words(vec![0; calls::table_length(image)?]);
        let (number, state) = calls::open(image, table.words_mut());
        number.ended().map(|_| (Model { image }, state, table))
    }

    /// The image.
    pub fn image(&self) -> &'a [u8] {
        self.image
    }

    /// Runs at most `steps` steps from a state, and keeps the table. A refused run leaves the table as it was.
    pub fn run(&self, state: State, table: &mut Table, steps: u16) -> Result<Ran, Refusal> {
        ran(calls::run(self.image, &state, table.words_mut(), steps))
    }

    /// Runs as [`Model::run`] does, and tells each step made.
    pub fn trace(&self, state: State, table: &mut Table, steps: u16) -> Result<(Ran, Vec<Event>), Refusal> {
        told(calls::trace(self.image, &state, table.words_mut(), steps))
    }

    /// Makes the entries of the rules that test or query a marked buffer afresh, and gives how many these are.
    /// Buffer b has weight 2 to the power b in `mark`. A refused refresh leaves the table as it was.
    pub fn refresh(&self, state: &State, mark: u16, table: &mut Table) -> Result<u16, Refusal> {
        let (number, count) = calls::refresh(self.image, state, mark, table.words_mut());
        number.ended().map(|_| count)
    }

    /// Runs at most `steps` steps from a state and keeps nothing: every rule is matched afresh at each step. What it gives
    /// is what [`Model::run`] gives that is handed the fresh table of the state. It never ends by [`End::Stale`].
    pub fn run_fresh(&self, state: State, steps: u16) -> Result<Ran, Refusal> {
        ran(calls::run_fresh(self.image, &state, steps))
    }

    /// Runs as [`Model::run_fresh`] does, and tells each step made.
    pub fn trace_fresh(&self, state: State, steps: u16) -> Result<(Ran, Vec<Event>), Refusal> {
        told(calls::trace_fresh(self.image, &state, steps))
    }

    /// Runs as [`Model::run`] does, where a store may be lent: a chunk that a rule clears from a visible buffer joins it, and
    /// requests find what is there after the facts of the image. A refused run leaves table and store as they were; a run that
    /// ends by [`End::StoreFull`] has made the steps before the one for whose chunks there is no place.
    pub fn run_lent(
        &self,
        state: State,
        table: &mut Table,
        steps: u16,
        store: Option<&mut Store>,
    ) -> Result<Ran, Refusal> {
        ran(calls::run_lent(self.image, &state, table.words_mut(), steps, store.map(Store::words_mut)))
    }

    /// Runs as [`Model::run_lent`] does, and tells each step made.
    pub fn trace_lent(
        &self,
        state: State,
        table: &mut Table,
        steps: u16,
        store: Option<&mut Store>,
    ) -> Result<(Ran, Vec<Event>), Refusal> {
        told(calls::trace_lent(self.image, &state, table.words_mut(), steps, store.map(Store::words_mut)))
    }

    /// Runs as [`Model::run_fresh`] does, where a store may be lent. It gives and leaves in the store what
    /// [`Model::run_lent`] does that is handed the fresh table of the state and the same store.
    pub fn run_fresh_lent(&self, state: State, steps: u16, store: Option<&mut Store>) -> Result<Ran, Refusal> {
        ran(calls::run_fresh_lent(self.image, &state, steps, store.map(Store::words_mut)))
    }

    /// Runs as [`Model::run_fresh_lent`] does, and tells each step made.
    pub fn trace_fresh_lent(
        &self,
        state: State,
        steps: u16,
        store: Option<&mut Store>,
    ) -> Result<(Ran, Vec<Event>), Refusal> {
        told(calls::trace_fresh_lent(self.image, &state, steps, store.map(Store::words_mut)))
    }
}

/// A traced run as its types: the steps made are as many as were told.
fn told((number, state, events): (Number, State, Vec<Event>)) -> Result<(Ran, Vec<Event>), Refusal> {
    let made = events.len() as u16;
    number.ended().map(|end| (Ran { end, state, made }, events))
}

/// A run as its types.
fn ran((number, state, made): (Number, State, u16)) -> Result<Ran, Refusal> {
    number.ended().map(|end| Ran { end, state, made })
}
