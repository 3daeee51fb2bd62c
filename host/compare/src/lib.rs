//! Two engines in one shape, so that both can be handed the same and held to the same.

mod by_hand;
mod cases;
mod fresh;
mod printing;
mod proved;
mod same;

pub use by_hand::{always_fires, buffer, failed, state, P1};
pub use cases::{cases, Case};
pub use fresh::{hold_fresh, hold_fresh_to, hold_lent};
pub use same::{hold_same, opening, Numbered};

use jirvuntsag_reference as reference;
use jirvuntsag_reference::{Event, State};

/// Number, position and the words that a table needs.
pub type Needed = (u8, u32, usize);
/// Number, position and opening state.
pub type Opened = (u8, u32, State);
/// Number, position, state and steps made.
pub type Ran = (u8, u32, State, u16);
/// Number, position, state and each step.
pub type Told = (u8, u32, State, Vec<Event>);
/// Number, position and count of refreshed rules.
pub type Refreshed = (u8, u32, u16);
/// An opening.
type Opens = fn(&[u8], &mut [u16]) -> Opened;
/// A run that is lent a table, by what it answers.
type Runs<Answer> = fn(&[u8], State, &mut [u16], u16) -> Answer;
/// A run without a table, by what it answers.
type RunsFresh<Answer> = fn(&[u8], State, u16) -> Answer;
/// A run that is lent a table, and a store or none.
type RunsLent<Answer> = fn(&[u8], State, &mut [u16], u16, Option<&mut [u16]>) -> Answer;
/// A run without a table that is lent a store or none.
type RunsFreshLent<Answer> = fn(&[u8], State, u16, Option<&mut [u16]>) -> Answer;
/// A refresh with a mark.
type Refreshes = fn(&[u8], &State, u16, &mut [u16]) -> Refreshed;

/// The calls of an engine. Each answers a number and the position of the refused field, 0 if it is about no field.
pub struct Engine {
    /// What a failing test calls it.
    pub name: &'static str,
    /// Words of an image's table, 0 if the image is refused.
    pub table_len: fn(&[u8]) -> Needed,
    /// The opening state; the table is written.
    pub open: Opens,
    /// The state and the steps made; the table is written.
    pub run: Runs<Ran>,
    /// The state and each step; the table is written.
    pub trace: Runs<Told>,
    /// The state and the steps made, without a table.
    pub run_fresh: RunsFresh<Ran>,
    /// The state and each step, without a table.
    pub trace_fresh: RunsFresh<Told>,
    /// The state and the steps made; the table is written, and a store if it is lent.
    pub run_lent: RunsLent<Ran>,
    /// The state and each step; the table is written, and a store if it is lent.
    pub trace_lent: RunsLent<Told>,
    /// The state and the steps made, without a table; a store is written if it is lent.
    pub run_fresh_lent: RunsFreshLent<Ran>,
    /// The state and each step, without a table; a store is written if it is lent.
    pub trace_fresh_lent: RunsFreshLent<Told>,
    /// The count of refreshed rules; the table is written.
    pub refresh: Refreshes,
    /// The lines of the printing program.
    pub print: fn(&[u8]) -> String,
}

impl Engine {
    /// A table of zeros, as long as an image needs it; of no words if the image is refused.
    pub fn zeros(&self, image: &[u8]) -> Vec<u16> {
        vec![0; (self.table_len)(image).2]
    }
}

/// The reference engine.
pub const REFERENCE: Engine = Engine {
    name: "reference",
    table_len: reference::table_len,
    open: reference::open,
    run: reference::run,
    trace: reference::trace,
    run_fresh: reference::run_fresh,
    trace_fresh: reference::trace_fresh,
    run_lent: reference::run_lent,
    trace_lent: reference::trace_lent,
    run_fresh_lent: reference::run_fresh_lent,
    trace_fresh_lent: reference::trace_fresh_lent,
    refresh: reference::refresh,
    print: reference::print,
};

/// The proved library.
pub const PROVED: Engine = Engine {
    name: "proved",
    table_len: proved::table_len,
    open: proved::open,
    run: proved::run,
    trace: proved::trace,
    run_fresh: proved::run_fresh,
    trace_fresh: proved::trace_fresh,
    run_lent: proved::run_lent,
    trace_lent: proved::trace_lent,
    run_fresh_lent: proved::run_fresh_lent,
    trace_fresh_lent: proved::trace_fresh_lent,
    refresh: proved::refresh,
    print: printing::print_proved,
};

/// Both of them.
pub const BOTH: [&Engine; 2] = [&PROVED, &REFERENCE];
