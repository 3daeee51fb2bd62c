//! The proved library's calls in the reference engine's types.

use jirvuntsag_proved as proved;
use jirvuntsag_proved::{calls, Number};
use jirvuntsag_reference::{Buffer, Event, Kind, State};

use crate::{Needed, Opened, Ran, Refreshed, Told};

/// A state for the proved library.
fn to_proved(state: &State) -> proved::State {
    let buffer = |Buffer { isa, slots, delay, error }: Buffer| proved::Buffer { isa, slots, delay, error };
    proved::State { buffers: state.buffers.map(buffer), clock: state.clock }
}

/// A state of the proved library.
fn from_proved(state: &proved::State) -> State {
    let buffer = |proved::Buffer { isa, slots, delay, error }: proved::Buffer| Buffer { isa, slots, delay, error };
    State { buffers: state.buffers.map(buffer), clock: state.clock }
}

/// A step that the proved library tells.
fn event(event: &proved::Event) -> Event {
    let kind = match event.step {
        proved::Step::Fire { rule } => Kind::Fire(rule),
        proved::Step::Wait { ms } => Kind::Wait(ms),
    };
    Event { clock: event.clock, kind }
}

/// The number, the position and the words of an image's table.
pub fn table_len(image: &[u8]) -> Needed {
    calls::table_length(image).map_or_else(|refusal| (refusal.number(), refusal.position(), 0), |words| (0, 0, words))
}

/// The number, the position and the opening state.
pub fn open(image: &[u8], table: &mut [u16]) -> Opened {
    let (number, state) = calls::open(image, table);
    (number.number(), number.position(), from_proved(&state))
}

/// A run that the proved library answered.
fn ran((number, state, made): (Number, proved::State, u16)) -> Ran {
    (number.number(), number.position(), from_proved(&state), made)
}

/// A traced run that the proved library answered.
fn traced((number, state, events): (Number, proved::State, Vec<proved::Event>)) -> Told {
    (number.number(), number.position(), from_proved(&state), events.iter().map(event).collect())
}

/// The number, the position, the state and the steps made.
pub fn run(image: &[u8], state: State, table: &mut [u16], steps: u16) -> Ran {
    ran(calls::run(image, &to_proved(&state), table, steps))
}

/// The number, the position, the state and each step.
pub fn trace(image: &[u8], state: State, table: &mut [u16], steps: u16) -> Told {
    traced(calls::trace(image, &to_proved(&state), table, steps))
}

/// The number, the position, the state and the steps made, without a table.
pub fn run_fresh(image: &[u8], state: State, steps: u16) -> Ran {
    ran(calls::run_fresh(image, &to_proved(&state), steps))
}

/// The number, the position, the state and each step, without a table.
pub fn trace_fresh(image: &[u8], state: State, steps: u16) -> Told {
    traced(calls::trace_fresh(image, &to_proved(&state), steps))
}

/// The number, the position, the state and the steps made, where a store may be lent.
pub fn run_lent(image: &[u8], state: State, table: &mut [u16], steps: u16, store: Option<&mut [u16]>) -> Ran {
    ran(calls::run_lent(image, &to_proved(&state), table, steps, store))
}

/// The number, the position, the state and each step, where a store may be lent.
pub fn trace_lent(image: &[u8], state: State, table: &mut [u16], steps: u16, store: Option<&mut [u16]>) -> Told {
    traced(calls::trace_lent(image, &to_proved(&state), table, steps, store))
}

/// The number, the position, the state and the steps made, without a table, where a store may be lent.
pub fn run_fresh_lent(image: &[u8], state: State, steps: u16, store: Option<&mut [u16]>) -> Ran {
    ran(calls::run_fresh_lent(image, &to_proved(&state), steps, store))
}

/// The number, the position, the state and each step, without a table, where a store may be lent.
pub fn trace_fresh_lent(image: &[u8], state: State, steps: u16, store: Option<&mut [u16]>) -> Told {
    traced(calls::trace_fresh_lent(image, &to_proved(&state), steps, store))
}

/// The number, the position and the count.
pub fn refresh(image: &[u8], state: &State, mark: u16, table: &mut [u16]) -> Refreshed {
    let (number, count) = calls::refresh(image, &to_proved(state), mark, table);
    (number.number(), number.position(), count)
}
