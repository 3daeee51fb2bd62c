//! Which rule fires: each is matched by the letter of document 01's definition.

use crate::parts::{Ask, Parts, Query, Test};
use crate::state::{Buffer, State};

/// The values of variables 0 to 7, nil for those that are not bound: no variable takes nil (request 2026-01).
pub type Values = [u16; 8];

/// What an empty slot holds.
const NIL: u16 = 0;

/// The rule that fires, with the values that bind its variables.
pub struct Chosen {
    /// Its number.
    pub number: u16,
    /// Its variables.
    pub values: Values,
}

/// Matches every rule: of those that match the one of highest utility, the first among equals.
#[inline]
pub fn choose(parts: &Parts, state: &State) -> Option<Chosen> {
    let mut best = None;
    let mut chosen = None;
    for (number, rule) in parts.rules.iter().enumerate() {
        let Some(values) = bind(parts.tests(rule), state) else { continue };
        if !parts.queries(rule).iter().all(|query| holds(query, state)) {
            continue;
        }
        if best < Some(rule.utility) {
            best = Some(rule.utility);
            chosen = Some(Chosen { number: number as u16, values });
        }
    }
    chosen
}

/// The values by which all tests of a rule hold; the whole rule is given up at the first slot that differs.
#[inline]
fn bind(tests: &[Test], state: &State) -> Option<Values> {
    let mut values = [NIL; 8];
    for test in tests {
        let buffer = &state.buffers[usize::from(test.buffer)];
        if buffer.delay != 0 || buffer.isa != u16::from(test.isa) {
            return None;
        }
        for (slot, term) in test.pattern.packed() {
            let found = buffer.slots[slot];
            // The term of a variable is above every value, and so is none of them.
            if found != term.0 && !term.variable().is_some_and(|variable| takes(&mut values[variable], found)) {
                return None;
            }
        }
    }
    Some(values)
}

/// Whether a query holds: busy with a delay above 0, free without one, error if the flag of a visible buffer is set.
#[inline]
fn holds(query: &Query, state: &State) -> bool {
    let Buffer { delay, error, .. } = state.buffers[usize::from(query.buffer)];
    match query.asks {
        Ask::Busy => delay > 0,
        Ask::Free => delay == 0,
        Ask::Error => delay == 0 && error,
    }
}

/// A variable takes what it finds at its first place, and must find the same at the others; nil it never takes.
#[inline]
fn takes(value: &mut u16, found: u16) -> bool {
    if *value == NIL {
        *value = found;
    }
    *value == found && found != NIL
}
