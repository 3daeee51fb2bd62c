//! What the printing program writes.

use std::fmt::Write;

use crate::calls::Kind;
use crate::model::Model;
use crate::STORE_WORDS;

/// Most steps of a printed run.
pub const PRINTED_STEPS: u16 = 1_000;

/// The lines that the printing program writes for this standard input. It lends an empty store, so that a printed run learns.
pub fn print(image: &[u8]) -> String {
    let model = match Model::decode(image) {
        Ok(model) => model,
        Err(refusal) => return format!("end {} 0\n", refusal.number),
    };
    let state = model.open_state();
    let mut table = model.fresh_table(&state);
    let mut store = [0; STORE_WORDS];
    let (number, _, events) = model.trace_lent(state, &mut table, PRINTED_STEPS, Some(&mut store));
    let mut lines = String::new();
    for event in &events {
        let (word, value) = match event.kind {
            Kind::Fire(rule) => ("fire", rule),
            Kind::Wait(ms) => ("wait", ms),
        };
        // Writing to a string cannot fail.
        let _ = writeln!(lines, "{} {word} {value}", event.clock);
    }
    let _ = writeln!(lines, "end {number} {}", events.len());
    lines
}
