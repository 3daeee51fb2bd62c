//! The lines of a trace as ACT-R prints them: seconds, module, event.

use std::collections::HashSet;
use std::fmt::Write;

use jirvuntsag_packing::Deed;
use jirvuntsag_proved::{End, Number};
use jirvuntsag_text::{Model, Names};

use super::engine::{Buffer, State, Step};

/// The modules that are named.
const PROCEDURAL: &str = "PROCEDURAL";
const DECLARATIVE: &str = "DECLARATIVE";

/// The trace of a model so far.
pub struct Lines<'m> {
    model: &'m Model,
    /// Whether names are printed in capitals, as Lisp does.
    capitals: bool,
    /// What is printed.
    pub text: String,
}

impl<'m> Lines<'m> {
    /// The chunks that the model opens with.
    pub fn opening(model: &'m Model, state: &State) -> Lines<'m> {
        let mut lines = Lines { model, capitals: can_be_capitals(model.names()), text: String::new() };
        for (name, buffer) in model.names().buffers.iter().zip(&state.buffers) {
            if buffer.isa != 0 {
                let name = lines.called(name);
                let event = format!("SET-BUFFER-CHUNK {name} {}", lines.chunk(buffer));
                lines.line(state.clock, &name, &event);
            }
        }
        lines
    }

    /// One line: the clock in seconds, the module, the event.
    fn line(&mut self, clock: u32, module: &str, event: &str) {
        let time = format!("{}.{:03}", clock / 1_000, clock % 1_000);
        // Writing to a string cannot fail.
        let _ = writeln!(self.text, "{time:>10}   {module:<23}{event}");
    }

    /// A name as it is printed.
    fn called(&self, name: &str) -> String {
        if self.capitals {
            name.to_uppercase()
        } else {
            name.into()
        }
    }

    /// The name of a buffer as it is printed.
    fn buffer(&self, number: usize) -> String {
        self.called(&self.model.names().buffers[number])
    }

    /// A rule is looked for.
    pub fn decision(&mut self, clock: u32) {
        self.line(clock, PROCEDURAL, "CONFLICT-RESOLUTION");
    }

    /// A step from one state to the next.
    pub fn step(&mut self, before: &State, after: &State, step: Step) {
        let acted_on = match step {
            Step::Fire { rule } => self.firing(rule, after),
            Step::Wait { .. } => 0,
        };
        for (number, (old, new)) in before.buffers.iter().zip(&after.buffers).enumerate() {
            if acted_on >> number & 1 == 0 && old.delay > 0 && new.delay == 0 {
                self.arrival(number, after);
            }
        }
    }

    /// A rule fires; gives the buffers that it acts on, bit b for buffer b.
    fn firing(&mut self, rule: u16, after: &State) -> u8 {
        let model = self.model;
        let clock = after.clock;
        let mut acted_on = 0;
        let name = self.called(&model.names().rules[usize::from(rule)].name);
        self.line(clock, PROCEDURAL, &format!("PRODUCTION-FIRED {name}"));
        for action in &model.spec().rules[usize::from(rule)].actions {
            let number = usize::from(action.buffer);
            acted_on |= 1 << number;
            if matches!(action.deed, Deed::Modify(_)) {
                continue;
            }
            self.line(clock, PROCEDURAL, &format!("CLEAR-BUFFER {}", self.buffer(number)));
            if matches!(action.deed, Deed::Request(..)) {
                self.line(clock, DECLARATIVE, "START-RETRIEVAL");
                if after.buffers[number].delay == 0 {
                    self.arrival(number, after);
                }
            }
        }
        acted_on
    }

    /// A chunk becomes visible, or the answer that no fact fits.
    fn arrival(&mut self, number: usize, after: &State) {
        let buffer = &after.buffers[number];
        if buffer.error {
            self.line(after.clock, DECLARATIVE, "RETRIEVAL-FAILURE");
            return;
        }
        let (name, chunk) = (self.buffer(number), self.chunk(buffer));
        self.line(after.clock, DECLARATIVE, &format!("RETRIEVED-CHUNK {chunk}"));
        self.line(after.clock, DECLARATIVE, &format!("SET-BUFFER-CHUNK {name} {chunk}"));
    }

    /// Why no more steps are made.
    pub fn stop(&mut self, clock: u32, number: Number) {
        let why = match number {
            Number::Ended(End::Done) => "the steps asked are made".into(),
            Number::Ended(End::ClockFull) => "the clock would pass 4294967295 ms".into(),
            Number::Ended(End::Halted) => "no events left to process".into(),
            Number::Ended(End::Stale | End::StoreFull) | Number::Refused(_) => number.to_string(),
        };
        self.line(clock, "------", &format!("Stopped because {why}"));
    }

    /// A chunk, which has no name of its own: its type and its values in brackets.
    fn chunk(&self, buffer: &Buffer) -> String {
        let names = self.model.names();
        let isa = &names.types[usize::from(buffer.isa)];
        let values: Vec<String> = buffer.slots[..isa.slots.len()].iter().map(|&value| names.symbol(value)).collect();
        self.called(&format!("{}({})", isa.name, values.join(",")))
    }
}

/// Whether names can be told from each other in capitals: no two of a kind differ in capitals alone.
fn can_be_capitals(names: &Names) -> bool {
    let types = names.types.iter().map(|one| &one.name);
    let rules = names.rules.iter().map(|one| &one.name);
    are_distinct(names.buffers.iter())
        && are_distinct(types)
        && are_distinct(names.symbols.values())
        && are_distinct(rules)
}

/// Whether no two names are the same in capitals.
fn are_distinct<'n>(mut names: impl Iterator<Item = &'n String>) -> bool {
    let mut seen = HashSet::new();
    names.all(|name| seen.insert(name.to_uppercase()))
}
