//! The fact that stands for a buffer.

use std::collections::BTreeSet;
use std::fmt::Display;

use jirvuntsag_reference::{Deed, Model, Test};

use super::text::{slots, template, tested};

/// What the fact of a buffer has: no more than the model asks for.
pub struct Shape {
    /// The buffer.
    pub buffer: usize,
    /// Whether it has a type: not if that never differs.
    isa: bool,
    /// Whether it has the clock at which its chunk is due: only if chunks are asked for.
    pub late: bool,
    /// Slots of the longest type that it may hold.
    slots: usize,
}

impl Shape {
    /// The shape of a buffer, by all that may stand in it and all that is tested.
    pub fn of(model: &Model, buffer: usize) -> Shape {
        let mut types = BTreeSet::from([model.opening()[buffer].isa]);
        let mut late = false;
        for rule in model.rules() {
            types.extend(rule.tests.iter().filter(|test| usize::from(test.buffer) == buffer).map(|test| test.isa));
            for action in rule.actions.iter().filter(|action| usize::from(action.buffer) == buffer) {
                match action.deed {
                    Deed::Modify => (),
                    // It is empty if no fact fits.
                    Deed::Request(isa) => {
                        types.extend([0, isa]);
                        late = true;
                    }
                    Deed::Clear => types.extend([0]),
                }
            }
        }
        let slots = types.iter().map(|&isa| model.slot_count(u16::from(isa))).max().unwrap_or(0);
        Shape { buffer, isa: types.len() > 1, late, slots }
    }

    /// Its template.
    pub fn template(&self) -> String {
        let isa = self.isa.then_some("isa");
        let due = self.late.then_some("due");
        let own: Vec<&str> = isa.into_iter().chain(due).collect();
        template(&format!("buffer-{}", self.buffer), &own, 0..self.slots)
    }

    /// What comes before the slots of a chunk.
    fn head(&self, due: &str, isa: u8) -> String {
        let due = if self.late { format!(" (due {due})") } else { String::new() };
        let isa = if self.isa { format!(" (isa {isa})") } else { String::new() };
        due + &isa
    }

    /// The fields of a chunk with its first values; the others are 0.
    pub fn chunk<T: Display>(&self, due: &str, isa: u8, values: &[T]) -> String {
        let value = |slot: usize| (slot, values.get(slot).map_or("0".to_string(), T::to_string));
        self.head(due, isa) + &slots((0..self.slots).map(value))
    }

    /// The fields of an empty buffer.
    pub fn empty(&self, due: &str) -> String {
        self.chunk::<u16>(due, 0, &[])
    }

    /// The pattern of a test, by which what is late is turned away first; `bound` are the variables that stood before.
    pub fn pattern(&self, test: &Test, bound: &mut BTreeSet<u8>) -> String {
        format!("(buffer-{}{}{})", self.buffer, self.head("0", test.isa), tested(&test.pattern, bound))
    }
}
