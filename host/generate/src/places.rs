//! Where the variables of a rule stand.

use jirvuntsag_packing::{RuleSpec, Term};

/// A tested slot with a variable.
#[derive(Clone, Copy, PartialEq, Eq, Debug)]
pub(crate) struct Place {
    /// The variable's number.
    pub variable: u16,
    /// The tested buffer.
    pub buffer: u8,
    /// The slot.
    pub slot: usize,
}

/// The tested slots of a rule with a variable, in the order of the tests.
pub(crate) fn variable_places(rule: &RuleSpec) -> Vec<Place> {
    let mut places = Vec::new();
    for test in &rule.tests {
        for (slot, term) in test.pattern.named() {
            if let Term::Variable(variable) = term {
                places.push(Place { variable, buffer: test.buffer, slot });
            }
        }
    }
    places
}
