//! A decoded model: the image's content, and what speeds up a run of it.

use crate::memory::Memory;
use crate::parts::{Chunk, Fact, Parts, Rule};
use crate::plan::Plan;

/// A model that was accepted, ready to run.
#[derive(Clone, Debug)]
pub struct Model {
    pub(crate) parts: Parts,
    pub(crate) plan: Plan,
    pub(crate) memory: Memory,
}

impl Model {
    /// The version of the image, 1 or 2.
    pub fn version(&self) -> u8 {
        self.parts.version
    }

    /// Number of buffers, 1 to 8.
    pub fn buffers(&self) -> usize {
        usize::from(self.parts.buffers)
    }

    /// Number of declared types, T.
    pub fn types(&self) -> usize {
        usize::from(self.parts.types.count)
    }

    /// Slots of a type from 0 to T; 0 for any other.
    pub fn slot_count(&self, isa: u16) -> usize {
        self.parts.types.slots.get(usize::from(isa)).map_or(0, |&count| usize::from(count))
    }

    /// Delay in ms when no fact fits.
    pub fn failure_latency(&self) -> u16 {
        self.parts.failure
    }

    /// The opening chunk of each buffer.
    pub fn opening(&self) -> &[Chunk] {
        &self.parts.opening[..self.buffers()]
    }

    /// The facts, by number.
    pub fn facts(&self) -> &[Fact] {
        &self.parts.facts
    }

    /// Number of rules.
    pub fn rule_count(&self) -> usize {
        self.parts.rules.len()
    }

    /// The rules, by number.
    pub fn rules(&self) -> impl Iterator<Item = Rule<'_>> {
        self.parts.rules.iter().map(|head| Rule {
            utility: head.utility,
            variables: head.variables,
            tests: self.parts.tests(head),
            queries: self.parts.queries(head),
            actions: self.parts.actions(head),
        })
    }
}
