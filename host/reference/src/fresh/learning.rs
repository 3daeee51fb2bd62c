//! What a fresh run learns: the chunks that a firing clears join the lent store.

use crate::parts::{Action, Chunk, Deed, Fact, Parts};
use crate::state::State;
use crate::store::{add, FULL, LEARNED_LATENCY};
use crate::PLACES;

/// The store of a run, with its facts as facts of the memory; without one nothing is learned.
#[derive(Default)]
pub struct Learning<'a> {
    words: Option<&'a mut [u16]>,
    /// The learned facts, numbered after the image's.
    pub facts: Vec<Fact>,
}

impl<'a> Learning<'a> {
    /// Takes up the words of a store and its chunks.
    pub fn new(words: &'a mut [u16], chunks: Vec<Chunk>) -> Learning<'a> {
        Learning { words: Some(words), facts: chunks.into_iter().map(learned).collect() }
    }

    /// The chunks that a rule's clears bring into the store, by the state before the step; 14 if there is no place for them.
    pub fn brought(&self, parts: &Parts, actions: &[Action], before: &State) -> Result<Vec<Chunk>, u8> {
        let mut brought = Vec::new();
        if self.words.is_none() {
            return Ok(brought);
        }
        for action in actions {
            let buffer = &before.buffers[usize::from(action.buffer)];
            if action.deed != Deed::Clear || buffer.delay > 0 || buffer.isa == 0 {
                continue;
            }
            let chunk = Chunk { isa: buffer.isa as u8, slots: buffer.slots };
            let known = parts.facts.iter().chain(&self.facts).any(|fact| fact.chunk == chunk);
            if !known && !brought.contains(&chunk) {
                brought.push(chunk);
            }
        }
        if self.facts.len() + brought.len() > PLACES {
            return Err(FULL);
        }
        Ok(brought)
    }

    /// Learns them, when the step is made.
    pub fn learn(&mut self, chunks: Vec<Chunk>) {
        for chunk in chunks {
            if let Some(words) = &mut self.words {
                add(words, &chunk);
            }
            self.facts.push(learned(chunk));
        }
    }
}

/// A learned chunk as a fact.
fn learned(chunk: Chunk) -> Fact {
    Fact { chunk, activation: 0, latency: LEARNED_LATENCY }
}
