//! What a kept run learns: the facts of the lent store beside those of the image, and what a firing adds to them.

use crate::board::Board;
use crate::memory::{position, Memory, Wanted};
use crate::parts::{Action, Chunk, Deed};
use crate::state::Buffer;
use crate::store::{add, LEARNED_LATENCY};
use crate::{PLACES, SLOTS};

/// The facts of a store in the order learned. All have the lowest activation and stand after the image's, so that one of them
/// is retrieved only if no fact of the image fits, and then the first.
pub(crate) struct Learner<'a> {
    words: &'a mut [u16],
    isas: Vec<u8>,
    /// Slot 0 of each fact, side by side: most requests name it.
    firsts: Vec<u16>,
    slots: Vec<[u16; SLOTS]>,
    /// What the step under way adds.
    new: Vec<Chunk>,
}

impl<'a> Learner<'a> {
    /// Takes up the words of a store and its facts.
    pub fn new(words: &'a mut [u16], facts: &[Chunk]) -> Learner<'a> {
        Learner {
            words,
            isas: facts.iter().map(|fact| fact.isa).collect(),
            firsts: facts.iter().map(|fact| fact.slots[0]).collect(),
            slots: facts.iter().map(|fact| fact.slots).collect(),
            new: Vec::new(),
        }
    }

    /// Gathers the chunks that a rule's clears would add, by the state before the step: visible ones but nil that are not
    /// known, each once. Says whether there are places for them.
    #[inline]
    pub fn gather(&mut self, memory: &Memory, actions: &[Action], board: &Board) -> bool {
        self.new.clear();
        for action in actions.iter().filter(|action| action.deed == Deed::Clear) {
            if let Some(chunk) = board.seen(action.buffer) {
                if !self.new.contains(&chunk) && !self.knows(memory, &chunk) {
                    self.new.push(chunk);
                }
            }
        }
        self.isas.len() + self.new.len() <= PLACES
    }

    /// Whether a fact with the same type and slots is in the image or in the store.
    fn knows(&self, memory: &Memory, chunk: &Chunk) -> bool {
        let all: [(usize, u16); SLOTS] = std::array::from_fn(|slot| (slot, chunk.slots[slot]));
        memory.find(chunk.isa, &all).or_else(|| self.find(chunk.isa, &all)).is_some()
    }

    /// Adds what was gathered, when the step is made: its own requests have not seen it.
    #[inline]
    pub fn join(&mut self) {
        for chunk in self.new.drain(..) {
            add(self.words, &chunk);
            self.isas.push(chunk.isa);
            self.firsts.push(chunk.slots[0]);
            self.slots.push(chunk.slots);
        }
    }

    /// The learned fact that a request brings.
    #[inline]
    pub fn answer(&self, isa: u8, wanted: &Wanted) -> Option<Buffer> {
        let found = self.find(isa, wanted.named())?;
        Some(Buffer { isa: u16::from(isa), slots: self.slots[found], delay: LEARNED_LATENCY, error: false })
    }

    /// The first learned fact of a type that holds the wanted values.
    #[inline]
    fn find(&self, isa: u8, wanted: &[(usize, u16)]) -> Option<usize> {
        let holds = |fact: usize| {
            self.isas[fact] == isa && wanted.iter().all(|&(slot, value)| self.slots[fact][slot & 7] == value)
        };
        let &[(0, first), ..] = wanted else {
            return (0..self.isas.len()).find(|&fact| holds(fact));
        };
        let mut from = 0;
        while let Some(skipped) = position(&self.firsts[from..], first) {
            from += skipped;
            if holds(from) {
                return Some(from);
            }
            from += 1;
        }
        None
    }
}
