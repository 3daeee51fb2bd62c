//! Declarative memory: the facts in the order in which a request prefers them.

use crate::parts::{Parts, Pattern};
use crate::state::Buffer;
use crate::{SLOTS, WORDS};

/// Facts by type, then highest activation, then lowest number: the first that fits is the answer.
#[derive(Clone, Debug)]
pub(crate) struct Memory {
    slots: Vec<[u16; SLOTS]>,
    /// Slot 0 of each fact once more, side by side: most requests name it.
    firsts: Vec<u16>,
    latencies: Vec<u16>,
    /// Where each type's facts start; the last is the number of facts.
    starts: [u16; 65],
    failure: u16,
}

/// The slots that a request names, by rising slot, and what they must hold.
pub(crate) struct Wanted {
    slots: [(usize, u16); SLOTS],
    count: usize,
}

impl Wanted {
    /// The terms of a pattern under an entry's variables.
    #[inline]
    pub fn new(pattern: &Pattern, entry: &[u16; WORDS]) -> Wanted {
        let mut wanted = Wanted { slots: [(0, 0); SLOTS], count: 0 };
        for (slot, term) in pattern.packed() {
            wanted.slots[wanted.count & 7] = (slot, term.value(entry));
            wanted.count += 1;
        }
        wanted
    }

    /// Each slot that is named with its value.
    #[inline]
    pub fn named(&self) -> &[(usize, u16)] {
        &self.slots[..self.count.min(SLOTS)]
    }
}

impl Memory {
    /// Orders the facts of a model.
    pub fn new(parts: &Parts) -> Memory {
        // Type, falling activation and number in one key, so that the sort compares integers.
        let mut keys: Vec<u64> = Vec::with_capacity(parts.facts.len());
        for (number, fact) in parts.facts.iter().enumerate() {
            let rank = u64::from(fact.chunk.isa) << 16 | u64::from(!fact.activation);
            keys.push(rank << 16 | number as u64);
        }
        keys.sort_unstable();
        let mut starts = [0; 65];
        for (place, key) in keys.iter().enumerate() {
            starts[(key >> 32) as usize % 64 + 1] = place as u16 + 1;
        }
        for isa in 1..65 {
            starts[isa] = starts[isa].max(starts[isa - 1]);
        }
        let sorted = || keys.iter().map(|&key| &parts.facts[usize::from(key as u16)]);
        Memory {
            slots: sorted().map(|fact| fact.chunk.slots).collect(),
            firsts: sorted().map(|fact| fact.chunk.slots[0]).collect(),
            latencies: sorted().map(|fact| fact.latency).collect(),
            starts,
            failure: parts.failure,
        }
    }

    /// The best fact that fits a request, as it leaves it in its buffer.
    #[inline]
    pub fn answer(&self, isa: u8, wanted: &Wanted) -> Option<Buffer> {
        let found = self.find(isa, wanted.named())?;
        Some(Buffer { isa: u16::from(isa), slots: self.slots[found], delay: self.latencies[found], error: false })
    }

    /// What a request leaves that no fact fits: nil, late, with the error flag set.
    #[inline]
    pub fn nothing(&self) -> Buffer {
        Buffer { delay: self.failure, error: true, ..Buffer::default() }
    }

    /// The first fact of a type that holds the wanted values.
    #[inline]
    pub fn find(&self, isa: u8, wanted: &[(usize, u16)]) -> Option<usize> {
        let mut from = usize::from(self.starts[usize::from(isa) & 63]);
        let end = usize::from(self.starts[(usize::from(isa) & 63) + 1]);
        let holds = |fact: &usize, wanted: &[(usize, u16)]| {
            wanted.iter().all(|&(slot, value)| self.slots[*fact][slot & 7] == value)
        };
        let [(0, first), others @ ..] = wanted else {
            return (from..end).find(|fact| holds(fact, wanted));
        };
        while let Some(skipped) = position(&self.firsts[from..end], *first) {
            from += skipped;
            if holds(&from, others) {
                return Some(from);
            }
            from += 1;
        }
        None
    }
}

/// Where a value first stands; whole blocks are compared without branches, which the compiler makes vectors of.
#[inline]
pub(crate) fn position(list: &[u16], value: u16) -> Option<usize> {
    const BLOCK: usize = 16;
    let (blocks, _) = list.as_chunks::<BLOCK>();
    let holds = |block: &[u16; BLOCK]| block.iter().fold(false, |hit, &one| hit | (one == value));
    let skipped = BLOCK * blocks.iter().take_while(|block| !holds(block)).count();
    list[skipped..].iter().position(|&one| one == value).map(|rest| skipped + rest)
}
