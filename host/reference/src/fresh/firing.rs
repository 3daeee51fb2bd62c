//! What a firing does to the buffers that its rule acts on.

use super::matching::{Chosen, Values};
use crate::parts::{Action, Deed, Fact, PackedTerm, Parts, Pattern};
use crate::state::{Buffer, State};
use crate::SLOTS;

/// The actions of a rule that fires. Delays have fallen already: a buffer that is acted on gets one of its own.
#[inline]
pub fn act(parts: &Parts, learned: &[Fact], chosen: &Chosen, state: &mut State) {
    let rule = &parts.rules[usize::from(chosen.number)];
    for action in parts.actions(rule) {
        // No action sees what another wrote: it reads the values that were bound, and of the state its own buffer alone.
        let buffer = &mut state.buffers[usize::from(action.buffer)];
        change(parts, learned, action, &chosen.values, buffer);
    }
}

/// One action on its buffer.
#[inline]
fn change(parts: &Parts, learned: &[Fact], action: &Action, values: &Values, buffer: &mut Buffer) {
    match action.deed {
        Deed::Modify => {
            for (slot, term) in action.pattern.packed() {
                buffer.slots[slot] = value(term, values);
            }
            buffer.delay = 0;
            buffer.error = false;
        }
        Deed::Request(isa) => *buffer = answer(parts, learned, isa, &action.pattern, values),
        Deed::Clear => *buffer = Buffer::default(),
    }
}

/// What a request leaves in its buffer: the best fact that fits, or nil late and the error flag.
#[inline]
fn answer(parts: &Parts, learned: &[Fact], isa: u8, pattern: &Pattern, values: &Values) -> Buffer {
    match retrieve([&parts.facts, learned], isa, &Wanted::new(pattern, values)) {
        Some(fact) => Buffer { isa: u16::from(isa), slots: fact.chunk.slots, delay: fact.latency, error: false },
        None => Buffer { delay: parts.failure, error: true, ..Buffer::default() },
    }
}

/// Of the facts of a type that fit, the image's and then those learned, the one of highest activation, the first among equals.
#[inline]
fn retrieve<'a>(memory: [&'a [Fact]; 2], isa: u8, wanted: &Wanted) -> Option<&'a Fact> {
    let [of_image, learned] = memory;
    better(learned, isa, wanted, better(of_image, isa, wanted, None))
}

/// The first of these facts that fits and is of higher activation than the best so far, and than the others here; else that one.
#[inline]
fn better<'a>(facts: &'a [Fact], isa: u8, wanted: &Wanted, mut best: Option<&'a Fact>) -> Option<&'a Fact> {
    for fact in facts {
        let better = best.is_none_or(|best| best.activation < fact.activation);
        if better && fact.chunk.isa == isa && wanted.fits(&fact.chunk.slots) {
            best = Some(fact);
        }
    }
    best
}

/// The slots that a request names, and what they must hold.
struct Wanted {
    /// All ones for a slot that is named, 0 for any other.
    care: [u16; SLOTS],
    /// The value of a slot that is named, 0 for any other.
    values: [u16; SLOTS],
}

impl Wanted {
    /// The terms of a pattern under the values of the rule that asks.
    #[inline]
    fn new(pattern: &Pattern, values: &Values) -> Wanted {
        let mut wanted = Wanted { care: [0; SLOTS], values: [0; SLOTS] };
        for (slot, term) in pattern.packed() {
            wanted.care[slot] = u16::MAX;
            wanted.values[slot] = value(term, values);
        }
        wanted
    }

    /// Whether each named slot holds what it must; all eight at once, which is quicker than to leave at the first.
    #[inline]
    fn fits(&self, slots: &[u16; SLOTS]) -> bool {
        let differs = |slot: usize| (slots[slot] & self.care[slot]) ^ self.values[slot];
        (0..SLOTS).fold(0, |all, slot| all | differs(slot)) == 0
    }
}

/// What a term stands for under the values of its rule.
#[inline]
fn value(term: PackedTerm, values: &Values) -> u16 {
    term.variable().map_or(term.0, |variable| values[variable])
}
