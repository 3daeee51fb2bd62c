//! The image's content in ordinary structs.

use crate::{BUFFERS, SLOTS, WORDS};

/// A chunk without a name.
#[derive(Clone, Copy, PartialEq, Eq, Debug, Default)]
pub struct Chunk {
    /// Type, 0 for nil.
    pub isa: u8,
    /// Slot values, 0 past the type's slots.
    pub slots: [u16; SLOTS],
}

/// A fact of declarative memory.
#[derive(Clone, Copy, PartialEq, Eq, Debug, Default)]
pub struct Fact {
    /// Type and slot values.
    pub chunk: Chunk,
    /// The higher is preferred.
    pub activation: u16,
    /// Delay in ms when it is retrieved.
    pub latency: u16,
}

/// What a named slot is compared with or set to.
#[derive(Clone, Copy, PartialEq, Eq, Debug)]
pub enum Term {
    /// A symbol, 0 to 4,095.
    Symbol(u16),
    /// A variable of the rule, 0 to 7.
    Variable(u8),
}

/// A term as its 13 bits stand in the image: half the size of the enum, and read without a branch.
#[derive(Clone, Copy, PartialEq, Eq, Debug)]
pub(crate) struct PackedTerm(pub u16);

/// A slot mask with a term for each named slot.
#[derive(Clone, Copy, PartialEq, Eq, Debug)]
pub struct Pattern {
    /// Named slots, bit s for slot s: the image's mask from right to left, which is quicker to walk.
    pub(crate) slots: u8,
    /// The term of each slot; only named slots count.
    pub(crate) terms: [PackedTerm; SLOTS],
}

/// A condition on one buffer.
#[derive(Clone, Copy, PartialEq, Eq, Debug)]
pub struct Test {
    /// The buffer that must be visible.
    pub buffer: u8,
    /// The type it must hold.
    pub isa: u8,
    /// The slots it must hold.
    pub pattern: Pattern,
}

/// What a query asks of its buffer (request 2026-06).
#[derive(Clone, Copy, PartialEq, Eq, Debug)]
pub enum Ask {
    /// Whether its chunk is pending.
    Busy,
    /// Whether its chunk is visible.
    Free,
    /// Whether it is visible with its error flag set.
    Error,
}

/// A question to one buffer, whatever chunk it holds.
#[derive(Clone, Copy, PartialEq, Eq, Debug)]
pub struct Query {
    /// The buffer that is asked.
    pub buffer: u8,
    /// What is asked.
    pub asks: Ask,
}

/// What an action does to its buffer.
#[derive(Clone, Copy, PartialEq, Eq, Debug)]
pub enum Deed {
    /// Sets the named slots.
    Modify,
    /// Asks the memory for a fact of this type.
    Request(u8),
    /// Leaves nil.
    Clear,
}

/// An action on one buffer.
#[derive(Clone, Copy, PartialEq, Eq, Debug)]
pub struct Action {
    /// The buffer acted on.
    pub buffer: u8,
    /// What is done.
    pub deed: Deed,
    /// The slots set or asked for; none for a clear.
    pub pattern: Pattern,
}

/// A rule as it stands in the image.
#[derive(Clone, Copy, PartialEq, Eq, Debug)]
pub struct Rule<'m> {
    /// Utility in thousandths.
    pub utility: i16,
    /// Number of variables.
    pub variables: u8,
    /// Tests, by rising buffer.
    pub tests: &'m [Test],
    /// Queries, by rising buffer; none in version 1.
    pub queries: &'m [Query],
    /// Actions, by rising buffer.
    pub actions: &'m [Action],
}

/// A rule's own fields and where its tests, queries and actions lie in the common lists.
#[derive(Clone, Copy, Debug)]
pub(crate) struct RuleHead {
    pub utility: i16,
    pub variables: u8,
    pub tests: (u16, u16),
    pub queries: (u16, u16),
    pub actions: (u16, u16),
}

/// The declared types.
#[derive(Clone, Debug)]
pub(crate) struct Types {
    /// T.
    pub count: u8,
    /// Slots of each type, type 0 first.
    pub slots: [u8; 64],
}

/// The fields of an accepted image.
#[derive(Clone, Debug, Default)]
pub(crate) struct Parts {
    pub version: u8,
    pub buffers: u8,
    pub types: Types,
    pub failure: u16,
    pub opening: [Chunk; BUFFERS],
    pub facts: Vec<Fact>,
    pub rules: Vec<RuleHead>,
    /// Tests of all rules, so that a model is a handful of allocations.
    pub tests: Vec<Test>,
    /// Queries of all rules.
    pub queries: Vec<Query>,
    /// Actions of all rules.
    pub actions: Vec<Action>,
}

impl Pattern {
    /// No slot is named.
    pub(crate) const EMPTY: Pattern = Pattern { slots: 0, terms: [PackedTerm(0); SLOTS] };

    /// The mask as it stands in the image, the top bit for slot 0.
    pub fn mask(&self) -> u8 {
        self.slots.reverse_bits()
    }

    /// The named slots with their terms, by rising slot.
    pub fn named(&self) -> impl Iterator<Item = (usize, Term)> + '_ {
        self.packed().map(|(slot, term)| (slot, term.unpacked()))
    }

    /// The same with packed terms.
    #[inline]
    pub(crate) fn packed(&self) -> impl Iterator<Item = (usize, PackedTerm)> + '_ {
        let mut left = u32::from(self.slots);
        std::iter::from_fn(move || {
            // Of no bits there are 32 trailing zeros, where no term is.
            let slot = left.trailing_zeros() as usize;
            let term = *self.terms.get(slot)?;
            left &= left - 1;
            Some((slot, term))
        })
    }
}

impl Test {
    /// A test before it is read.
    pub(crate) const EMPTY: Test = Test { buffer: 0, isa: 0, pattern: Pattern::EMPTY };
}

impl Action {
    /// An action before it is read.
    pub(crate) const EMPTY: Action = Action { buffer: 0, deed: Deed::Clear, pattern: Pattern::EMPTY };
}

impl Default for Types {
    fn default() -> Types {
        Types { count: 0, slots: [0; 64] }
    }
}

impl Types {
    /// Slots of a type.
    #[inline]
    pub fn slots(&self, isa: u8) -> usize {
        usize::from(self.slots[usize::from(isa) & 63])
    }
}

impl PackedTerm {
    /// The kind bit.
    pub const VARIABLE: u16 = 0x1000;

    /// The number of a variable, if it is one.
    #[inline]
    pub fn variable(self) -> Option<usize> {
        (self.0 >= Self::VARIABLE).then_some(usize::from(self.0) & 7)
    }

    /// The value under an entry's variables.
    #[inline]
    pub fn value(self, entry: &[u16; WORDS]) -> u16 {
        match self.variable() {
            None => self.0,
            Some(number) => entry[1 + number],
        }
    }

    /// The term as an enum.
    fn unpacked(self) -> Term {
        match self.variable() {
            None => Term::Symbol(self.0),
            Some(number) => Term::Variable(number as u8),
        }
    }
}

impl Parts {
    /// Tests of a rule.
    pub fn tests(&self, rule: &RuleHead) -> &[Test] {
        &self.tests[usize::from(rule.tests.0)..usize::from(rule.tests.1)]
    }

    /// Queries of a rule.
    pub fn queries(&self, rule: &RuleHead) -> &[Query] {
        &self.queries[usize::from(rule.queries.0)..usize::from(rule.queries.1)]
    }

    /// Actions of a rule.
    #[inline]
    pub fn actions(&self, rule: &RuleHead) -> &[Action] {
        &self.actions[usize::from(rule.actions.0)..usize::from(rule.actions.1)]
    }
}
