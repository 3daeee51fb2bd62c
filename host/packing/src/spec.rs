//! A model as plain data, in the order of the image.

/// A symbol or a variable.
#[derive(Clone, Copy, PartialEq, Eq, Debug)]
pub enum Term {
    /// A symbol, 0 to 4,095.
    Symbol(u16),
    /// A variable number.
    Variable(u16),
}

/// A chunk; its slots are packed as they stand here.
#[derive(Clone, PartialEq, Eq, Debug, Default)]
pub struct ChunkSpec {
    /// Type, 0 for nil.
    pub isa: u8,
    /// Slot values.
    pub slots: Vec<u16>,
}

/// A fact.
#[derive(Clone, PartialEq, Eq, Debug, Default)]
pub struct FactSpec {
    /// Type and slots.
    pub chunk: ChunkSpec,
    /// Activation.
    pub activation: u16,
    /// Latency in ms.
    pub latency: u16,
}

/// A mask, the top bit for slot 0, and the terms that follow it.
#[derive(Clone, PartialEq, Eq, Debug, Default)]
pub struct PatternSpec {
    /// The mask field.
    pub mask: u8,
    /// The terms, as many as are to be packed.
    pub terms: Vec<Term>,
}

/// A test.
#[derive(Clone, PartialEq, Eq, Debug, Default)]
pub struct TestSpec {
    /// Buffer number.
    pub buffer: u8,
    /// Type.
    pub isa: u8,
    /// Mask and terms.
    pub pattern: PatternSpec,
}

/// A query.
#[derive(Clone, Copy, PartialEq, Eq, Debug, Default)]
pub struct QuerySpec {
    /// Buffer number.
    pub buffer: u8,
    /// The kind field: 0 busy, 1 free, 2 error; 3 is not allowed.
    pub kind: u8,
}

/// What an action does.
#[derive(Clone, PartialEq, Eq, Debug)]
pub enum Deed {
    /// Kind 0.
    Modify(PatternSpec),
    /// Kind 1, with its type.
    Request(u8, PatternSpec),
    /// Kind 2.
    Clear,
    /// Kind 3, which is not allowed.
    Forbidden,
}

/// An action.
#[derive(Clone, PartialEq, Eq, Debug)]
pub struct ActionSpec {
    /// Buffer number.
    pub buffer: u8,
    /// Kind and what follows it.
    pub deed: Deed,
}

/// A rule.
#[derive(Clone, PartialEq, Eq, Debug, Default)]
pub struct RuleSpec {
    /// The utility field; 0x8000 stands for -32,768.
    pub utility: u16,
    /// Number of variables.
    pub variables: u8,
    /// Tests.
    pub tests: Vec<TestSpec>,
    /// Queries, which version 2 alone has.
    pub queries: Vec<QuerySpec>,
    /// Actions.
    pub actions: Vec<ActionSpec>,
}

/// A whole model.
#[derive(Clone, PartialEq, Eq, Debug, Default)]
pub struct ModelSpec {
    /// The version to pack; if none is set, 2 where a rule needs it, else 1.
    pub version: Option<u8>,
    /// Failure latency in ms.
    pub failure: u16,
    /// Slot counts of types 1 to T.
    pub types: Vec<u8>,
    /// The opening chunk of each buffer.
    pub opening: Vec<ChunkSpec>,
    /// Facts, by number.
    pub facts: Vec<FactSpec>,
    /// Rules, by number.
    pub rules: Vec<RuleSpec>,
}

/// The first six fields of an image.
#[derive(Clone, Copy, PartialEq, Eq, Debug)]
pub struct Header {
    /// Version, 1 or 2 in a valid image.
    pub version: u16,
    /// Number of buffers.
    pub buffers: u16,
    /// T.
    pub types: u16,
    /// Number of rules.
    pub rules: u16,
    /// Number of facts.
    pub facts: u16,
    /// Failure latency in ms.
    pub failure: u16,
}

impl ModelSpec {
    /// The header that tells the truth about this model.
    pub fn header(&self) -> Header {
        Header {
            version: u16::from(self.packed_version()),
            buffers: self.opening.len() as u16,
            types: self.types.len() as u16,
            rules: self.rules.len() as u16,
            facts: self.facts.len() as u16,
            failure: self.failure,
        }
    }

    /// The version that is packed: the one that was set, or the first that holds every rule.
    fn packed_version(&self) -> u8 {
        let plain = self.rules.iter().all(|rule| rule.queries.is_empty() && !rule.tests.is_empty());
        self.version.unwrap_or(if plain { 1 } else { 2 })
    }

    /// Slots of a type; 0 for type 0 and for a type that is not declared.
    pub fn slot_count(&self, isa: u8) -> usize {
        match isa {
            0 => 0,
            isa => self.types.get(usize::from(isa) - 1).map_or(0, |&count| usize::from(count)),
        }
    }
}

impl ChunkSpec {
    /// The empty chunk.
    pub fn nil() -> ChunkSpec {
        ChunkSpec::default()
    }

    /// A chunk of a type.
    pub fn new(isa: u8, slots: &[u16]) -> ChunkSpec {
        ChunkSpec { isa, slots: slots.to_vec() }
    }
}

impl PatternSpec {
    /// A mask and terms from slots, which must rise.
    pub fn new(named: &[(usize, Term)]) -> PatternSpec {
        PatternSpec {
            mask: named.iter().fold(0, |mask, (slot, _)| mask | 0x80 >> slot),
            terms: named.iter().map(|(_, term)| *term).collect(),
        }
    }

    /// Each named slot with its term.
    pub fn named(&self) -> impl Iterator<Item = (usize, Term)> + '_ {
        let slots = (0..8).filter(|slot| self.mask & 0x80 >> slot != 0);
        slots.zip(self.terms.iter().copied())
    }
}

impl TestSpec {
    /// A test of a buffer for a type and named slots.
    pub fn new(buffer: u8, isa: u8, named: &[(usize, Term)]) -> TestSpec {
        TestSpec { buffer, isa, pattern: PatternSpec::new(named) }
    }
}

impl QuerySpec {
    /// Whether a chunk is on its way.
    pub fn busy(buffer: u8) -> QuerySpec {
        QuerySpec { buffer, kind: 0 }
    }

    /// Whether nothing is on its way.
    pub fn free(buffer: u8) -> QuerySpec {
        QuerySpec { buffer, kind: 1 }
    }

    /// Whether the last action was a request that found no fact, and that is seen by now.
    pub fn error(buffer: u8) -> QuerySpec {
        QuerySpec { buffer, kind: 2 }
    }
}

impl ActionSpec {
    /// Sets named slots.
    pub fn modify(buffer: u8, named: &[(usize, Term)]) -> ActionSpec {
        ActionSpec { buffer, deed: Deed::Modify(PatternSpec::new(named)) }
    }

    /// Asks for a fact.
    pub fn request(buffer: u8, isa: u8, named: &[(usize, Term)]) -> ActionSpec {
        ActionSpec { buffer, deed: Deed::Request(isa, PatternSpec::new(named)) }
    }

    /// Leaves nil.
    pub fn clear(buffer: u8) -> ActionSpec {
        ActionSpec { buffer, deed: Deed::Clear }
    }
}
