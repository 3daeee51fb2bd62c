//! The rules that a model and its image must keep, each by name, with its number and its words.

use std::fmt;

use crate::limits::{BUFFERS, FACTS, RULES, SLOTS, VARIABLES};

/// What is wrong with an image, or with the model that a text says: the rule that it breaks.
#[derive(Clone, Copy, PartialEq, Eq, Hash, Debug)]
pub enum Flaw {
    /// 1: too many bytes.
    TooLong,
    /// 2: a field that is not wholly there.
    Missing,
    /// 3: another version.
    Version,
    /// 3: no buffer, or too many.
    BufferCount,
    /// 3: too many rules.
    RuleCount,
    /// 3: too many facts.
    FactCount,
    /// 3: too many slots of a type.
    SlotCount,
    /// 3: a type that is not declared.
    UnknownType,
    /// 3: a fact or a request of type 0, chunk.
    ChunkType,
    /// 3: too many tests of a rule, or none in version 1.
    TestCount,
    /// 3: too many queries of a rule, or none where it has no test.
    QueryCount,
    /// 3: too many actions of a rule.
    ActionCount,
    /// 3: too many variables of a rule.
    VariableCount,
    /// 3: a query of kind 3.
    QueryKind,
    /// 3: an action of kind 3.
    ActionKind,
    /// 4: something follows the last field.
    Follows,
    /// 11: a slot that the type does not have.
    UnknownSlot,
    /// 12: a variable that the rule does not have.
    UnknownVariable,
    /// 12: a variable that stands in no test.
    UntestedVariable,
    /// 13: a buffer that is not there.
    UnknownBuffer,
    /// 13: a buffer that is not above the one before it.
    BufferOrder,
    /// 13: a buffer that is modified and not tested.
    UntestedBuffer,
}

impl Flaw {
    /// All of them, by number.
    pub const ALL: [Flaw; 22] = [
        Flaw::TooLong,
        Flaw::Missing,
        Flaw::Version,
        Flaw::BufferCount,
        Flaw::RuleCount,
        Flaw::FactCount,
        Flaw::SlotCount,
        Flaw::UnknownType,
        Flaw::ChunkType,
        Flaw::TestCount,
        Flaw::QueryCount,
        Flaw::ActionCount,
        Flaw::VariableCount,
        Flaw::QueryKind,
        Flaw::ActionKind,
        Flaw::Follows,
        Flaw::UnknownSlot,
        Flaw::UnknownVariable,
        Flaw::UntestedVariable,
        Flaw::UnknownBuffer,
        Flaw::BufferOrder,
        Flaw::UntestedBuffer,
    ];

    /// The number by which the library refuses such an image.
    pub fn number(self) -> u8 {
        self.row().0
    }

    /// The rule that is broken, in words that hold for a text as for an image.
    pub fn rule(self) -> String {
        self.row().1
    }

    /// What was found, and the rule that it breaks with its number.
    pub fn told(self, found: impl fmt::Display) -> String {
        let (number, rule) = self.row();
        format!("{found} [{number}: {rule}]")
    }

    /// The table of the rules.
    fn row(self) -> (u8, String) {
        match self {
            Flaw::TooLong => (1, "an image must have at most 65,536 bytes".into()),
            Flaw::Missing => (2, "every field must be wholly there".into()),
            Flaw::Version => (3, "the version must be 1 or 2".into()),
            Flaw::BufferCount => (3, format!("there must be 1 to {BUFFERS} buffers")),
            Flaw::RuleCount => (3, format!("there must be at most {RULES} rules")),
            Flaw::FactCount => (3, format!("there must be at most {FACTS} facts")),
            Flaw::SlotCount => (3, format!("a type must have at most {SLOTS} slots")),
            Flaw::UnknownType => (3, "a type must be declared, or 0 (chunk)".into()),
            Flaw::ChunkType => (3, "a fact or a request must have a declared type, not 0 (chunk)".into()),
            Flaw::TestCount => {
                (3, "a rule must have at most one test for each buffer, and in version 1 one at least".into())
            }
            Flaw::QueryCount => (3, "a rule must have a test or a query, and at most one query for each buffer".into()),
            Flaw::ActionCount => (3, "a rule must have at most one action for each buffer".into()),
            Flaw::VariableCount => (3, format!("a rule must have at most {VARIABLES} variables")),
            Flaw::QueryKind => (3, "a query must be of kind 0 (busy), 1 (free) or 2 (error)".into()),
            Flaw::ActionKind => (3, "an action must be of kind 0 (modify), 1 (request) or 2 (clear)".into()),
            Flaw::Follows => (4, "only zero bits up to the byte's end may follow the last field".into()),
            Flaw::UnknownSlot => (11, "a test or an action must name only slots that its type has".into()),
            Flaw::UnknownVariable => (12, "a term must name only a variable that its rule has".into()),
            Flaw::UntestedVariable => (12, "every variable of a rule must stand in one of its tests".into()),
            Flaw::UnknownBuffer => (13, "a test, a query or an action must name a buffer that exists".into()),
            Flaw::BufferOrder => {
                (13, "buffers must rise among a rule's tests, its queries and its actions, each once at most".into())
            }
            Flaw::UntestedBuffer => (13, "a rule must test each buffer that it modifies".into()),
        }
    }
}
