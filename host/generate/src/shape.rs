//! How large a model is.

use crate::rng::Rng;

/// Versions that open.
const VERSIONS: [u8; 2] = [1, 2];

/// Counts of a model and limits for what they leave open.
#[derive(Clone, Copy, PartialEq, Eq, Debug)]
pub struct Shape {
    /// Version of the image, 1 or 2.
    pub version: u8,
    /// Buffers, 1 to 8.
    pub buffers: usize,
    /// Declared types, 0 to 63.
    pub types: usize,
    /// Most slots of a type, 0 to 8.
    pub slots: usize,
    /// Facts, 0 to 512 (none without types).
    pub facts: usize,
    /// Rules, 0 to 256.
    pub rules: usize,
    /// Most variables of a rule, 0 to 8.
    pub variables: usize,
    /// Most tests of a rule, 1 to 8.
    pub tests: usize,
    /// Most queries of a rule, 0 to 8; version 1 has none.
    pub queries: usize,
    /// Most actions of a rule, 0 to 8.
    pub actions: usize,
    /// Symbols used, 1 to 4,096; few of them give many matches.
    pub symbols: usize,
    /// Chance in a hundred that a type, a pattern or a rule has all the slots, terms, tests or actions it may.
    pub full: usize,
    /// Chance in a hundred that a rule changes what it tests, so that runs do not stay at one rule.
    pub lively: usize,
    /// Chance in a hundred that an action is a clear, whatever else it could be: where a store is lent, it may learn.
    pub clears: usize,
}

impl Shape {
    /// A few buffers, types and rules: the common case.
    pub fn small(rng: &mut Rng) -> Shape {
        Shape {
            version: rng.pick(&VERSIONS),
            buffers: rng.from_to(1, 3),
            types: rng.from_to(1, 4),
            slots: rng.from_to(1, 4),
            facts: rng.below(16),
            rules: rng.from_to(1, 20),
            variables: rng.below(5),
            tests: rng.from_to(1, 3),
            queries: rng.from_to(1, 3),
            actions: rng.below(4),
            symbols: rng.from_to(2, 5),
            full: rng.pick(&[0, 10, 30]),
            lively: rng.pick(&[0, 70, 90, 100]),
            clears: rng.pick(&[0, 0, 30, 60]),
        }
    }

    /// No types: nil is all there is.
    pub fn bare(rng: &mut Rng) -> Shape {
        let buffers = rng.from_to(1, 8);
        Shape {
            version: rng.pick(&VERSIONS),
            buffers,
            types: 0,
            slots: 0,
            facts: 0,
            rules: rng.below(6),
            variables: 0,
            tests: 8,
            queries: 8,
            actions: 8,
            symbols: 1,
            full: 0,
            lively: 0,
            clears: 0,
        }
    }

    /// All eight buffers, slots and variables.
    pub fn wide(rng: &mut Rng) -> Shape {
        Shape {
            version: rng.pick(&VERSIONS),
            buffers: 8,
            types: rng.from_to(1, 6),
            slots: 8,
            facts: rng.below(60),
            rules: rng.from_to(1, 30),
            variables: 8,
            tests: 8,
            queries: 8,
            actions: 8,
            symbols: rng.from_to(2, 4),
            full: 20,
            lively: rng.pick(&[0, 80, 100]),
            clears: rng.pick(&[0, 20, 50]),
        }
    }

    /// All 63 types, so that no type field is too large.
    pub fn all_types(rng: &mut Rng) -> Shape {
        Shape { types: 63, slots: 8, facts: rng.below(80), buffers: rng.from_to(1, 8), ..Shape::small(rng) }
    }

    /// Up to 256 rules with few tests.
    pub fn many_rules(rng: &mut Rng) -> Shape {
        Shape {
            rules: rng.from_to(200, 256),
            buffers: rng.from_to(1, 8),
            symbols: rng.from_to(2, 40),
            ..Shape::small(rng)
        }
    }

    /// Up to 512 facts.
    pub fn many_facts(rng: &mut Rng) -> Shape {
        Shape { facts: rng.from_to(400, 512), symbols: rng.from_to(3, 40), ..Shape::small(rng) }
    }

    /// 256 rules, 512 facts, 8 buffers and 63 types: about as much as an image can hold.
    pub fn largest(rng: &mut Rng) -> Shape {
        Shape {
            version: rng.pick(&VERSIONS),
            buffers: 8,
            types: 63,
            slots: 8,
            facts: 512,
            rules: 256,
            variables: 8,
            tests: 8,
            queries: 8,
            actions: 8,
            symbols: 4_096,
            full: 85,
            lively: 50,
            clears: 10,
        }
    }

    /// Any of these; the large ones seldom, since they take long.
    pub fn random(rng: &mut Rng) -> Shape {
        match rng.below(100) {
            0..=7 => Shape::bare(rng),
            8..=67 => Shape::small(rng),
            68..=79 => Shape::wide(rng),
            80..=86 => Shape { symbols: 4_096, ..Shape::small(rng) },
            87..=92 => Shape::all_types(rng),
            93..=95 => Shape::many_rules(rng),
            96..=98 => Shape::many_facts(rng),
            _ => Shape::largest(rng),
        }
    }
}
