//! What several test files share.
#![allow(dead_code)] // Not every file uses all of it.

use jirvuntsag_packing as packing;
use jirvuntsag_packing::{ActionSpec, ChunkSpec, FactSpec, ModelSpec, QuerySpec, RuleSpec, TestSpec};
use jirvuntsag_reference::{Ask, Buffer, Chunk, Deed, Model, Pattern, Query, Rule, State, Term};

/// Image P1: one buffer and nothing else.
pub const P1: [u8; 8] = [1, 0x10, 0, 0, 0, 0, 0, 0];

/// Variables 0 and 1.
pub const V0: packing::Term = packing::Term::Variable(0);
pub const V1: packing::Term = packing::Term::Variable(1);

/// A model of two-slot types with these facts and rules; all buffers open with nil.
pub fn model(buffers: usize, facts: &[(u8, [u16; 2], u16, u16)], rules: Vec<RuleSpec>) -> Model {
    let fact = |&(isa, slots, activation, latency): &(u8, [u16; 2], u16, u16)| FactSpec {
        chunk: ChunkSpec::new(isa, &slots),
        activation,
        latency,
    };
    let spec = ModelSpec {
        failure: 200,
        types: vec![2, 2],
        opening: vec![ChunkSpec::nil(); buffers],
        facts: facts.iter().map(fact).collect(),
        rules,
        ..ModelSpec::default()
    };
    Model::decode(&packing::pack(&spec)).expect("a valid model")
}

/// A rule from its parts.
pub fn rule(utility: i16, variables: u8, tests: Vec<TestSpec>, actions: Vec<ActionSpec>) -> RuleSpec {
    RuleSpec { utility: utility as u16, variables, tests, actions, ..RuleSpec::default() }
}

/// A rule of queries alone, with these actions.
pub fn asks(queries: &[QuerySpec], actions: Vec<ActionSpec>) -> RuleSpec {
    RuleSpec { queries: queries.to_vec(), ..rule(0, 0, vec![], actions) }
}

/// A buffer with a chunk of two slots.
pub fn buffer(isa: u16, first: u16, second: u16, delay: u16) -> Buffer {
    Buffer { isa, slots: [first, second, 0, 0, 0, 0, 0, 0], delay, error: false }
}

/// What a request leaves that no fact fits, or what is left of it: nil with the error flag set, so many ms from visible.
pub fn failed(delay: u16) -> Buffer {
    Buffer { delay, error: true, ..Buffer::default() }
}

/// A state with these buffers first.
pub fn state(clock: u32, buffers: &[Buffer]) -> State {
    let mut state = State { clock, ..State::default() };
    state.buffers[..buffers.len()].copy_from_slice(buffers);
    state
}

/// The number of a decoding, 0 if accepted.
pub fn number(image: &[u8]) -> u8 {
    Model::decode(image).map_or_else(|refusal| refusal.number, |_| 0)
}

/// A decoded model as a specification.
pub fn spec_of(model: &Model) -> ModelSpec {
    let chunk = |chunk: &Chunk| {
        let count = model.slot_count(u16::from(chunk.isa));
        ChunkSpec::new(chunk.isa, &chunk.slots[..count])
    };
    ModelSpec {
        version: Some(model.version()),
        failure: model.failure_latency(),
        types: (1..=model.types()).map(|isa| model.slot_count(isa as u16) as u8).collect(),
        opening: model.opening().iter().map(chunk).collect(),
        facts: model
            .facts()
            .iter()
            .map(|fact| FactSpec { chunk: chunk(&fact.chunk), activation: fact.activation, latency: fact.latency })
            .collect(),
        rules: model.rules().map(rule_spec).collect(),
    }
}

/// A decoded rule as a specification.
fn rule_spec(rule: Rule) -> RuleSpec {
    let test = |test: &jirvuntsag_reference::Test| TestSpec {
        buffer: test.buffer,
        isa: test.isa,
        pattern: pattern_spec(&test.pattern),
    };
    let action = |action: &jirvuntsag_reference::Action| ActionSpec {
        buffer: action.buffer,
        deed: match action.deed {
            Deed::Modify => packing::Deed::Modify(pattern_spec(&action.pattern)),
            Deed::Request(isa) => packing::Deed::Request(isa, pattern_spec(&action.pattern)),
            Deed::Clear => packing::Deed::Clear,
        },
    };
    RuleSpec {
        utility: rule.utility as u16,
        variables: rule.variables,
        tests: rule.tests.iter().map(test).collect(),
        queries: rule.queries.iter().map(query_spec).collect(),
        actions: rule.actions.iter().map(action).collect(),
    }
}

/// A decoded query as a specification.
fn query_spec(&Query { buffer, asks }: &Query) -> QuerySpec {
    match asks {
        Ask::Busy => QuerySpec::busy(buffer),
        Ask::Free => QuerySpec::free(buffer),
        Ask::Error => QuerySpec::error(buffer),
    }
}

/// A decoded pattern as a specification.
fn pattern_spec(pattern: &Pattern) -> packing::PatternSpec {
    let term = |(_, term)| match term {
        Term::Symbol(symbol) => packing::Term::Symbol(symbol),
        Term::Variable(number) => packing::Term::Variable(u16::from(number)),
    };
    packing::PatternSpec { mask: pattern.mask(), terms: pattern.named().map(term).collect() }
}

/// Whether a query holds, by the letter of request 2026-06.
fn holds_by_definition(query: &QuerySpec, state: &State) -> bool {
    let buffer = &state.buffers[usize::from(query.buffer)];
    match query.kind {
        0 => buffer.delay > 0,
        1 => buffer.delay == 0,
        2 => buffer.delay == 0 && buffer.error,
        kind => panic!("a query of kind {kind}"),
    }
}

/// The entry of a rule by the letter of document 01's definition of a match, as requests 2026-01 and 2026-06 have it.
pub fn entry_by_definition(spec: &ModelSpec, rule: usize, state: &State) -> [u16; 9] {
    if !spec.rules[rule].queries.iter().all(|query| holds_by_definition(query, state)) {
        return [0; 9];
    }
    let mut values: [Option<u16>; 8] = [None; 8];
    for test in &spec.rules[rule].tests {
        let buffer = &state.buffers[usize::from(test.buffer)];
        if buffer.delay != 0 || buffer.isa != u16::from(test.isa) {
            return [0; 9];
        }
        for (slot, term) in test.pattern.named() {
            let found = buffer.slots[slot];
            let wanted = match term {
                packing::Term::Symbol(symbol) => symbol,
                packing::Term::Variable(_) if found == 0 => return [0; 9],
                packing::Term::Variable(number) => *values[usize::from(number)].get_or_insert(found),
            };
            if found != wanted {
                return [0; 9];
            }
        }
    }
    let mut entry = [0; 9];
    entry[0] = 1;
    for (word, value) in entry[1..].iter_mut().zip(values) {
        *word = value.unwrap_or(0);
    }
    entry
}
