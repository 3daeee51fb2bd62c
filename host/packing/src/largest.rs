//! Models that fill the largest image to its last byte.

use crate::spec::{ActionSpec, ChunkSpec, FactSpec, ModelSpec, QuerySpec, RuleSpec, Term, TestSpec};

const SLOTS: usize = 8;
const BUFFERS: u8 = 8;
const RULES: usize = 256;
/// Slots that every request names; the full eight would not leave room for all rules.
const NAMED: usize = 6;
/// Rules whose first request names one slot more, so that 65,536 bytes are filled.
const LONGER: usize = 71;
/// Slots that every request names beside queries.
const NAMED_ASKING: usize = 5;
/// Requests that name one slot more beside queries, so that 65,536 bytes are filled.
const LONGER_ASKING: usize = 1_253;

/// 8 buffers, 63 types, 512 facts and 256 rules with 8 tests and 8 actions each: 65,536 bytes. Every rule matches at the opening.
pub fn largest() -> ModelSpec {
    let named = |number, buffer| NAMED + usize::from(buffer == 0 && number < LONGER);
    model(&[], named)
}

/// The same with 8 queries in each rule but the last, which has 7; all hold at the opening: 65,536 bytes of version 2.
pub fn largest_asking() -> ModelSpec {
    let queries: Vec<QuerySpec> = (0..BUFFERS).map(QuerySpec::free).collect();
    let request = |number: usize, buffer: u8| number * usize::from(BUFFERS) + usize::from(buffer);
    let mut spec =
        model(&queries, |number, buffer| NAMED_ASKING + usize::from(request(number, buffer) < LONGER_ASKING));
    // With the eighth the image would be two bits too long.
    spec.rules[RULES - 1].queries.remove(0);
    spec
}

/// All that there can be, with these queries in each rule, and so many slots named by the request of a rule to a buffer.
fn model(queries: &[QuerySpec], named: impl Fn(usize, u8) -> usize) -> ModelSpec {
    let values: Vec<u16> = (1..=SLOTS as u16).collect();
    let fact = |number: u16| FactSpec {
        chunk: ChunkSpec { isa: 1 + (number % 63) as u8, slots: values.iter().map(|value| value + number).collect() },
        activation: number,
        latency: 50 + number,
    };
    let rule = |number| RuleSpec { queries: queries.to_vec(), ..rule(number, |buffer| named(number, buffer)) };
    ModelSpec {
        failure: 200,
        types: vec![SLOTS as u8; 63],
        opening: vec![ChunkSpec::new(1, &values); usize::from(BUFFERS)],
        facts: (0..512).map(fact).collect(),
        rules: (0..RULES).map(rule).collect(),
        ..ModelSpec::default()
    }
}

/// A rule that tests every slot of every buffer, and asks for a chunk in each, by so many slots.
fn rule(number: usize, named: impl Fn(u8) -> usize) -> RuleSpec {
    let terms = |slots: usize| (0..slots).map(|slot| (slot, Term::Variable(slot as u16))).collect::<Vec<_>>();
    let request = |buffer: u8| ActionSpec::request(buffer, 1 + (number % 63) as u8, &terms(named(buffer)));
    RuleSpec {
        utility: number as u16,
        variables: SLOTS as u8,
        tests: (0..BUFFERS).map(|buffer| TestSpec::new(buffer, 1, &terms(SLOTS))).collect(),
        actions: (0..BUFFERS).map(request).collect(),
        ..RuleSpec::default()
    }
}
