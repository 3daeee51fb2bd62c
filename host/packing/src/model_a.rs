//! Model A of document 01.

use crate::spec::{ActionSpec, ChunkSpec, FactSpec, ModelSpec, RuleSpec, Term, TestSpec};

const GOAL: u8 = 0;
const RETRIEVAL: u8 = 1;
const V0: Term = Term::Variable(0);
const V1: Term = Term::Variable(1);

/// Counts from 1 to 3 by retrieving successors.
pub fn model_a() -> ModelSpec {
    let successor =
        |first, second| FactSpec { chunk: ChunkSpec::new(1, &[first, second]), activation: 10, latency: 100 };
    ModelSpec {
        failure: 200,
        types: vec![2, 2],
        opening: vec![ChunkSpec::new(2, &[1, 3]), ChunkSpec::nil()],
        facts: vec![successor(1, 2), successor(2, 3)],
        rules: vec![start(), go_on(), stop()],
        ..ModelSpec::default()
    }
}

/// Rule 0: asks for the successor of the current number.
fn start() -> RuleSpec {
    RuleSpec {
        utility: 0,
        variables: 1,
        tests: vec![TestSpec::new(GOAL, 2, &[(0, V0)]), TestSpec::new(RETRIEVAL, 0, &[])],
        actions: vec![ActionSpec::request(RETRIEVAL, 1, &[(0, V0)])],
        ..RuleSpec::default()
    }
}

/// Rule 1: takes the successor and asks for the next.
fn go_on() -> RuleSpec {
    RuleSpec {
        utility: 0,
        variables: 2,
        tests: vec![TestSpec::new(GOAL, 2, &[(0, V0)]), TestSpec::new(RETRIEVAL, 1, &[(0, V0), (1, V1)])],
        actions: vec![ActionSpec::modify(GOAL, &[(0, V1)]), ActionSpec::request(RETRIEVAL, 1, &[(0, V1)])],
        ..RuleSpec::default()
    }
}

/// Rule 2: the target is reached.
fn stop() -> RuleSpec {
    RuleSpec {
        utility: 1_000,
        variables: 1,
        tests: vec![TestSpec::new(GOAL, 2, &[(0, V0), (1, V0)])],
        actions: vec![ActionSpec::clear(GOAL)],
        ..RuleSpec::default()
    }
}
