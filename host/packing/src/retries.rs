//! A model with queries: version 2.

use crate::spec::{ActionSpec, ChunkSpec, FactSpec, ModelSpec, QuerySpec, RuleSpec, Term, TestSpec};

const GOAL: u8 = 0;
const RETRIEVAL: u8 = 1;
const V0: Term = Term::Variable(0);
const OTHER: Term = Term::Symbol(2);

/// Asks for what is not known, passes the time while it is busy, asks for something else when that has failed, and then stops.
pub fn retries() -> ModelSpec {
    let known = FactSpec { chunk: ChunkSpec::new(1, &[2, 3]), activation: 10, latency: 100 };
    ModelSpec {
        failure: 200,
        types: vec![2, 1],
        opening: vec![ChunkSpec::new(2, &[1]), ChunkSpec::nil()],
        facts: vec![known],
        rules: vec![ask(), pass_time(), ask_otherwise(), stop()],
        ..ModelSpec::default()
    }
}

/// Rule 0: asks for what the goal holds, where nothing is there and nothing on its way.
fn ask() -> RuleSpec {
    RuleSpec {
        variables: 1,
        tests: vec![TestSpec::new(GOAL, 2, &[(0, V0)]), TestSpec::new(RETRIEVAL, 0, &[])],
        queries: vec![QuerySpec::free(RETRIEVAL)],
        actions: vec![ActionSpec::request(RETRIEVAL, 1, &[(0, V0)])],
        ..RuleSpec::default()
    }
}

/// Rule 1: has no test; fires as long as a chunk is on its way.
fn pass_time() -> RuleSpec {
    RuleSpec { queries: vec![QuerySpec::free(GOAL), QuerySpec::busy(RETRIEVAL)], ..RuleSpec::default() }
}

/// Rule 2: the request has failed, and the goal gets something else to ask for.
fn ask_otherwise() -> RuleSpec {
    RuleSpec {
        utility: 1_000,
        tests: vec![TestSpec::new(GOAL, 2, &[])],
        queries: vec![QuerySpec::error(RETRIEVAL)],
        actions: vec![ActionSpec::modify(GOAL, &[(0, OTHER)]), ActionSpec::request(RETRIEVAL, 1, &[(0, OTHER)])],
        ..RuleSpec::default()
    }
}

/// Rule 3: something was found.
fn stop() -> RuleSpec {
    RuleSpec {
        tests: vec![TestSpec::new(RETRIEVAL, 1, &[])],
        actions: vec![ActionSpec::clear(GOAL), ActionSpec::clear(RETRIEVAL)],
        ..RuleSpec::default()
    }
}
