//! Models that images are damaged of.
#![allow(dead_code)] // No test has all of these.

use jirvuntsag_packing::{model_a, retries, ActionSpec, ChunkSpec, ModelSpec, RuleSpec, Term, TestSpec};

/// All that images are damaged of: two of version 1, and one of version 2.
pub fn damaged() -> [ModelSpec; 3] {
    [model_a(), wider(), retries()]
}

/// Four buffers, one of them untested; a type without slots, one with seven; three variables; a rule whose last fields are
/// those of a mask.
pub fn wider() -> ModelSpec {
    let v = Term::Variable;
    let rule = RuleSpec {
        utility: 0x8000,
        variables: 3,
        tests: vec![
            TestSpec::new(0, 2, &[(0, v(0)), (6, v(1))]),
            TestSpec::new(1, 1, &[]),
            TestSpec::new(3, 2, &[(2, v(2)), (3, Term::Symbol(4_095))]),
        ],
        actions: vec![ActionSpec::modify(0, &[(6, v(2))]), ActionSpec::clear(2), ActionSpec::request(3, 1, &[])],
        ..RuleSpec::default()
    };
    ModelSpec {
        failure: 1,
        types: vec![0, 7],
        opening: vec![ChunkSpec::nil(), ChunkSpec::new(1, &[]), ChunkSpec::nil(), ChunkSpec::nil()],
        facts: vec![],
        rules: vec![rule],
        ..ModelSpec::default()
    }
}
