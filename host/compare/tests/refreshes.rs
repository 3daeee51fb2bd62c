//! A refresh matches the rules that test or query a marked buffer and no others: by its count, and by wrong words that must stay.

use jirvuntsag_compare::{Engine, BOTH, REFERENCE};
use jirvuntsag_generate::{each_seed, model, state, Rng};
use jirvuntsag_packing::{model_a, pack, retries, ModelSpec, RuleSpec};
use jirvuntsag_reference::{Model, State};

/// Whether a rule tests or queries a marked buffer.
fn is_marked(spec: &ModelSpec, rule: usize, mark: u16) -> bool {
    let RuleSpec { tests, queries, .. } = &spec.rules[rule];
    let mut watched = tests.iter().map(|test| test.buffer).chain(queries.iter().map(|query| query.buffer));
    watched.any(|buffer| mark >> buffer & 1 == 1)
}

/// A table of words that are no rule's entry: no first word of a fresh entry is above 1.
fn wrong(rng: &mut Rng, rules: usize) -> Vec<u16> {
    (0..9 * rules).map(|_| rng.from_to(2, 65_535) as u16).collect()
}

/// Refreshes a wrong table with every mark and looks at each entry.
fn hold(engine: &Engine, rng: &mut Rng, spec: &ModelSpec, state: &State) {
    let image = pack(spec);
    let fresh = Model::decode(&image).expect("a valid model").fresh_table(state);
    for mark in 0..1_u16 << spec.opening.len() {
        let handed = wrong(rng, spec.rules.len());
        let mut table = handed.clone();
        let said = (engine.refresh)(&image, state, mark, &mut table);
        let marked: Vec<bool> = (0..spec.rules.len()).map(|rule| is_marked(spec, rule, mark)).collect();
        let count = marked.iter().filter(|one| **one).count() as u16;
        assert_eq!(said, (0, 0, count), "{} mark {mark}", engine.name);
        for (rule, entry) in table.chunks_exact(9).enumerate() {
            let wanted = if marked[rule] { &fresh } else { &handed };
            assert_eq!(entry, &wanted[9 * rule..][..9], "{} mark {mark} rule {rule}", engine.name);
        }
    }
}

#[test]
fn every_mark_on_model_a() {
    let spec = model_a();
    let (_, _, state) = (REFERENCE.open)(&pack(&spec), &mut [0; 27]);
    for engine in BOTH {
        hold(engine, &mut Rng::new(1), &spec, &state);
        for (mark, number, count) in [(2, 0, 2), (1, 0, 3), (3, 0, 3), (0, 0, 0), (4, 10, 0), (65_535, 10, 0)] {
            let said = (engine.refresh)(&pack(&spec), &state, mark, &mut [9; 27]);
            assert_eq!(said, (number, 0, count), "{} {mark}", engine.name);
        }
    }
}

#[test]
fn every_mark_on_a_model_with_queries() {
    let spec = retries();
    let (_, _, state) = (REFERENCE.open)(&pack(&spec), &mut [0; 36]);
    for engine in BOTH {
        hold(engine, &mut Rng::new(1), &spec, &state);
        // All but rule 3 test or query the goal; rule 1 only queries, and rule 2 only queries the retrieval.
        for (mark, count) in [(0, 0), (1, 3), (2, 4), (3, 4)] {
            let said = (engine.refresh)(&pack(&spec), &state, mark, &mut [9; 36]);
            assert_eq!(said, (0, 0, count), "{} {mark}", engine.name);
        }
    }
}

#[test]
fn every_mark_on_random_models() {
    each_seed(60_000, 1_000, |_, mut rng| {
        let spec = model(&mut rng);
        let state = state(&mut rng, &spec);
        for engine in BOTH {
            hold(engine, &mut rng, &spec, &state);
        }
    });
}

#[test]
fn a_step_leaves_wrong_words_of_rules_that_it_does_not_mark() {
    // Model A's first step acts on retrieval alone: rule 2, which tests the goal alone, keeps its words.
    for engine in BOTH {
        let image = pack(&model_a());
        let mut table = vec![0; 27];
        let (_, _, state) = (engine.open)(&image, &mut table);
        let wrong: Vec<u16> = (0..9).map(|word| 65_535 - word).collect();
        table[18..].copy_from_slice(&wrong);
        assert_eq!((engine.run)(&image, state, &mut table, 2).0, 0, "{}", engine.name);
        assert_eq!(table[18..], wrong, "{}", engine.name);
    }
}
