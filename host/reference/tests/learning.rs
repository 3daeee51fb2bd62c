//! Runs that are lent a store: the kept run against the fresh one, which shares none of it, and by the letter of request 2026-05.

mod common;

use std::collections::BTreeSet;

use common::{buffer, model, rule, state};
use jirvuntsag_generate::{case, each_seed};
use jirvuntsag_packing::{ActionSpec, Term, TestSpec};
use jirvuntsag_reference::{
    run_fresh_lent, run_lent, trace_fresh_lent, trace_lent, Chunk, Deed, Event, Fact, Kind, Model, State, STORE_WORDS,
};

/// The facts of a store that fits.
fn facts(store: &[u16]) -> Vec<Chunk> {
    let fact = |place: &[u16]| Chunk { isa: place[0] as u8, slots: place[1..].try_into().expect("eight slots") };
    store[1..].chunks_exact(9).take(usize::from(store[0])).map(fact).collect()
}

/// What a firing from a state learns, by the letter: each clear in turn, of a visible buffer, not nil, not known.
fn learned_by_letter(model: &Model, rule: u16, before: &State, store: &[Chunk]) -> Vec<Chunk> {
    let mut after = store.to_vec();
    let rule = model.rules().nth(usize::from(rule)).expect("a rule");
    for action in rule.actions.iter().filter(|action| action.deed == Deed::Clear) {
        let buffer = before.buffers[usize::from(action.buffer)];
        let chunk = Chunk { isa: buffer.isa as u8, slots: buffer.slots };
        let known = |fact: &Fact| fact.chunk == chunk;
        if buffer.delay == 0 && buffer.isa != 0 && !model.facts().iter().any(known) && !after.contains(&chunk) {
            after.push(chunk);
        }
    }
    after
}

#[test]
fn a_fresh_run_with_a_store_is_the_kept_run_with_the_fresh_table_and_the_same_store() {
    let mut numbers = BTreeSet::new();
    each_seed(210_000, 6_000, |seed, _| {
        let case = case(seed);
        let mut table = Model::decode(&case.image).map_or(Vec::new(), |model| model.fresh_table(&case.state));
        let mut stores = [(); 4].map(|()| case.store.clone());
        let [one, two, three, four] = &mut stores;
        let told = trace_fresh_lent(&case.image, case.state, case.steps, Some(one));
        assert_eq!(trace_lent(&case.image, case.state, &mut table.clone(), case.steps, Some(two)), told);
        let ran = (told.0, told.1, told.2, told.3.len() as u16);
        assert_eq!(run_fresh_lent(&case.image, case.state, case.steps, Some(three)), ran);
        assert_eq!(run_lent(&case.image, case.state, &mut table, case.steps, Some(four)), ran);
        assert!(stores.iter().all(|store| *store == stores[0]));
        numbers.insert(told.0);
    });
    assert!([0, 2, 3, 4, 6, 8, 9, 11, 12, 13, 14, 15].iter().all(|number| numbers.contains(number)), "{numbers:?}");
    assert!([5, 7, 10].iter().all(|number| !numbers.contains(number)), "{numbers:?}");
}

/// Step by step: what is learned is what the letter says, a step that is not made changes nothing, and a step reads the image's
/// facts and then the store's, as one memory.
#[test]
fn each_step_learns_by_the_letter() {
    let mut learned = 0;
    each_seed(220_000, 6_000, |seed, _| {
        let case = case(seed);
        let Ok(model) = Model::decode(&case.image) else { return };
        let (mut from, mut store) = (case.state, case.store.clone());
        for _ in 0..case.steps.min(20) {
            let (before, old) = (from, store.clone());
            let (number, after, events) = model.trace_fresh_lent(before, 1, Some(&mut store));
            let fired = model.trace_fresh(before, 1).2;
            match (number, &events[..]) {
                (0, &[Event { kind: Kind::Fire(rule), .. }]) => {
                    assert_eq!(facts(&store), learned_by_letter(&model, rule, &before, &facts(&old)));
                    learned += u32::from(store != old);
                }
                (0, _) => assert!(store == old, "a wait learns nothing"),
                (14, _) => {
                    let [Event { kind: Kind::Fire(rule), .. }] = fired[..] else { panic!("14 for no firing") };
                    assert!(learned_by_letter(&model, rule, &before, &facts(&old)).len() > 256);
                    assert!(after == before && store == old);
                }
                _ => assert!(after == before && store == old, "{number}"),
            }
            if number != 0 {
                break;
            }
            from = after;
        }
    });
    assert!(learned > 200, "{learned}");
}

/// A store of no facts changes nothing until something is learned.
#[test]
fn an_empty_store_answers_as_none_until_something_is_learned() {
    each_seed(230_000, 4_000, |seed, _| {
        let case = case(seed);
        let mut store = vec![0; STORE_WORDS];
        let lent = trace_fresh_lent(&case.image, case.state, case.steps, Some(&mut store));
        if store[0] == 0 {
            assert_eq!(lent, trace_fresh_lent(&case.image, case.state, case.steps, None));
        }
    });
}

#[test]
fn by_hand_cleared_then_retrieved() {
    let clear = rule(1, 0, vec![TestSpec::new(0, 1, &[])], vec![ActionSpec::clear(0)]);
    let asks = vec![TestSpec::new(0, 0, &[]), TestSpec::new(1, 0, &[])];
    let ask = rule(0, 0, asks, vec![ActionSpec::request(1, 1, &[(0, Term::Symbol(3))])]);
    let model = model(2, &[(1, [3, 9], 0, 70), (2, [3, 4], 9, 70)], vec![clear, ask]);
    let from = state(0, &[buffer(1, 3, 4, 0)]);
    let mut store = vec![0; STORE_WORDS];
    // A fact of the image that fits comes first, though of the same activation.
    let (number, after, made) = model.run_fresh_lent(from, 2, Some(&mut store));
    assert_eq!((number, after, made), (0, state(100, &[buffer(0, 0, 0, 0), buffer(1, 3, 9, 70)]), 2));
    assert_eq!(facts(&store), [Chunk { isa: 1, slots: [3, 4, 0, 0, 0, 0, 0, 0] }]);
}
