//! Stores are what they are called, and runs that are lent one learn, in all ways that a step can go.

use std::collections::{BTreeMap, BTreeSet};

use jirvuntsag_generate::{case, each_seed, model, state, store, Case, StoreKind};
use jirvuntsag_packing::pack;
use jirvuntsag_reference::{run_fresh_lent, run_lent, Action, Buffer, Deed, Event, Kind, Model, State};

#[test]
fn stores_are_what_they_are_called() {
    let mut met: BTreeMap<StoreKind, u32> = BTreeMap::new();
    each_seed(30_000, 3_000, |_, mut rng| {
        let spec = model(&mut rng);
        let state = state(&mut rng, &spec);
        let (kind, mut words) = store(&mut rng, &spec, &state);
        let (number, ..) = run_fresh_lent(&pack(&spec), state, 0, Some(&mut words));
        assert_eq!(number, if kind.fits() { 0 } else { 15 }, "{kind:?}");
        *met.entry(kind).or_default() += 1;
    });
    println!("{met:?}");
    assert!(met.len() == 10 && met.values().all(|&count| count >= 20), "{met:?}");
}

/// The chunks that a firing clears.
fn cleared<'a>(actions: &'a [Action], before: &'a State) -> impl Iterator<Item = Buffer> + 'a {
    let clears = actions.iter().filter(|action| action.deed == Deed::Clear);
    clears.map(|action| before.buffers[usize::from(action.buffer)])
}

/// What a firing has to do with the store, whose words before it and after it are handed over.
fn note_firing(
    actions: &[Action],
    before: &State,
    after: &State,
    (old, new): (&[u16], &[u16]),
    seen: &mut BTreeSet<&'static str>,
) {
    let known = |store: &[u16], buffer: &Buffer| {
        let fact = [&[buffer.isa], &buffer.slots[..]].concat();
        store[1..].chunks_exact(9).take(usize::from(store[0])).any(|place| place == fact)
    };
    let seen_chunks: Vec<Buffer> = cleared(actions, before).filter(|one| one.delay == 0 && one.isa != 0).collect();
    let learned = new[0] - old[0];
    seen.extend((learned > 0).then_some("a chunk is learned"));
    seen.extend((learned > 1).then_some("two are learned at once"));
    seen.extend(
        cleared(actions, before).any(|one| one.delay > 0 && one.isa != 0).then_some("a pending chunk is cleared"),
    );
    seen.extend(cleared(actions, before).any(|one| one.isa == 0).then_some("nil is cleared"));
    seen.extend(seen_chunks.iter().any(|one| known(old, one)).then_some("a learned chunk is cleared"));
    seen.extend(seen_chunks.iter().any(|one| !known(new, one)).then_some("a chunk of the image is cleared"));
    let twice = seen_chunks.iter().enumerate().any(|(at, one)| seen_chunks[..at].contains(one));
    seen.extend(twice.then_some("equal chunks are cleared at once"));
    for action in actions.iter().filter(|action| matches!(action.deed, Deed::Request(_))) {
        let found = &after.buffers[usize::from(action.buffer)];
        seen.extend((found.isa != 0 && known(old, found)).then_some("a learned chunk is retrieved"));
        let replaced = &before.buffers[usize::from(action.buffer)];
        seen.extend((replaced.isa != 0 && replaced.delay == 0).then_some("a request replaces a chunk"));
    }
}

/// Makes a case's run step by step with its store, and notes what each step has to do with it.
fn note_run(case: &Case, seen: &mut BTreeSet<&'static str>) {
    let Ok(model) = Model::decode(&case.image) else { return };
    let (mut from, mut words) = (case.state, case.store.clone());
    for _ in 0..case.steps.min(30) {
        let (before, old) = (from, words.clone());
        let (number, after, events) = model.trace_fresh_lent(before, 1, Some(&mut words));
        if number != 0 {
            seen.extend((number == 14).then_some("the store is full"));
            seen.extend((number == 14 && old[0] < 256).then_some("the store is full for two"));
            return;
        }
        if let [Event { kind: Kind::Fire(rule), .. }] = events[..] {
            let actions = model.rules().nth(usize::from(rule)).map_or(&[][..], |rule| rule.actions);
            note_firing(actions, &before, &after, (&old, &words), seen);
            let cleared_known = words[0] == 256 && cleared(actions, &before).any(|one| one.delay == 0 && one.isa != 0);
            seen.extend((cleared_known && old[0] == 256).then_some("a full store, and nothing new"));
        }
        from = after;
    }
}

#[test]
fn runs_learn_in_all_ways() {
    let mut cases: BTreeMap<&str, u32> = BTreeMap::new();
    each_seed(35_000, 6_000, |seed, _| {
        let mut seen = BTreeSet::new();
        note_run(&case(seed), &mut seen);
        seen.into_iter().for_each(|what| *cases.entry(what).or_default() += 1);
    });
    println!("{cases:?}");
    let floors = [
        ("a chunk is learned", 150),
        ("two are learned at once", 20),
        ("equal chunks are cleared at once", 5),
        ("a pending chunk is cleared", 50),
        ("nil is cleared", 50),
        ("a learned chunk is cleared", 50),
        ("a chunk of the image is cleared", 20),
        ("a learned chunk is retrieved", 100),
        ("a request replaces a chunk", 100),
        ("the store is full", 50),
        ("the store is full for two", 1),
        ("a full store, and nothing new", 20),
    ];
    for (what, least) in floors {
        assert!(cases.get(what).is_some_and(|&count| count >= least), "{what}: {cases:?}");
    }
}

#[test]
fn every_answer_comes_up_with_a_store() {
    let mut answers: BTreeMap<(&str, u8), u32> = BTreeMap::new();
    each_seed(10_000, 6_000, |seed, _| {
        let case = case(seed);
        let Case { image, state, steps, .. } = &case;
        let kept = run_lent(image, *state, &mut case.table.clone(), *steps, Some(&mut case.store.clone()));
        let fresh = run_fresh_lent(image, *state, *steps, Some(&mut case.store.clone()));
        for (call, number) in [("run", kept.0), ("fresh", fresh.0)] {
            *answers.entry((call, number)).or_default() += 1;
        }
    });
    println!("{answers:?}");
    for number in 0..=15 {
        let given = |call| answers.get(&(call, number)).is_some_and(|&count| number < 14 || count >= 20);
        assert_eq!(given("run"), number != 10, "run {number}");
        assert_eq!(given("fresh"), !matches!(number, 5 | 7 | 10), "fresh {number}");
    }
}
