//! Models have queries, states have error flags, and runs meet both in all ways that a step can go.

use std::collections::{BTreeMap, BTreeSet};

use jirvuntsag_generate::{
    broken_state, case, each_seed, is_flag, model, overfill, state, state_words, BrokenBy, Case, STATE_WORDS,
};
use jirvuntsag_packing::{pack, QuerySpec, RuleSpec};
use jirvuntsag_reference::{Action, Ask, Buffer, Deed, Event, Kind, Model, State};

/// How often each thing came up.
type Met = BTreeMap<String, u32>;

/// Holds what came up to the least of each.
fn hold(met: &Met, floors: &[(&str, u32)]) {
    println!("{met:?}");
    for (what, least) in floors {
        assert!(met.get(*what).is_some_and(|count| count >= least), "{what}: {met:?}");
    }
}

/// Notes what a rule of version 2 asks.
fn note_rule(rule: &RuleSpec, buffers: usize, met: &mut Met) {
    let tested = |query: &QuerySpec| rule.tests.iter().any(|test| test.buffer == query.buffer);
    let mut note = |what: &str| *met.entry(what.into()).or_default() += 1;
    match rule.queries.len() {
        0 => note("no queries"),
        _ if rule.tests.is_empty() => note("queries alone"),
        _ => note("tests and queries"),
    }
    if rule.queries.len() == buffers {
        note("all buffers are queried");
    }
    for query in &rule.queries {
        note(if tested(query) { "a tested buffer is queried" } else { "an untested buffer is queried" });
        note(["busy", "free", "error"][usize::from(query.kind)]);
    }
}

#[test]
fn about_half_of_the_models_have_queries() {
    let (mut versions, mut met) = ([0; 2], Met::new());
    each_seed(45_000, 2_000, |_, mut rng| {
        let spec = model(&mut rng);
        let version = usize::from(pack(&spec)[0]);
        versions[version - 1] += 1;
        for rule in &spec.rules {
            assert!(version == 2 || rule.queries.is_empty());
            if version == 2 {
                note_rule(rule, spec.opening.len(), &mut met);
            }
        }
    });
    assert!(versions.iter().all(|count| 10 * count > 4 * versions.iter().sum::<u32>()), "{versions:?}");
    let floors = [
        ("no queries", 1_000),
        ("queries alone", 200),
        ("tests and queries", 1_000),
        ("all buffers are queried", 500),
        ("a tested buffer is queried", 1_000),
        ("an untested buffer is queried", 1_000),
        ("busy", 500),
        ("free", 500),
        ("error", 500),
    ];
    hold(&met, &floors);
}

#[test]
fn flags_come_up_where_they_may_stand() {
    let mut met = Met::new();
    each_seed(50_000, 3_000, |_, mut rng| {
        let spec = model(&mut rng);
        for buffer in state(&mut rng, &spec).buffers.iter().filter(|buffer| buffer.error) {
            let place = if buffer.delay > 0 { "pending" } else { "visible" };
            *met.entry(place.into()).or_default() += 1;
        }
    });
    hold(&met, &[("pending", 100), ("visible", 300)]);
}

#[test]
fn flags_come_up_where_they_may_not_stand_and_are_all_that_is_wrong() {
    let mut met = Met::new();
    each_seed(51_000, 3_000, |_, mut rng| {
        let spec = model(&mut rng);
        let model = Model::decode(&pack(&spec)).expect("a valid model");
        let (way, mut broken) = broken_state(&mut rng, &spec);
        let past = broken.buffers[spec.opening.len()..].iter().any(|buffer| buffer.error);
        if way == BrokenBy::Flag || past {
            broken.buffers.iter_mut().for_each(|buffer| buffer.error = false);
            assert!(model.is_well_formed(&broken));
            let place = if past { "past the count" } else { "beside a chunk" };
            *met.entry(place.into()).or_default() += 1;
        }
    });
    hold(&met, &[("beside a chunk", 200), ("past the count", 50)]);
}

/// Of the words of the C interface: a flag of 2 and more, and others of more than sixteen bits.
#[test]
fn words_come_up_that_are_too_large_for_their_field() {
    let mut met = Met::new();
    each_seed(52_000, 1_000, |_, mut rng| {
        let spec = model(&mut rng);
        let before = state_words(&state(&mut rng, &spec));
        let mut words = before.clone();
        let index = overfill(&mut rng, &mut words);
        assert!(words.len() == STATE_WORDS && words[index] > before[index]);
        assert_eq!((&words[..index], &words[index + 1..]), (&before[..index], &before[index + 1..]));
        assert!(words[index] > if is_flag(index) { 1 } else { 65_535 }, "word {index} is {}", words[index]);
        let kind = if is_flag(index) { "a flag" } else { "another word" };
        *met.entry(kind.into()).or_default() += 1;
    });
    hold(&met, &[("a flag", 50), ("another word", 500)]);
}

/// A buffer of which a query holds, as like to another as it can be.
fn answering(asks: Ask, buffer: Buffer) -> Buffer {
    match asks {
        Ask::Busy => Buffer { delay: 1, ..buffer },
        Ask::Free => Buffer { delay: 0, ..buffer },
        Ask::Error => Buffer { error: true, ..Buffer::default() },
    }
}

/// Notes which queries hold where their rule matches, and which alone keep it from that.
fn note_queries(model: &Model, from: &State, seen: &mut BTreeSet<String>) {
    for (number, rule) in model.rules().enumerate() {
        let matches = |state: &State| model.fresh_entry(number, state)[0] == 1;
        for query in rule.queries {
            let mut other = *from;
            let buffer = &mut other.buffers[usize::from(query.buffer)];
            *buffer = answering(query.asks, *buffer);
            if matches(from) {
                seen.insert(format!("{:?} holds", query.asks));
            } else if matches(&other) {
                seen.insert(format!("{:?} alone fails", query.asks));
            }
        }
        if rule.tests.is_empty() && matches(from) {
            seen.insert("a rule without tests matches".into());
        }
    }
}

/// Notes what an action does to the flag of its buffer.
fn note_action(action: &Action, before: &Buffer, after: &Buffer, seen: &mut BTreeSet<String>) {
    let deed = match action.deed {
        Deed::Modify => "a modify",
        Deed::Clear => "a clear",
        Deed::Request(_) => "a request",
    };
    let does = match (before.error, after.error) {
        (false, false) => return,
        (false, true) => "sets",
        (true, false) => "clears",
        (true, true) => "sets again",
    };
    let late = if before.error && before.delay > 0 { ", pending" } else { "" };
    seen.insert(format!("{deed} {does}{late}"));
}

/// Notes what a step does to the flags; a wait has no actions.
fn note_flags(actions: Option<&[Action]>, before: &State, after: &State, seen: &mut BTreeSet<String>) {
    let of = |buffer: usize| actions.into_iter().flatten().find(|action| usize::from(action.buffer) == buffer);
    for (b, (old, new)) in before.buffers.iter().zip(&after.buffers).enumerate() {
        match of(b) {
            Some(action) => note_action(action, old, new, seen),
            None => {
                assert_eq!(old.error, new.error, "no action, and no other flag");
                let step = if actions.is_some() { "a firing" } else { "a wait" };
                let shown = if old.delay > 0 && new.delay == 0 { " and shows it" } else { "" };
                seen.extend(new.error.then(|| format!("{step} keeps{shown}")));
            }
        }
    }
}

/// Makes a case's run step by step, and notes what each has to do with queries and flags.
fn note_run(case: &Case, seen: &mut BTreeSet<String>) {
    let Ok(model) = Model::decode(&case.image) else { return };
    let mut from = case.state;
    for _ in 0..case.steps.min(20) {
        let (_, after, events) = model.trace_fresh(from, 1);
        let [Event { kind, .. }] = events[..] else { return };
        let fired = match kind {
            Kind::Fire(rule) => model.rules().nth(usize::from(rule)),
            Kind::Wait(_) => None,
        };
        note_queries(&model, &from, seen);
        note_flags(fired.map(|rule| rule.actions), &from, &after, seen);
        seen.extend(fired.filter(|rule| !rule.queries.is_empty()).map(|_| "a rule with queries fires".into()));
        from = after;
    }
}

#[test]
fn runs_meet_queries_and_flags_in_all_ways() {
    let mut met = Met::new();
    each_seed(55_000, 4_000, |seed, _| {
        let mut seen = BTreeSet::new();
        note_run(&case(seed), &mut seen);
        seen.into_iter().for_each(|what| *met.entry(what).or_default() += 1);
    });
    let floors = [
        ("Busy holds", 100),
        ("Busy alone fails", 100),
        ("Free holds", 100),
        ("Free alone fails", 50),
        ("Error holds", 50),
        ("Error alone fails", 50),
        ("a rule without tests matches", 100),
        ("a rule with queries fires", 100),
        ("a modify clears", 20),
        ("a clear clears", 30),
        ("a clear clears, pending", 10),
        ("a request clears", 50),
        ("a request clears, pending", 10),
        ("a request sets", 100),
        ("a request sets again", 30),
        ("a request sets again, pending", 20),
        ("a firing keeps", 100),
        ("a firing keeps and shows it", 20),
        ("a wait keeps", 50),
        ("a wait keeps and shows it", 50),
    ];
    hold(&met, &floors);
}
