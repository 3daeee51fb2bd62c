//! Queries and the error flag (request 2026-06): each sentence of the request on both sides of the line, worked out by hand.

mod common;

use common::{asks, buffer, failed, model, rule, state, V0};
use jirvuntsag_packing::{
    largest_asking, model_a, pack, retries, ActionSpec, ModelSpec, QuerySpec, RuleSpec, Term, TestSpec,
};
use jirvuntsag_reference::{
    open, print, refresh, run, run_fresh, run_lent, table_len, Buffer, Kind, Model, State, STORE_WORDS,
};

/// What a request brings that the memory has a fact for.
const FACT: (u8, [u16; 2], u16, u16) = (1, [3, 4], 0, 70);
/// A visible buffer without a chunk and without an error.
const NIL: Buffer = Buffer { isa: 0, slots: [0; 8], delay: 0, error: false };

/// One step from a state by both runs: the number, the rule that fired if one did, and the state after.
fn step(model: &Model, from: State) -> (u8, Option<u16>, State) {
    let told = model.trace(from, &mut model.fresh_table(&from), 1);
    assert_eq!(model.trace_fresh(from, 1), told);
    let fired = told.2.first().and_then(|event| match event.kind {
        Kind::Fire(number) => Some(number),
        Kind::Wait(_) => None,
    });
    (told.0, fired, told.1)
}

/// Whether rule 0 of a model matches, by the entry and by what the run without a table fires.
fn matches(model: &Model, from: State) -> bool {
    let entry = model.fresh_entry(0, &from);
    assert_eq!(step(model, from).1 == Some(0), entry[0] == 1);
    entry[0] == 1
}

/// Whether busy, free and error hold of a buffer.
fn held(of: Buffer) -> [bool; 3] {
    let kinds = [QuerySpec::busy(1), QuerySpec::free(1), QuerySpec::error(1)];
    kinds.map(|query| matches(&model(2, &[], vec![asks(&[query], vec![])]), state(0, &[NIL, of])))
}

#[test]
fn busy_is_a_delay_above_0_and_free_a_delay_of_0() {
    for (delay, busy) in [(0, false), (1, true), (50, true), (65_535, true)] {
        assert_eq!(held(buffer(0, 0, 0, delay)), [busy, !busy, false], "nil with delay {delay}");
        assert_eq!(held(buffer(1, 3, 4, delay)), [busy, !busy, false], "a chunk with delay {delay}");
    }
}

#[test]
fn error_is_a_set_flag_of_a_visible_buffer() {
    for (delay, error) in [(0, true), (1, false), (50, false), (65_535, false)] {
        assert_eq!(held(failed(delay)), [!error, error, error], "delay {delay}");
    }
}

#[test]
fn a_request_that_finds_no_fact_sets_the_flag_which_is_asked_for_once_it_is_visible() {
    let failing =
        rule(5, 0, vec![TestSpec::new(0, 1, &[])], vec![ActionSpec::clear(0), ActionSpec::request(1, 2, &[])]);
    let model = model(2, &[FACT], vec![asks(&[QuerySpec::error(1)], vec![]), failing]);
    let (_, fired, pending) = step(&model, state(0, &[buffer(1, 3, 4, 0)]));
    assert_eq!((fired, pending), (Some(1), state(50, &[NIL, failed(200)])));
    // Nothing matches while it is under way; the wait keeps the flag, and then it holds.
    let (number, fired, visible) = step(&model, pending);
    assert_eq!((number, fired, visible), (0, None, state(250, &[NIL, failed(0)])));
    assert_eq!(step(&model, visible).1, Some(0));
}

#[test]
fn a_failure_latency_of_0_shows_the_error_at_once() {
    let failing = rule(0, 0, vec![TestSpec::new(0, 1, &[])], vec![ActionSpec::request(1, 1, &[])]);
    let late = asks(&[QuerySpec::error(1)], vec![]);
    let spec =
        ModelSpec { failure: 0, facts: vec![], rules: vec![RuleSpec { utility: 1, ..late }, failing], ..model_a() };
    let model = Model::decode(&pack(&spec)).expect("a valid model");
    let (_, _, after) = step(&model, state(0, &[buffer(1, 3, 4, 0)]));
    assert_eq!(after.buffers[1], failed(0));
    assert_eq!(step(&model, after).1, Some(0));
}

/// What an action leaves in buffer 1, fired by a rule that asks whether buffer 0 is free and tests buffer 1 if it is to.
fn left(tested: bool, action: ActionSpec, of: Buffer) -> Buffer {
    let tests = if tested { vec![TestSpec::new(1, 0, &[])] } else { vec![] };
    let acts = RuleSpec { queries: vec![QuerySpec::free(0)], ..rule(0, 0, tests, vec![action]) };
    let (number, fired, after) = step(&model(2, &[FACT], vec![acts]), state(0, &[NIL, of]));
    assert_eq!((number, fired), (0, Some(0)));
    after.buffers[1]
}

#[test]
fn every_other_action_on_the_buffer_clears_the_flag() {
    // A modify needs a test, so that its buffer is visible: nil, of which no slot can be named.
    assert_eq!(left(true, ActionSpec::modify(1, &[]), failed(0)), NIL);
    for delay in [0, 1, 50, 51, 65_535] {
        assert_eq!(left(false, ActionSpec::clear(1), failed(delay)), NIL, "delay {delay}");
        assert_eq!(left(false, ActionSpec::request(1, 1, &[]), failed(delay)), buffer(1, 3, 4, 70), "delay {delay}");
        assert_eq!(left(false, ActionSpec::request(1, 2, &[]), failed(delay)), failed(200), "it fails again");
    }
}

#[test]
fn only_a_request_that_finds_no_fact_sets_the_flag() {
    assert_eq!(left(true, ActionSpec::modify(1, &[]), NIL), NIL);
    assert_eq!(left(false, ActionSpec::clear(1), NIL), NIL);
    assert_eq!(left(false, ActionSpec::request(1, 1, &[]), NIL), buffer(1, 3, 4, 70));
    assert_eq!(left(false, ActionSpec::request(1, 1, &[(0, Term::Symbol(9))]), NIL), failed(200));
    // A chunk makes way for nil and the flag.
    assert_eq!(left(false, ActionSpec::request(1, 2, &[]), buffer(1, 3, 4, 60)), failed(200));
}

#[test]
fn a_firing_without_an_action_on_the_buffer_keeps_the_flag() {
    let idle = asks(&[QuerySpec::free(0)], vec![ActionSpec::clear(0)]);
    let model = model(2, &[], vec![idle]);
    for (before, after) in [(0, 0), (1, 0), (50, 0), (51, 1), (65_535, 65_485)] {
        assert_eq!(step(&model, state(0, &[NIL, failed(before)])), (0, Some(0), state(50, &[NIL, failed(after)])));
    }
}

#[test]
fn a_wait_keeps_the_flags_of_all_buffers() {
    let model = model(4, &[], vec![]);
    let from = state(5, &[failed(30), failed(80), failed(0), buffer(1, 3, 4, 30)]);
    let after = state(35, &[failed(0), failed(50), failed(0), buffer(1, 3, 4, 0)]);
    assert_eq!(step(&model, from), (0, None, after));
}

#[test]
fn a_step_that_is_not_made_keeps_the_flags() {
    let clears = asks(&[QuerySpec::error(0)], vec![ActionSpec::clear(0)]);
    let model = model(1, &[], vec![clears]);
    let full = state(u32::MAX, &[failed(0)]);
    assert_eq!(step(&model, full), (8, None, full));
    let halted = state(0, &[NIL]);
    assert_eq!(step(&model, halted), (9, None, halted));
}

#[test]
fn for_a_match_tests_and_queries_must_hold() {
    let tests = vec![TestSpec::new(0, 1, &[(0, V0)])];
    let both = RuleSpec { queries: vec![QuerySpec::busy(1), QuerySpec::free(2)], ..rule(0, 1, tests, vec![]) };
    let model = model(3, &[], vec![both]);
    let entry = |goal: Buffer, one, two| {
        let from = state(0, &[goal, buffer(0, 0, 0, one), buffer(1, 1, 1, two)]);
        matches(&model, from);
        model.fresh_entry(0, &from)
    };
    let goal = buffer(1, 3, 4, 0);
    assert_eq!(entry(goal, 1, 0), [1, 3, 0, 0, 0, 0, 0, 0, 0]);
    for (goal, one, two) in [(goal, 0, 0), (goal, 1, 1), (buffer(2, 3, 4, 0), 1, 0), (buffer(1, 3, 4, 1), 1, 0)] {
        assert_eq!(entry(goal, one, two), [0; 9], "{goal:?} {one} {two}");
    }
}

#[test]
fn a_query_may_stand_beside_a_test_of_its_buffer() {
    let tested = |isa, query| RuleSpec { queries: vec![query], ..rule(0, 0, vec![TestSpec::new(0, isa, &[])], vec![]) };
    let of = |isa, query, from: Buffer| matches(&model(1, &[], vec![tested(isa, query)]), state(0, &[from]));
    assert!(of(0, QuerySpec::error(0), failed(0)) && !of(0, QuerySpec::error(0), NIL));
    assert!(of(0, QuerySpec::free(0), failed(0)) && of(1, QuerySpec::free(0), buffer(1, 3, 4, 0)));
    // What is tested is visible, so that it is not busy; and beside a chunk there is no flag.
    assert!(!of(0, QuerySpec::busy(0), NIL) && !of(0, QuerySpec::busy(0), buffer(0, 0, 0, 1)));
    assert!(!of(1, QuerySpec::error(0), buffer(1, 3, 4, 0)));
}

#[test]
fn a_rule_without_tests_has_an_entry_without_values() {
    let one = model(8, &[], vec![asks(&[QuerySpec::free(7)], vec![])]);
    assert_eq!(one.fresh_table(&State::default()), [1, 0, 0, 0, 0, 0, 0, 0, 0]);
    let mut busy = State::default();
    busy.buffers[7].delay = 1;
    assert_eq!(one.fresh_table(&busy), [0; 9]);
    // All eight buffers may be asked.
    let all: Vec<QuerySpec> = (0..8).map(QuerySpec::free).collect();
    let all = model(8, &[], vec![asks(&all, vec![])]);
    assert!(matches(&all, State::default()) && !matches(&all, busy));
}

#[test]
fn queries_do_not_change_which_rule_is_chosen() {
    let of = |utility, query| RuleSpec { utility, ..asks(&[query], vec![]) };
    let rules = vec![
        of(0, QuerySpec::free(0)),
        of(7, QuerySpec::error(0)),
        of(7, QuerySpec::free(0)),
        of(9, QuerySpec::busy(0)),
    ];
    let model = model(1, &[], rules);
    let fired = |from| step(&model, state(0, &[from])).1;
    assert_eq!([fired(failed(0)), fired(NIL), fired(failed(1))], [Some(1), Some(2), Some(3)]);
}

/// Rule 0 asks buffer 1 while it is free, rule 1 idles while it is busy, rule 2 clears what has failed.
#[test]
fn marks_keep_the_entries_of_rules_that_only_query() {
    let asks_again = rule(0, 0, vec![TestSpec::new(1, 1, &[])], vec![]);
    let busy = RuleSpec { utility: 1, ..asks(&[QuerySpec::busy(1)], vec![]) };
    let error = RuleSpec { utility: 2, ..asks(&[QuerySpec::error(1)], vec![ActionSpec::request(1, 1, &[])]) };
    let free = asks(&[QuerySpec::free(1)], vec![ActionSpec::request(1, 2, &[])]);
    let model = model(2, &[FACT], vec![free, busy, error, asks_again]);
    let mut table = model.fresh_table(&State::default());
    let (number, after, events) = model.trace(State::default(), &mut table, 9);
    let fired: Vec<Kind> = events.iter().map(|event| event.kind).collect();
    // The request fails after 200 ms, in which the busy rule fires four times; the other brings its fact after 70.
    let rules = [0, 1, 1, 1, 1, 2, 1, 1, 0];
    assert_eq!((number, fired), (0, rules.map(Kind::Fire).to_vec()));
    assert_eq!(after, state(450, &[NIL, failed(200)]));
    assert_eq!(table, model.fresh_table(&after));
    assert_eq!(model.trace_fresh(State::default(), 9), (number, after, events));
}

#[test]
fn a_refresh_counts_and_renews_the_rules_that_test_or_query_a_marked_buffer() {
    let tests = rule(0, 0, vec![TestSpec::new(0, 0, &[])], vec![]);
    let queries = asks(&[QuerySpec::free(1), QuerySpec::busy(2)], vec![]);
    let both = RuleSpec { queries: vec![QuerySpec::free(0)], ..rule(0, 0, vec![TestSpec::new(2, 0, &[])], vec![]) };
    let model = model(4, &[], vec![tests, queries, both]);
    let from = state(0, &[NIL, NIL, failed(7)]);
    for (mark, renewed) in
        [(0, [0, 0, 0]), (1, [1, 0, 1]), (2, [0, 1, 0]), (4, [0, 1, 1]), (8, [0, 0, 0]), (7, [1, 1, 1])]
    {
        let mut table = [9; 27];
        let count = renewed.iter().sum();
        assert_eq!(model.refresh(&from, mark, &mut table), (0, count), "mark {mark}");
        for (rule, entry) in table.chunks_exact(9).enumerate() {
            let fresh = model.fresh_entry(rule, &from);
            assert_eq!(entry, if renewed[rule] == 1 { fresh } else { [9; 9] }, "mark {mark}, rule {rule}");
        }
    }
    assert_eq!(model.fresh_table(&from).chunks_exact(9).map(|entry| entry[0]).collect::<Vec<_>>(), [1, 1, 0]);
}

#[test]
fn a_stale_entry_of_a_rule_that_only_queries_is_7_if_it_is_chosen() {
    let model = model(1, &[], vec![asks(&[QuerySpec::error(0)], vec![])]);
    let (from, mut table) = (state(0, &[NIL]), [1, 0, 0, 0, 0, 0, 0, 0, 0]);
    assert_eq!(model.run(from, &mut table, 1), (7, from, 0));
    assert_eq!(model.run(state(0, &[failed(0)]), &mut table, 1).0, 0);
    let mut with_value = [1, 1, 0, 0, 0, 0, 0, 0, 0];
    assert_eq!(model.run(state(0, &[failed(0)]), &mut with_value, 1).0, 7);
}

#[test]
fn opening_flags_are_clear() {
    let image = pack(&ModelSpec { version: Some(2), ..model_a() });
    let (number, at, from) = open(&image, &mut [0; 27]);
    assert_eq!((number, at), (0, 0));
    assert!(from.buffers.iter().all(|buffer| !buffer.error));
}

#[test]
fn a_flag_is_not_learned_and_clearing_it_neither() {
    let clears = asks(&[QuerySpec::free(0)], vec![ActionSpec::clear(0), ActionSpec::clear(1)]);
    let model = model(2, &[], vec![clears]);
    let mut store = vec![0; STORE_WORDS];
    let from = state(0, &[buffer(2, 8, 9, 0), failed(0)]);
    assert_eq!(model.run_fresh_lent(from, 1, Some(&mut store)), (0, state(50, &[]), 1));
    assert_eq!((&store[..10], store[10..].iter().any(|&word| word != 0)), (&[1, 2, 8, 9, 0, 0, 0, 0, 0, 0][..], false));
    let mut kept = vec![0; STORE_WORDS];
    assert_eq!(model.run_lent(from, &mut model.fresh_table(&from), 1, Some(&mut kept)), (0, state(50, &[]), 1));
    assert_eq!(kept, store);
}

#[test]
fn a_fact_that_was_learned_clears_the_flag_as_one_of_the_image() {
    let asks = asks(&[QuerySpec::error(0)], vec![ActionSpec::request(0, 1, &[])]);
    let model = model(1, &[], vec![asks]);
    let mut store = vec![0; STORE_WORDS];
    let from = state(0, &[failed(0)]);
    assert_eq!(model.run_fresh_lent(from, 1, Some(&mut store)), (0, state(50, &[failed(200)]), 1));
    store[..4].copy_from_slice(&[1, 1, 3, 4]);
    let learned = (0, state(50, &[buffer(1, 3, 4, 50)]), 1);
    assert_eq!(model.run_fresh_lent(from, 1, Some(&mut store.clone())), learned);
    assert_eq!(model.run_lent(from, &mut model.fresh_table(&from), 1, Some(&mut store)), learned);
}

/// The states that are taken, and those that are refused as 6, each by all calls and by both versions.
#[test]
fn a_flag_beside_a_chunk_or_past_the_count_is_6() {
    let flagged = |buffer: Buffer| Buffer { error: true, ..buffer };
    let taken = [[NIL, NIL, NIL], [failed(0), failed(1), NIL], [failed(65_535), buffer(1, 3, 4, 0), NIL]];
    let refused = [
        [flagged(buffer(1, 3, 4, 0)), NIL, NIL],
        [NIL, flagged(buffer(2, 0, 0, 0)), NIL],
        [NIL, flagged(buffer(1, 3, 4, 9)), NIL],
        [NIL, NIL, failed(0)],
        [NIL, NIL, failed(1)],
    ];
    for version in [1, 2] {
        let image = pack(&ModelSpec { version: Some(version), ..model_a() });
        for (number, buffers) in taken.map(|of| (0, of)).into_iter().chain(refused.map(|of| (6, of))) {
            let from = state(9, &buffers);
            let mut table = [0; 27];
            assert_eq!(run(&image, from, &mut table, 0), (number, 0, from, 0), "{buffers:?}");
            assert_eq!(run_fresh(&image, from, 0), (number, 0, from, 0), "{buffers:?}");
            assert_eq!(refresh(&image, &from, 0, &mut table), (number, 0, 0), "{buffers:?}");
        }
    }
    let mut last = State::default();
    last.buffers[7].error = true;
    assert_eq!(run_fresh(&pack(&model_a()), last, 5), (6, 0, last, 0));
}

#[test]
fn a_bad_flag_is_told_in_the_place_of_6() {
    let image = pack(&model_a());
    let from = state(0, &[NIL, NIL, failed(0)]);
    assert_eq!(run(&image, from, &mut [0; 28], 1), (5, 0, from, 0));
    assert_eq!(refresh(&image, &from, 4, &mut [0; 27]), (6, 0, 0));
    assert_eq!(refresh(&image, &state(0, &[]), 4, &mut [0; 27]), (10, 0, 0));
    assert_eq!(run_lent(&image, from, &mut [0; 27], 1, Some(&mut [])), (6, 0, from, 0));
    assert_eq!(run_lent(&image, state(0, &[]), &mut [0; 27], 1, Some(&mut [])).0, 15);
}

/// In version 1 flags are set, kept and cleared as well, though no rule can ask for them.
#[test]
fn flags_go_their_way_in_version_1() {
    let image = pack(&model_a());
    assert_eq!(image[0], 1);
    let mut table = vec![0; table_len(&image).2];
    let (_, _, opening) = open(&image, &mut table);
    let (_, _, failing, _) = run(&image, opening, &mut table, 5);
    assert_eq!((failing.clock, failing.buffers[1]), (350, failed(200)));
    let (number, _, end, _) = run(&image, failing, &mut table, 5);
    assert_eq!((number, end.clock, end.buffers[1]), (9, 550, failed(0)));
    // Rule 0 asks an empty retrieval buffer again, which clears its flag.
    let again = State { buffers: [opening.buffers[0], failed(0), NIL, NIL, NIL, NIL, NIL, NIL], clock: 0 };
    assert_eq!(run_fresh(&image, again, 1).2.buffers[1], buffer(1, 1, 2, 100));
}

#[test]
fn the_largest_image_with_queries_opens_and_all_its_rules_match() {
    let image = pack(&largest_asking());
    let mut table = vec![0; table_len(&image).2];
    let (number, _, from) = open(&image, &mut table);
    assert!(number == 0 && table.len() == 9 * 256 && table.chunks_exact(9).all(|entry| entry[0] == 1));
    let mut busy = from;
    busy.buffers[7].delay = 1;
    assert_eq!(refresh(&image, &busy, 128, &mut table), (0, 0, 256));
    assert!(table.iter().all(|&word| word == 0));
}

#[test]
fn a_model_without_queries_runs_alike_in_both_versions() {
    let of = |version| Model::decode(&pack(&ModelSpec { version: Some(version), ..model_a() })).expect("model A");
    let (one, two) = (of(1), of(2));
    assert_eq!((one.version(), two.version()), (1, 2));
    let from = one.open_state();
    assert_eq!(two.open_state(), from);
    let told = one.trace(from, &mut one.fresh_table(&from), 100);
    assert_eq!(two.trace(from, &mut two.fresh_table(&from), 100), told);
    assert_eq!(two.trace_fresh(from, 100), told);
}

/// A request that fails, the time that passes, another that finds its fact, and the end.
#[test]
fn the_model_that_asks_again_prints_its_steps() {
    let lines = "\
50 fire 0
100 fire 1
150 fire 1
200 fire 1
250 fire 1
300 fire 2
350 fire 1
400 fire 1
450 fire 3
end 9 9
";
    assert_eq!(print(&pack(&retries())), lines);
}
