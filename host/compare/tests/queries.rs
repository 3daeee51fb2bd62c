//! Queries and error flags (request 2026-06), on both engines, kept and fresh: cases worked out by hand.

use jirvuntsag_compare::{buffer, failed, hold_lent, hold_same, opening, state, Told, BOTH, P1, REFERENCE};
use jirvuntsag_packing::{
    model_a, pack, pack_with_fields, retries, ActionSpec, ChunkSpec, Deed, FactSpec, ModelSpec, PatternSpec, QuerySpec,
    Role, RuleSpec, Term, TestSpec,
};
use jirvuntsag_reference::{Buffer, Kind, State, STORE_WORDS};

/// A visible buffer without a chunk and without an error.
const NIL: Buffer = Buffer { isa: 0, slots: [0; 8], delay: 0, error: false };

/// Three buffers, two types of two slots, one fact of type 1, (7, 8), and these rules.
fn image(rules: Vec<RuleSpec>) -> Vec<u8> {
    let fact = FactSpec { chunk: ChunkSpec::new(1, &[7, 8]), activation: 10, latency: 100 };
    let opening = vec![ChunkSpec::nil(); 3];
    pack(&ModelSpec { failure: 200, types: vec![2, 2], opening, facts: vec![fact], rules, ..ModelSpec::default() })
}

/// A rule without tests.
fn asks(queries: &[QuerySpec], actions: Vec<ActionSpec>) -> RuleSpec {
    RuleSpec { queries: queries.to_vec(), actions, ..RuleSpec::default() }
}

/// A run with an empty store by all four: what they tell.
fn run(image: &[u8], from: State, steps: u16) -> Told {
    hold_lent(image, from, steps, &[0; STORE_WORDS]).0
}

/// Whether the first rule of an image fires at once.
fn fires(image: &[u8], from: State) -> bool {
    run(image, from, 1).3.first().is_some_and(|event| event.kind == Kind::Fire(0))
}

#[test]
fn each_kind_on_each_side_of_its_line() {
    // The delay and the flag, and whether busy, free and error hold.
    let cases = [
        (0, false, [false, true, false]),
        (0, true, [false, true, true]),
        (1, false, [true, false, false]),
        (1, true, [true, false, false]),
        (65_535, true, [true, false, false]),
    ];
    for (delay, error, held) in cases {
        let from = state(0, &[NIL, Buffer { delay, error, ..NIL }]);
        let kinds = [QuerySpec::busy(1), QuerySpec::free(1), QuerySpec::error(1)];
        let found = kinds.map(|query| fires(&image(vec![asks(&[query], vec![])]), from));
        assert_eq!(found, held, "delay {delay}, flag {error}");
    }
}

#[test]
fn a_chunk_is_busy_or_free_whatever_it_is() {
    for (delay, busy) in [(0, false), (1, true), (60, true)] {
        let from = state(0, &[NIL, buffer(2, 3, 4, delay)]);
        assert_eq!(fires(&image(vec![asks(&[QuerySpec::busy(1)], vec![])]), from), busy);
        assert_eq!(fires(&image(vec![asks(&[QuerySpec::free(1)], vec![])]), from), !busy);
        assert!(!fires(&image(vec![asks(&[QuerySpec::error(1)], vec![])]), from));
    }
}

#[test]
fn all_queries_and_all_tests_must_hold() {
    let rule = RuleSpec {
        variables: 1,
        tests: vec![TestSpec::new(0, 1, &[(0, Term::Variable(0))])],
        queries: vec![QuerySpec::free(0), QuerySpec::error(1), QuerySpec::busy(2)],
        ..RuleSpec::default()
    };
    let image = image(vec![rule]);
    let holds = [buffer(1, 3, 4, 0), failed(0), buffer(0, 0, 0, 1)];
    assert!(fires(&image, state(0, &holds)));
    let others = [(0, buffer(1, 0, 4, 0)), (0, buffer(2, 3, 4, 0)), (1, NIL), (1, failed(1)), (2, NIL), (2, failed(0))];
    for (number, other) in others {
        let mut buffers = holds;
        buffers[number] = other;
        assert!(!fires(&image, state(0, &buffers)), "buffer {number}: {other:?}");
    }
}

/// What an action leaves in buffer 1, by a rule that asks whether buffer 0 is free and tests buffer 1 if it is to.
fn left(tests: Vec<TestSpec>, action: ActionSpec, of: Buffer) -> Buffer {
    let image = image(vec![RuleSpec { tests, ..asks(&[QuerySpec::free(0)], vec![action]) }]);
    let (number, _, after, events) = run(&image, state(0, &[NIL, of]), 1);
    assert_eq!((number, events.len()), (0, 1));
    after.buffers[1]
}

#[test]
fn a_request_that_finds_no_fact_sets_the_flag_and_every_other_action_clears_it() {
    let found = || ActionSpec::request(1, 1, &[(0, Term::Symbol(7))]);
    let not_found = || ActionSpec::request(1, 1, &[(0, Term::Symbol(9))]);
    for before in [NIL, failed(0), failed(1), failed(65_535), buffer(0, 0, 0, 70), buffer(2, 3, 4, 0)] {
        assert_eq!(left(vec![], ActionSpec::clear(1), before), NIL, "{before:?}");
        assert_eq!(left(vec![], found(), before), buffer(1, 7, 8, 100), "{before:?}");
        assert_eq!(left(vec![], not_found(), before), failed(200), "{before:?}");
    }
    let empty = || vec![TestSpec::new(1, 0, &[])];
    assert_eq!(left(empty(), ActionSpec::modify(1, &[]), failed(0)), NIL);
    assert_eq!(left(empty(), ActionSpec::modify(1, &[]), NIL), NIL);
}

#[test]
fn a_flag_without_an_action_stays_while_time_passes() {
    let fires = image(vec![asks(&[QuerySpec::free(0)], vec![ActionSpec::clear(0)])]);
    for (before, after) in [(0, 0), (1, 0), (50, 0), (51, 1), (65_535, 65_485)] {
        assert_eq!(run(&fires, state(0, &[NIL, failed(before)]), 1).2, state(50, &[NIL, failed(after)]));
    }
    let waits = image(vec![]);
    let (number, _, after, events) = run(&waits, state(0, &[failed(70), failed(30), failed(0)]), 1);
    assert_eq!((number, after, events[0].kind), (0, state(30, &[failed(40), failed(0), failed(0)]), Kind::Wait(30)));
}

/// The model that asks again, step by step: the rules that fire, and the retrieval buffer after each.
#[test]
fn the_model_that_asks_again() {
    let image = pack(&retries());
    let (_, _, from) = (REFERENCE.open)(&image, &mut [0; 36]);
    let steps = [
        (0, failed(200)),
        (1, failed(150)),
        (1, failed(100)),
        (1, failed(50)),
        (1, failed(0)),
        (2, buffer(1, 2, 3, 100)),
        (1, buffer(1, 2, 3, 50)),
        (1, buffer(1, 2, 3, 0)),
        (3, NIL),
    ];
    for (made, (rule, retrieval)) in (1..).zip(steps) {
        let (number, _, after, events) = run(&image, from, made);
        let last = events.last().expect("a step");
        assert_eq!((number, after.buffers[1], last.kind), (0, retrieval, Kind::Fire(rule)), "step {made}");
    }
    let (number, _, after, events) = run(&image, from, 65_535);
    assert_eq!((number, after, events.len()), (9, state(450, &[]), 9));
    for engine in BOTH {
        assert!((engine.print)(&image).ends_with("\n400 fire 1\n450 fire 3\nend 9 9\n"), "{}", engine.name);
    }
}

/// The entries of rules that only query, as they are opened, kept by a step, and refreshed after a change by hand.
#[test]
fn marks_and_refreshes_reach_rules_that_only_query() {
    let rules = [QuerySpec::busy(1), QuerySpec::free(1), QuerySpec::error(1)];
    let asking = rules.map(|query| asks(&[query], vec![ActionSpec::request(1, 2, &[])])).to_vec();
    let image = image(asking);
    let matching = |table: &[u16]| table.chunks_exact(9).map(|entry| entry[0]).collect::<Vec<_>>();
    for engine in BOTH {
        let mut table = vec![9; 27];
        let (_, _, from) = (engine.open)(&image, &mut table);
        assert_eq!(matching(&table), [0, 1, 0], "{}", engine.name);
        let (number, _, after, _) = (engine.run)(&image, from, &mut table, 1);
        assert_eq!((number, after.buffers[1], matching(&table)), (0, failed(200), vec![1, 0, 0]), "{}", engine.name);
        // Seen at once by hand: stale until it is refreshed, and then the rules that query the buffer, and no others, are.
        let mut seen = after;
        seen.buffers[1].delay = 0;
        assert_eq!((engine.run)(&image, seen, &mut table.clone(), 1).0, 7, "{}", engine.name);
        assert_eq!((engine.refresh)(&image, &seen, 5, &mut table), (0, 0, 0), "{}", engine.name);
        assert_eq!((engine.refresh)(&image, &seen, 2, &mut table), (0, 0, 3), "{}", engine.name);
        assert_eq!(matching(&table), [0, 1, 1], "{}", engine.name);
    }
}

#[test]
fn a_flag_beside_a_chunk_or_past_the_count_is_6_in_both_versions() {
    let flagged = Buffer { error: true, ..buffer(2, 3, 4, 0) };
    let late = Buffer { delay: 9, ..flagged };
    let states = [
        (0, state(3, &[NIL, failed(1)])),
        (0, state(3, &[failed(0), failed(65_535)])),
        (6, state(3, &[flagged])),
        (6, state(3, &[NIL, late])),
        (6, state(3, &[NIL, NIL, failed(0)])),
        (6, state(3, &[NIL, NIL, NIL, NIL, NIL, NIL, NIL, failed(1)])),
    ];
    for (version, (number, from)) in [1, 2].into_iter().flat_map(|version| states.map(|one| (version, one))) {
        let image = pack(&ModelSpec { version: Some(version), ..model_a() });
        // 6 comes before 15, and before 10.
        let lent = if number == 6 { vec![] } else { vec![0; STORE_WORDS] };
        let (told, left) = hold_lent(&image, from, 0, &lent);
        assert_eq!((told.0, told.2, left == lent), (number, from, true), "version {version}");
        for engine in BOTH {
            let mark = if number == 6 { 65_535 } else { 0 };
            assert_eq!((engine.refresh)(&image, &from, mark, &mut [0; 27]), (number, 0, 0), "{}", engine.name);
            assert_eq!((engine.run)(&image, from, &mut [0; 28], 1), (5, 0, from, 0), "5 before 6: {}", engine.name);
        }
    }
}

#[test]
fn in_version_1_flags_go_their_way() {
    let image = pack(&model_a());
    let (_, _, from) = (REFERENCE.open)(&image, &mut [0; 27]);
    assert_eq!(run(&image, from, 4).2.buffers[1], buffer(1, 2, 3, 0));
    assert_eq!(run(&image, from, 5).2.buffers[1], failed(200));
    assert_eq!(run(&image, from, 9).2.buffers[1], failed(0));
    // Rule 0 asks an empty buffer, whether its flag is set or not.
    let again = State { buffers: [from.buffers[0], failed(0), NIL, NIL, NIL, NIL, NIL, NIL], clock: 0 };
    assert_eq!(run(&image, again, 1).2.buffers[1], buffer(1, 1, 2, 100));
}

#[test]
fn versions_1_and_2_open_and_no_others() {
    for version in 0..=255 {
        let refused = hold_same(&opening([&[version], &P1[1..]].concat(), 5));
        assert_eq!(refused, (!matches!(version, 1 | 2)).then_some((3, 0)), "version {version}");
    }
}

/// The number and the position with which a model is refused by both engines, and where a field of it begins.
fn refused(spec: &ModelSpec, role: Role, which: usize) -> (Option<(u8, u32)>, u32) {
    let packed = pack_with_fields(spec);
    let at = packed.nth(role, which).expect("such a field").at as u32;
    (hold_same(&opening(packed.bytes, 5)), at)
}

#[test]
fn a_rule_has_a_test_or_a_query() {
    let of = |version, variables, queries: &[QuerySpec]| {
        let rule = RuleSpec { variables, ..asks(queries, vec![]) };
        ModelSpec { version: Some(version), rules: vec![rule], ..retries() }
    };
    assert_eq!(refused(&of(2, 0, &[QuerySpec::free(0)]), Role::Queries, 0).0, None);
    let (said, count) = refused(&of(2, 0, &[]), Role::Queries, 0);
    assert_eq!(said, Some((3, count)), "neither");
    let (said, count) = refused(&of(2, 1, &[]), Role::Queries, 0);
    assert_eq!(said, Some((12, count)), "a variable in no test is told before that");
    let (said, tests) = refused(&of(1, 0, &[]), Role::Tests, 0);
    assert_eq!(said, Some((3, tests)), "version 1 has no queries");
}

#[test]
fn a_buffer_that_is_only_queried_is_not_modified() {
    let mut spec = retries();
    let nothing = Deed::Modify(PatternSpec::default());
    spec.rules[1].actions = vec![ActionSpec { buffer: 1, deed: nothing.clone() }];
    let (said, kind) = refused(&spec, Role::ActionKind, 1);
    assert_eq!(said, Some((13, kind)));
    spec.rules[0].actions = vec![ActionSpec { buffer: 1, deed: nothing }];
    spec.rules[1].actions.clear();
    assert_eq!(refused(&spec, Role::ActionKind, 0).0, None, "it is tested and queried");
}
