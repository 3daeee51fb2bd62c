//! A variable takes no empty slot, and a constant nil takes no other: both sides of the line, worked out by hand.

mod common;

use common::{buffer, failed, model, rule, state, V0, V1};
use jirvuntsag_packing::{ActionSpec, RuleSpec, Term, TestSpec};
use jirvuntsag_reference::{Buffer, Kind, Model};

const NIL: Term = Term::Symbol(0);
/// The first words of an entry that does not match.
const NONE: [u16; 3] = [0; 3];
/// A goal with its first slot filled alone.
const HALF: Buffer = Buffer { isa: 1, slots: [3, 0, 0, 0, 0, 0, 0, 0], delay: 0, error: false };

/// A rule that tests the goal, buffer 0, for type 1 and these terms.
fn goal_rule(utility: i16, named: &[(usize, Term)], actions: Vec<ActionSpec>) -> RuleSpec {
    let variables = [V0, V1].iter().filter(|&one| named.iter().any(|(_, term)| term == one)).count();
    rule(utility, variables as u8, vec![TestSpec::new(0, 1, named)], actions)
}

/// Holds a rule with these terms in the goal's two slots to what it makes of slots: the first words of its entry.
fn assert_entries([first, second]: [Term; 2], cases: &[([u16; 2], [u16; 3])]) {
    let model = model(1, &[], vec![goal_rule(0, &[(0, first), (1, second)], vec![])]);
    for (slots, wanted) in cases {
        let from = state(0, &[buffer(1, slots[0], slots[1], 0)]);
        let table = model.fresh_table(&from);
        assert_eq!((&table[..3], &table[3..]), (&wanted[..], &[0; 6][..]), "{first:?} {second:?} {slots:?}");
        assert_eq!(model.run_fresh(from, 1).2, wanted[0], "{first:?} {second:?} {slots:?}");
    }
}

#[test]
fn a_half_filled_goal_matches_no_rule_for_a_full_one() {
    assert_entries([V0, V1], &[([3, 4], [1, 3, 4]), ([3, 0], NONE), ([0, 4], NONE), ([0, 0], NONE)]);
}

#[test]
fn a_constant_nil_tests_for_an_empty_slot() {
    assert_entries([V0, NIL], &[([3, 0], [1, 3, 0]), ([3, 4], NONE), ([0, 0], NONE), ([0, 4], NONE)]);
    assert_entries([NIL, V0], &[([0, 4], [1, 4, 0]), ([3, 4], NONE), ([0, 0], NONE), ([3, 0], NONE)]);
    assert_entries([NIL, NIL], &[([0, 0], [1, 0, 0]), ([0, 4], NONE), ([3, 0], NONE), ([3, 4], NONE)]);
}

#[test]
fn a_variable_in_two_slots_is_filled_in_both() {
    assert_entries([V0, V0], &[([4, 4], [1, 4, 0]), ([3, 4], NONE), ([0, 0], NONE), ([4, 0], NONE), ([0, 4], NONE)]);
}

#[test]
fn a_slot_that_no_test_names_may_be_empty() {
    let model = model(1, &[], vec![goal_rule(0, &[(0, V0)], vec![])]);
    assert_eq!(model.fresh_table(&state(0, &[HALF]))[..2], [1, 3]);
}

#[test]
fn a_variable_in_two_buffers_is_filled_in_both() {
    let tests = vec![TestSpec::new(0, 1, &[(0, V0)]), TestSpec::new(1, 2, &[(1, V0)])];
    let model = model(2, &[], vec![rule(0, 1, tests, vec![])]);
    for (first, second, entry) in [(5, 5, [1, 5]), (0, 0, [0, 0]), (5, 0, [0, 0]), (0, 5, [0, 0])] {
        let from = state(0, &[buffer(1, first, 9, 0), buffer(2, 9, second, 0)]);
        assert_eq!(model.fresh_table(&from)[..2], entry, "{first} {second}");
    }
}

#[test]
fn the_last_of_256_rules_is_held_to_its_own_slots() {
    // All rules but the last need the second slot, so that alone the last matches.
    let rules = |number| goal_rule(0, if number < 255 { &[(0, V0), (1, V1)] } else { &[(0, V0)] }, vec![]);
    let model = model(1, &[], (0..256).map(rules).collect());
    let table = model.fresh_table(&state(0, &[HALF]));
    assert_eq!((0..256).filter(|rule| table[9 * rule] == 1).collect::<Vec<_>>(), [255]);
}

#[test]
fn a_request_still_finds_facts_with_empty_slots() {
    // The full fact has the higher activation; slots that are not named do not count, and a constant nil finds empty ones.
    let facts = [(1, [3, 0], 1, 100), (2, [3, 0], 1, 100), (2, [0, 3], 2, 70), (2, [3, 4], 9, 60)];
    let asked = |isa, named: &[(usize, Term)]| {
        let asks = goal_rule(0, &[(0, V0)], vec![ActionSpec::request(1, isa, named)]);
        let model = model(2, &facts, vec![asks]);
        let from = state(0, &[HALF]);
        let (number, after, _) = model.run(from, &mut model.fresh_table(&from), 1);
        assert_eq!(number, 0);
        after.buffers[1]
    };
    assert_eq!(asked(1, &[(0, V0)]), buffer(1, 3, 0, 100));
    assert_eq!(asked(2, &[(0, V0)]), buffer(2, 3, 4, 60));
    assert_eq!(asked(2, &[(0, V0), (1, NIL)]), buffer(2, 3, 0, 100));
    assert_eq!(asked(2, &[(0, NIL)]), buffer(2, 0, 3, 70));
    assert_eq!(asked(2, &[(0, NIL), (1, NIL)]), failed(200));
}

/// Rule 0 empties the second slot of a full goal, rule 1 fills that of a half-filled one.
fn fills_and_empties() -> Model {
    let full = goal_rule(0, &[(0, V0), (1, V1)], vec![ActionSpec::modify(0, &[(1, NIL)])]);
    let half = goal_rule(0, &[(0, V0), (1, NIL)], vec![ActionSpec::modify(0, &[(1, V0)])]);
    model(1, &[], vec![full, half])
}

#[test]
fn a_kept_match_follows_a_slot_that_is_filled_and_emptied() {
    let model = fills_and_empties();
    let from = state(0, &[HALF]);
    let mut table = model.fresh_table(&from);
    let (number, after, events) = model.trace(from, &mut table, 5);
    let kinds: Vec<Kind> = events.iter().map(|event| event.kind).collect();
    assert_eq!(kinds, [1, 0, 1, 0, 1].map(Kind::Fire));
    assert_eq!((number, after), (0, state(250, &[buffer(1, 3, 3, 0)])));
    assert_eq!(table, [1, 3, 3, 0, 0, 0, 0, 0, 0, 0, 0, 0, 0, 0, 0, 0, 0, 0]);
    assert_eq!(model.trace_fresh(from, 5), (0, after, events));
}

#[test]
fn a_kept_entry_with_nil_for_a_variable_is_stale() {
    let model = fills_and_empties();
    let from = state(0, &[HALF]);
    let mut table = model.fresh_table(&from);
    table[..3].copy_from_slice(&[1, 3, 0]);
    let before = table.clone();
    assert_eq!(model.run(from, &mut table, 1), (7, from, 0));
    assert_eq!(table, before);
}

#[test]
fn a_kept_entry_with_nil_for_a_variable_stays_while_another_is_chosen() {
    let other = rule(1, 0, vec![TestSpec::new(1, 0, &[])], vec![]);
    let model = model(2, &[], vec![goal_rule(0, &[(0, V0), (1, V1)], vec![]), other]);
    let from = state(0, &[HALF]);
    let mut table = model.fresh_table(&from);
    table[..3].copy_from_slice(&[1, 3, 0]);
    let before = table.clone();
    assert_eq!(model.run(from, &mut table, 4).0, 0);
    assert_eq!(table, before);
}
